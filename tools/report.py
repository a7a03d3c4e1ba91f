#!/usr/bin/env python3
"""What became of the records of a run: by outcome and by rule, over records or capture time, where tables came, and the subscribers with
most drops, by rule.

    tools/report.py VERDICTS [VERSIONS] [--in IN] [--out OUT] [--table TABLE] [--html PAGE] [--json FILE] [--prometheus FILE] [--png PICTURE]
    tools/report.py --add REPORT.json... [--json FILE] [--prometheus FILE]

With IN the course is told over capture time, bytes are counted, and subscribers can be named: of a packet from a tunnel by the tunnel's end, of
one from the IPv4 network by the owner of its destination under TABLE. The report is text on standard output, unless a file is `-`. PAGE is one page
for a browser that needs nothing else: charts, tables that sort, and what each rule means. The JSON has counters with the names of RFC 8676's
traffic statistics; those of packets sent and their bytes need OUT. --add sums such reports. PICTURE needs matplotlib (Debian's
python3-matplotlib). Memory does not grow with the run: of subscribers the 65,536 that were seen most are kept, in which case their counts are
lower bounds."""
from __future__ import annotations

import io

from lwaftr_tools import clock, command, counters, page, reporting, verdicts
from lwaftr_tools.counters import share


def text(report, versions_lines, count):
    lines = [f"{report.records:,} records, {report.sent:,} packets sent"]
    if report.first_time is not None:
        lines.append(f"from {clock.shown(report.first_time)} to {clock.shown(report.last_time)}")
    lines += ["", "By outcome"]
    lines += [f"  {name:<10}{share(report.outcomes[name], report.records)}" for name in verdicts.OUTCOMES if report.outcomes[name]]
    lines += ["", "Drops by rule"] + [f"  {name:<20}{share(number, report.records)}" for name, number in report.rules.most_common()]
    lines.append(f"  answered by an error: {report.answered:,}; kept back by the limit: {report.limited:,}")
    lines.append(f"  datagrams given up after 60 s: {report.expired:,}; that wait at the end: {report.unfinished:,}")
    lines += ["", "Records by the table in force"] + [f"  table {name:<4}{share(number, report.records)}" for name, number in sorted(report.tables.items())]
    lines += [f"  table {name} came at {clock.shown(report.first_time + place * 1_000_000)}" for name, (_, place) in report.came.items() if place is not None]
    if versions_lines:
        lines += ["", "Tables"] + [f"  {it}" for it in versions_lines]
    if report.names.found:
        said = "at least these" if report.names.lost else "all of them"
        lines += ["", f"Most drops ({said})"]
        for name, kinds in report.names.most(count):
            lines.append(f"  {sum(kinds.values()):>10,}  {name}: " + ", ".join(f"{kind} {number:,}" for kind, number in kinds.most_common()))
    return "\n".join(lines) + "\n"


def pictures(report, form):
    """The course of forwarding and of drops, and the rules, as one picture."""
    import matplotlib

    matplotlib.use("Agg")
    from matplotlib import pyplot
    from matplotlib.ticker import FuncFormatter

    over_time = bool(report.by_time.parts)
    course = report.by_time if over_time else report.by_record
    scale = 1000 if over_time else 1
    places = [at * course.width / scale for at in range(len(course.parts))]
    figure, (above, below, rules) = pyplot.subplots(3, 1, figsize=(11, 11), height_ratios=(3, 3, 2), constrained_layout=True)
    thousands = FuncFormatter(lambda value, _: f"{value:,.0f}")
    kept = [it for it in verdicts.OUTCOMES if it != "drop" and report.outcomes[it]]
    dropped = [it for it, _ in report.rules.most_common(8)]
    for axes, kinds, title in ((above, kept, "Forwarded and held"), (below, dropped, "Dropped, by rule")):
        if kinds:
            colours = pyplot.get_cmap("tab10").colors
            axes.stackplot(places, [[part[kind] for part in course.parts] for kind in kinds], labels=kinds, colors=colours, step="post")
            axes.legend(loc="upper left", bbox_to_anchor=(1, 1), frameon=False)
        axes.set_title(title, loc="left")
        axes.set_ylabel(f"records a part of {course.width / scale:,g}{' s' if over_time else ''}")
        axes.set_xlabel("seconds of the capture" if over_time else "record")
        axes.yaxis.set_major_formatter(thousands)
        axes.margins(x=0)
        if not over_time:
            axes.xaxis.set_major_formatter(thousands)
        for name, (record, place) in report.came.items():
            where = place / scale if over_time and place is not None else record
            axes.axvline(where, color="black", linewidth=1, linestyle="--")
            axes.annotate(f"table {name}", (where, 1), xycoords=("data", "axes fraction"), xytext=(3, -12), textcoords="offset points", fontsize=8)
    names = [name for name, _ in report.rules.most_common(12)][::-1]
    bars = rules.barh(names, [report.rules[it] for it in names], color="tab:red")
    rules.bar_label(bars, [f" {report.rules[it]:,}" for it in names])
    rules.set_title("Drops by rule", loc="left")
    rules.xaxis.set_major_formatter(thousands)
    rules.margins(x=0.1)
    made = io.BytesIO()
    figure.savefig(made, format=form, dpi=110)
    return made.getvalue()


def want_pictures():
    """Ends if what draws the pictures is missing."""
    try:
        import matplotlib  # noqa: F401
    except ImportError:
        raise command.Unusable("--png needs matplotlib (Debian: apt-get install python3-matplotlib); no file was touched") from None


def put_counters(words, found):
    if words.json:
        command.put(words.json, counters.as_json(found))
    if words.prometheus:
        command.put(words.prometheus, counters.as_prometheus(found))


def add(words):
    """The sum of reports."""
    found = counters.added([counters.load(it) for it in words.add])
    if "-" not in (words.json, words.prometheus):
        command.say(counters.as_text(found))
    put_counters(words, found)


def report_of_a_run(words):
    if words.png:
        want_pictures()
    lines = reporting.versions(words.versions) if words.versions else []
    report = reporting.read(words)
    said = text(report, lines, words.most)
    if "-" not in (words.html, words.json, words.prometheus, words.png):
        command.say(said)
    put_counters(words, counters.tree(report, words.input is not None))
    if words.html:
        command.put(words.html, page.page(report, lines, words, said))
    if words.png:
        command.put(words.png, pictures(report, "png"))


def parser():
    it = command.Parser(__doc__)
    it.add_argument("verdicts", metavar="VERDICTS", nargs="?", type=command.source, help="VERDICTS of a run")
    it.add_argument("versions", metavar="VERSIONS", nargs="?", type=command.source, help="VERSIONS of the run")
    it.add_argument("--in", dest="input", metavar="IN", type=command.source, help="the capture of the run")
    it.add_argument("--out", metavar="OUT", type=command.source, help="the packets that the run sent; needs --in")
    it.add_argument("--table", metavar="TABLE", type=command.source, help="the table by which owners are named")
    it.add_argument("--add", metavar="REPORT", nargs="+", type=command.source, help="reports in JSON that are summed, in place of a run")
    it.add_argument("--most", type=command.from_zero, default=20, metavar="N", help="how many subscribers are named in the text (20)")
    it.add_argument("--html", metavar="PAGE", help="write a page for a browser")
    it.add_argument("--json", metavar="FILE", help="write the counters as JSON")
    it.add_argument("--prometheus", metavar="FILE", help="write the counters in Prometheus' text form")
    it.add_argument("--png", metavar="PICTURE", help="write a picture (needs matplotlib)")
    return it


def main():
    it = parser()
    words = it.parse_args()
    if bool(words.add) == bool(words.verdicts):
        it.error("give either VERDICTS or --add REPORT.json, once or more")
    if words.add and (words.html or words.png):
        it.error("--add gives text, --json and --prometheus alone")
    if words.out and not words.input:
        it.error("--out needs --in")
    inputs = [words.verdicts, words.versions, words.input, words.out, words.table, *(words.add or [])]
    command.keep_apart(inputs, [words.html, words.json, words.prometheus, words.png])
    if words.add:
        add(words)
    else:
        report_of_a_run(words)


if __name__ == "__main__":
    command.run(main)
