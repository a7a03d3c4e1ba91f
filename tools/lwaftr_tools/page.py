"""A report as one page for a browser, with all that it needs inside it."""
from __future__ import annotations

import html
import json
import os
import re
import shlex
import subprocess

from . import clock, command, rule_texts, tables, verdicts

WEB = os.path.join(os.path.dirname(os.path.abspath(__file__)), "web")
# how many subscribers the page has
MOST_SUBSCRIBERS = 1000


def part(name):
    with open(os.path.join(WEB, name), encoding="utf-8") as file:
        return file.read()


def program_version():
    """What the program says of its version; nothing if it says none."""
    try:
        it = subprocess.run([tables.PROGRAM, "--version"], capture_output=True, text=True, check=False)
    except OSError:
        return ""
    return it.stdout.strip() if it.returncode == 0 else ""


def page(report, versions, words, text):
    """The page of a report: the lines of VERSIONS, the words of the command, and the report as text."""
    values = {
        "TITLE": html.escape(f"lwaftr: {_name(words.input or words.verdicts)}"),
        "STYLE": part("page.css"), "TEXT": html.escape(text), "LICENCE": html.escape(part("LICENSE-chart.txt")),
        "DATA": _inside_script(data(report, versions, words)), "CHART": part("chart.min.js"), "SCRIPT": part("page.js"),
    }
    return re.sub(r"@([A-Z]+)@", lambda found: values[found[1]], part("page.html"))


def _name(path):
    return command.readable(os.path.basename(path))


def _inside_script(tree):
    """JSON that ends no script, whatever its texts hold."""
    return json.dumps(tree).replace("<", "\\u003c").replace(">", "\\u003e").replace("&", "\\u0026")


def data(report, versions, words):
    has_bytes = report.first_time is not None
    return {
        "title": _name(words.input or words.verdicts),
        "facts": facts(report, versions, words),
        "records": report.records,
        "outcomes": {it: report.outcomes[it] for it in verdicts.OUTCOMES if report.outcomes[it]},
        "rules": {
            name: {"packets": count, "bytes": report.rule_bytes[name], "first": report.first_of[name][0]} for name, count in report.rules.most_common()
        },
        "has_bytes": has_bytes,
        "subscribers": [{"name": name, "total": sum(its.values()), "rules": dict(its.most_common())} for name, its in report.names.most(MOST_SUBSCRIBERS)],
        "note": note(report),
        "tables": table_lines(report, versions),
        "course": course(report),
        "came": [{"table": name, "place": record if place is None else place / 1000} for name, (record, place) in report.came.items()],
        "meaning": meaning(report, versions, words),
    }


def facts(report, versions, words):
    """What stands in the head of the page, as names and values."""
    found = [("Capture", words.input), ("Verdicts", words.verdicts), ("Table of owners", words.table), ("Program", program_version())]
    if report.first_time is not None:
        found.append(("Time", f"{clock.shown(report.first_time)} to {clock.shown(report.last_time)}"))
    if versions:
        found.append(("Tables", f"{sum(1 for it in versions if not it.startswith('-'))} in force, {sum(1 for it in versions if it.startswith('-'))} not"))
    found += [
        ("Records", f"{report.records:,}"), ("Packets sent", f"{report.sent:,}"), ("Dropped", f"{report.outcomes['drop']:,}"),
        ("Errors", f"{report.answered:,} sent for drops, {report.limited:,} kept back by the limit"),
        ("Datagrams", f"{report.expired:,} given up after 60 s, {report.unfinished:,} not whole at the end"),
    ]
    return [(name, command.readable(value)) for name, value in found if value]


def note(report):
    kept, all_names = min(MOST_SUBSCRIBERS, len(report.names.found)), len(report.names.found)
    least = " Counts are lower bounds: there were more names than are kept." if report.names.lost else ""
    return f"{kept:,} of {all_names:,} are shown.{least}" if all_names else ""


def table_lines(report, versions):
    lines = {it.split()[0]: it for it in versions if not it.startswith("-")}
    found = [{"name": str(name), "records": count, "line": lines.get(str(name), "")} for name, count in sorted(report.tables.items())]
    unused = [it for name, it in lines.items() if int(name) not in report.tables] + [it for it in versions if it.startswith("-")]
    return found + [{"name": it.split()[0], "records": 0, "line": it} for it in unused]


def course(report):
    """The parts of the course, with their places and the axis."""
    over_time = bool(report.by_time.parts)
    its = report.by_time if over_time else report.by_record
    step = its.width / 1000 if over_time else its.width
    return {
        "parts": [dict(part) for part in its.parts],
        "places": [round(at * step, 3) for at in range(len(its.parts))],
        "end": round(len(its.parts) * step, 3),
        "rate": step if over_time else 1,
        "step": f"{step:,g} s" if over_time else f"{step:,} records",
        "axis": "seconds from the first record" if over_time else "record",
        "unit": "records per second" if over_time else f"records of each {step:,}",
    }


def table_of(versions, number, words):
    """The file of the table with a number, by VERSIONS; else the one that the words name."""
    for it in versions:
        found = re.fullmatch(rf"{number} (.+) (?:initial|at \d+)", it)
        if found:
            return found[1]
    return words.table or "TABLE"


def meaning(report, versions, words):
    """For each rule what it means, and the commands that show its first record."""
    installed = command.tool_name().startswith("lwaftr-")
    why, script = ("lwaftr-why", "/usr/share/lwaftr/lwaftr.lua") if installed else ("tools/why.py", "tools/lwaftr.lua")
    capture, lines = words.input or "IN", words.verdicts
    found = {}
    for name, (record, table) in report.first_of.items():
        it = rule_texts.RULES.get(name)
        if it:
            commands = [
                [why, capture, table_of(versions, table, words), str(record), "--verdicts", lines],
                ["tshark", "-X", f"lua_script:{script}", "-X", f"lua_script1:{lines}", "-r", capture, "-Y", f'lwaftr.rule == "{name}"'],
            ]
            found[name] = {**it._asdict(), "commands": [command.readable(shlex.join(line)) for line in commands]}
    return found
