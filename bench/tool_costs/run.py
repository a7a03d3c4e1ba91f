#!/usr/bin/env python3
"""What the tools cost: seconds of processor, the least of some runs, and the most memory of one.

  bench/tool_costs/run.py [RUNS]     RUNS: how often each command is run (7; those over a million records once)

Tables have 65,536 bindings, and a capture has 1,000,000 records. Ends with 1 if a tool over one table takes more than a second or 200 MB.
LWAFTR names the program that the tools run (./lwaftr). The tools are run by this Python."""
import ipaddress
import os
import shutil
import subprocess
import sys
import tempfile

TOP = os.path.dirname(os.path.dirname(os.path.dirname(os.path.realpath(__file__))))
TOOLS = os.path.join(TOP, "tools")
sys.path.insert(0, TOOLS)
sys.path.insert(0, os.path.join(TOOLS, "tests"))
import shared  # noqa: E402
from lwaftr_tools import addresses, captures, tables  # noqa: E402

BINDINGS, RECORDS = tables.MOST, 1_000_000
FIRST_TIME = 1_796_117_400_000_000_000
MOST_SECONDS, MOST_MEGABYTES = 1, 200
GIVEN = ("--aftr", shared.AFTR, "--own", shared.OWN)


def b4_of(at):
    return ipaddress.IPv6Address((0x2001_0DB8_0001_0000 << 64) + 1 + at)


def ipv4_of(at):
    return ipaddress.IPv4Address(0x0A00_0000 + (at >> 8))


def table(moved):
    """A table in which each of so many subscribers has another tunnel than in a table where none has."""
    every = BINDINGS // moved if moved else BINDINGS + 1
    softwire = shared.a_table().softwire
    return tables.Table(softwire, [tables.Binding(b4_of(at + (1 << 20 if at % every == 0 and moved else 0)), ipv4_of(at), 6, 8, at & 255) for at in range(BINDINGS)])


def put(name, text):
    with open(name, "w", encoding="utf-8") as file:
        file.write(text)


def tool(name, *words):
    return [sys.executable, os.path.join(TOOLS, f"{name}.py"), *words]


def lists():
    """The tables, and the lists of subscribers and of questions."""
    for name, moved in (("table.toml", 0), ("some.toml", 4096), ("all.toml", BINDINGS)):
        put(name, tables.text(table(moved)))
    whole = table(0)
    rows = [(addresses.shown(it.b4), it.ipv4, it.psid) for it in whole.bindings]
    put("list.csv", "".join(f"{ipv4},6,8,{psid},{b4}\n" for b4, ipv4, psid in rows))
    put("duids.csv", "".join(f"{b4},00:03:00:01:02:00:{at >> 24:02x}:{at >> 16 & 255:02x}:{at >> 8 & 255:02x}:{at & 255:02x}\n" for at, (b4, _, _) in enumerate(rows)))
    whole.bindings[-1] = whole.bindings[0]
    put("refused.toml", tables.text(whole))
    for count in (1000, 100_000):
        asked = (f"2026-11-{1 + at % 28:02}T10:00:00Z,{ipv4_of(at * 7919 % BINDINGS)},{at * 31 % 65536}\n" for at in range(count))
        put(f"questions-{count}.csv", "".join(asked))


def apart(make):
    """Makes files in a process of its own, so that this one stays small: the memory of the starting process counts as that of a program that it starts."""
    process = os.fork()
    if process == 0:
        make()
        os._exit(0)
    if os.waitpid(process, 0)[1]:
        sys.exit(f"run.py: {make.__name__} failed")


def other_forms():
    for name, *words in (("to_snabb", "-o", "snabb.conf"), ("to_vpp", "-o", "vpp.cli"), ("to_yang", "-o", "yang.json"), ("to_yang", "--xml", "-o", "yang.xml")):
        subprocess.run(tool(name, "table.toml", *words), check=True, stderr=subprocess.DEVNULL)


def records():
    """Packets of all subscribers, of which each tenth comes out of another one's tunnel."""
    for at in range(RECORDS):
        subscriber = at * 7919 % BINDINGS
        ipv4, port = ipv4_of(subscriber), 1024 + 4 * (subscriber & 255)
        if at % 2:
            data = shared.ip4(shared.FAR, ipv4, 17, shared.udp(53, port, bytes(58)), number=at & 0xFFFF)
        else:
            b4 = b4_of((subscriber + (at % 10 == 0)) % BINDINGS)
            data = shared.ip6(b4, shared.AFTR, 4, shared.ip4(ipv4, shared.FAR, 17, shared.udp(port, 53, bytes(18)), number=at & 0xFFFF))
        yield FIRST_TIME + at * 500_000, data


def a_run():
    captures.write("in.pcap", records())
    words = ("in.pcap", "out.pcap", "verdicts.txt", "versions.txt", "table.toml")
    subprocess.run([tables.PROGRAM, "run", *words], check=True, stdout=subprocess.DEVNULL)


OF_A_TABLE = (
    tool("from_csv", "list.csv", *GIVEN), tool("from_snabb", "snabb.conf", *GIVEN), tool("from_vpp", "vpp.cli", *GIVEN),
    tool("from_yang", "yang.json", *GIVEN), tool("from_yang", "yang.xml", *GIVEN),
    tool("to_snabb", "table.toml"), tool("to_vpp", "table.toml"), tool("to_yang", "table.toml"), tool("to_yang", "table.toml", "--xml"),
    tool("to_b4", "table.toml", "option"), tool("to_b4", "table.toml", "uci"), tool("to_b4", "table.toml", "kea", "--duids", "duids.csv"),
    tool("to_b4", "table.toml", "nft", "--b4", str(b4_of(0))),
    tool("ports", "table.toml"), tool("ports", "table.toml", "--b4", str(b4_of(0))), tool("ports", "table.toml", "--ipv4", str(ipv4_of(0))),
    tool("ports", "refused.toml"), tool("who_at", "questions-1000.csv", "2026-11-01=table.toml"),
)
OF_TWO_TABLES = (
    tool("diff_tables", "table.toml", "table.toml"), tool("diff_tables", "table.toml", "some.toml"), tool("diff_tables", "table.toml", "some.toml", "--json"),
    tool("diff_tables", "table.toml", "all.toml"), tool("who_at", "questions-100000.csv", "2026-11-01=table.toml", "2026-11-15=some.toml"),
)
OF_RECORDS = (
    tool("report", "verdicts.txt", "versions.txt"),
    tool("report", "verdicts.txt", "versions.txt", "--in", "in.pcap", "--out", "out.pcap", "--table", "table.toml", "--html", "page.html", "--json", "report.json"),
    tool("compare", "out.pcap", "out.pcap", "--verdicts", "verdicts.txt"),
    tool("why", "in.pcap", "table.toml", str(RECORDS - 1), "--verdicts", "verdicts.txt"),
)
DISSECTED = [
    "tshark", "-X", f"lua_script:{TOOLS}/lwaftr.lua", "-X", "lua_script1:verdicts.txt", "-r", "in.pcap", "-Y", 'lwaftr.rule == "no-binding"', "-w", "part.pcap",
]


def cost(words):
    """Seconds of processor and megabytes of a command and of the programs that it runs."""
    process = subprocess.Popen(words, stdout=subprocess.DEVNULL, stderr=subprocess.DEVNULL)
    _, status, used = os.wait4(process.pid, 0)
    process.returncode = os.waitstatus_to_exitcode(status)
    if process.returncode > 1:
        sys.exit(f"run.py: {' '.join(words[1:])} ended with {process.returncode}")
    return used.ru_utime + used.ru_stime, used.ru_maxrss / 1024


def row(words, runs):
    """Measures a command and prints its row; the seconds and the megabytes."""
    costs = [cost(words) for _ in range(runs)]
    seconds, memory = min(it[0] for it in costs), max(it[1] for it in costs)
    shown = " ".join(words[1:] if words[0] == sys.executable else words).replace(f"{TOOLS}/", "")
    print(f"| `{shown}` | {seconds:.2f} | {memory:.0f} MB |", flush=True)
    return seconds, memory


def main():
    runs = int(sys.argv[1]) if len(sys.argv) > 1 else 7
    with tempfile.TemporaryDirectory() as folder:
        os.chdir(folder)
        apart(lists)
        other_forms()
        costs = [row(words, runs) for words in OF_A_TABLE]
        for words in OF_TWO_TABLES:
            row(words, runs)
        apart(a_run)
        for words in (*OF_RECORDS, *([DISSECTED] if shutil.which("tshark") else ())):
            row(words, 1)
        os.chdir("/")
    if any(seconds > MOST_SECONDS or memory > MOST_MEGABYTES for seconds, memory in costs):
        sys.exit(1)


if __name__ == "__main__":
    main()
