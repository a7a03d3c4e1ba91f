"""TCP of three subscribers, both ways, as fast as it goes: memory, counts, drops."""
import json
import re
import threading
import time

import network
from boxes import BASE, shell
from group_reload import IPERF_PORTS
from probes import iperf
from results import check, info, note
from router import Live, write_table

OTHERS = ("drop too-big", "drop not-ours")
BETWEEN, NOTED = 5, 30  # seconds between two readings, and between two lines


def long():
    with open(f"{BASE}/machine/seconds") as file:
        seconds = int(file.read())
    network.start_iperf(*list(IPERF_PORTS)[1:])
    time.sleep(1)
    with Live("long", write_table("/tmp/base.toml"), "--workers=2", keep=False) as run:
        rates, readings = transfers(run, seconds)
        last = memory_of(run.program_id())
        devices = [statistics_of("isp", "tun6"), statistics_of("inet", "tun4")]
    report(run, rates, readings, seconds)
    check_memory(run, readings, last, seconds)
    check_counts(run, devices)
    check("each of the three goes on to the end", "a rate above 0", {box: f"{rates[box][0]:.1f}" for box in rates}, all(rate[0] > 0 for rate in rates.values()))


def memory_of(process):
    """Kilobytes."""
    with open(f"/proc/{process}/status") as file:
        return int(re.search(r"VmRSS:\s+(\d+)", file.read())[1])


def statistics_of(box, device):
    return json.loads(shell(box, f"ip -s -j link show {device}")[1])[0]["stats64"]


def transfers(run, seconds):
    """The rates of three transfers, and readings in their course: seconds, memory, records."""
    rates, readings = {}, []

    def transfer(port, box, words):
        rates[box] = iperf(box, f"-t {seconds} {words}", port, seconds + 40)
    threads = [threading.Thread(target=transfer, args=(port, box, words)) for (port, box), words in zip(IPERF_PORTS.items(), ("-R", "-R", ""))]
    for thread in threads:
        thread.start()
    begun = time.time()
    while any(thread.is_alive() for thread in threads):
        readings.append((time.time() - begun, memory_of(run.program_id()), run.count()[0]))
        if len(readings) % (NOTED // BETWEEN) == 1:
            note("long: {:.0f} s, {} kB, {} records".format(*readings[-1]))
        time.sleep(BETWEEN)
    time.sleep(1)
    return rates, readings


def report(run, rates, readings, seconds):
    ways = {"h1": "down", "h2": "down", "b4c": "up"}
    info(f"{seconds} s of TCP: Mbit/s, segments sent again", {f"{box} {ways[box]}": f"{rate:.1f}, {again}" for box, (rate, again, _) in rates.items()})
    info("records a second, processor time of the program", f"{run.statistics['records'] / readings[-1][0]:.0f}; {run.statistics['processor_ms'] / 1000:.0f} s")


def check_memory(run, readings, last, seconds):
    after = next(memory for at, memory, _ in readings if at >= min(60, seconds / 4))
    check("memory of the program: at the beginning, after a minute, at the end, the most (kB)", "at the end at most 1 MB more than after a minute",
          f"{readings[0][1]}, {after}, {last}, {run.statistics['kilobytes']}", last <= after + 1024)


def check_counts(run, devices):
    figures, tally = run.statistics, run.tally()
    check("the program's end", "status 0", f"status {run.status}", run.status == 0)
    real = figures["records"] - figures["fillers"]
    verdicts, sent = (sum(counts[at] for counts in tally.values()) for at in (0, 1))
    check("records, by their verdicts", "as many as were put in", f"{verdicts} verdicts, {real} records, {figures['fillers']} fillers", verdicts == real > 0)
    check("packets, by their verdicts", "as many as the devices took", f"{sent} by verdicts, {figures['sent']} taken, {figures['refused']} not", sent == figures["sent"] and not figures["refused"])
    handed, lost = (sum(device["tx"][key] for device in devices) for key in ("packets", "dropped"))
    info("packets that the devices handed to the program; those that a device dropped before, since its queue was full", f"{handed}; {lost}")
    records = {words: counts[0] for words, counts in tally.items()}
    others = {words: count for words, count in records.items() if words not in ("up", "down", "held")}
    check("drops", "too-big at the beginning of a flow, and IPv6's own messages (not-ours), at most 50 of each", records,
          all(words in OTHERS and count <= 50 for words, count in others.items()))
