"""Rates and delays of Linux's router, and of lwaftr without fillers beside it."""
import network
from network import SERVER
from probes import EQUAL, Ping, check_speeds, download
from results import check, info
from router import FILLERS, Live, write_table

PINGS, INTERVALS = 200, (0.5, 0.01)
MOST_LATER = 2.0  # milliseconds by which the median may lie above that of Linux's router


def baseline():
    """The figures to hold lwaftr's against."""
    network.use_linux_router()
    info("Linux's router: ping of h1 to the server, 20 echoes", Ping("h1", SERVER, 20).figures())
    check_speeds("Linux's router")


def lag():
    """How long a packet stays in the router, at a slow and at a fast rate, with nothing behind it that would push it out."""
    table = write_table("/tmp/base.toml")
    for interval in INTERVALS:
        network.use_linux_router()
        linux = Ping("h1", SERVER, PINGS, interval)
        with Live(f"lag-{interval}", table, fillers=False):
            ours = Ping("h1", SERVER, PINGS, interval, wait=1)
        judge(f"{PINGS} pings every {interval} s without fillers: median of lwaftr beside Linux's router", linux, ours)
    with Live("lag", table, fillers=False):
        good, rate, error = download("h1", f"http://{SERVER}", 100_000, 20)
    seen = f"{'equal' if good else error}, {rate:.2f} Mbit/s"
    name = "100 kB by curl without fillers"
    if FILLERS:
        info(name, seen)
    else:
        check(name, EQUAL, seen, good)


def judge(name, linux, ours):
    seen = f"{ours.median:.2f} ms beside {linux.median:.2f} ms; {ours.replies} and {linux.replies} of {PINGS} come back"
    if FILLERS:
        info(name, seen)
    else:
        check(name, f"at most {MOST_LATER:.0f} ms more, all come back", seen,
              ours.median <= linux.median + MOST_LATER and ours.replies == linux.replies == PINGS)
