"""Sets the network up, runs the groups that machine/groups names (or all but `long`), and writes the table."""
import sys
import traceback

import network
import results
from boxes import BASE, RESULTS
from group_live import live
from group_long import long
from group_offline import offline
from group_path_mtu import mtu, pmtu
from group_rates import baseline, lag
from group_reload import reload, steady
from group_second import second
from group_shapes import shapes

GROUPS = (offline, baseline, lag, live, pmtu, reload, mtu, shapes, steady, second, long)


def run(group):
    results.begin_group(group.__name__)
    try:
        group()
    except Exception as error:
        traceback.print_exc()
        results.check(f"{group.__name__} comes to its end", "it does", repr(error), False)


def main():
    with open(f"{BASE}/machine/groups") as file:
        asked = file.read().split()
    network.set_up()
    results.note("the network is up")
    for group in GROUPS:
        if group.__name__ in asked or (not asked and group is not long):
            run(group)
    results.write(RESULTS)
    return 1 if results.failures() else 0


if __name__ == "__main__":
    sys.exit(main())
