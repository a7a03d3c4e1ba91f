#!/usr/bin/env python3
"""Puts fragments together, so that routers that cut packets at other places can be compared.

    interop/whole.py CAPTURE WHOLE

WHOLE, a classic capture of plain IP packets (link type 101), has each packet of CAPTURE once and uncut: IPv4 datagrams, tunnel packets,
and the datagrams in them, each at the place of its last fragment. A tunnel packet has no extension headers there. Prints how many packets
it wrote, and how many fragments made no whole. Exit code 1 if there are such fragments, 2 if CAPTURE cannot be read."""
import os
import struct
import sys

HERE = os.path.dirname(os.path.realpath(__file__))
sys.path[:0] = [os.path.join(HERE, "machine"), os.path.join(os.path.dirname(HERE), "tools")]
import packets  # noqa: E402
from lwaftr_tools import captures, command  # noqa: E402
from lwaftr_tools.packets import strip, unpadded  # noqa: E402


class Whole:
    """The packets of a capture, uncut."""

    def __init__(self, path):
        self.path, self.count, self.reassembler = path, 0, packets.Reassembler()

    def __iter__(self):
        for record in captures.records(self.path):
            data = strip(record.link, record.bytes)
            whole = self.take(unpadded(data)) if data else None
            if whole:
                self.count += 1
                yield record.time, whole

    def take(self, data):
        try:
            whole = self.reassembler.take(data)
            return whole and self.in_tunnel(whole)
        except (struct.error, IndexError):
            return data  # what is cut or broken stays as it is

    def in_tunnel(self, data):
        """A tunnel packet whose content is whole; any other packet as it is."""
        outer = packets.parse(data)
        if packets.inner_of(outer) is None:
            return data
        inner = self.reassembler.take(outer.inner().whole(), (outer.source, outer.destination))
        return inner and data[:4] + struct.pack("!HB", len(inner) & 0xffff, packets.IN_IPV4) + data[7:40] + inner


def main():
    if len(sys.argv) != 3:
        raise command.Unusable("usage: whole.py CAPTURE WHOLE")
    command.keep_apart(sys.argv[1:2], sys.argv[2:])
    whole = Whole(sys.argv[1])
    captures.write(sys.argv[2], whole)
    rest = len(whole.reassembler.rest())
    print(f"{whole.count} packets, {rest} fragments that make no whole")
    return command.REFUSED if rest else command.DONE


if __name__ == "__main__":
    command.run(main)
