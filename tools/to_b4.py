#!/usr/bin/env python3
"""The subscriber's side of a table, for each binding or for those of one subscriber (--b4), in one of four forms:

  option  the DHCPv6 option 96 of RFC 7598, section 5.3 (OPTION_S46_CONT_LW) in hexadecimal digits: the router's end of the tunnel, the binding,
          and the port set, whose identifier is left-aligned in its 16 bits
  kea     reservations of Kea's DHCPv6 server with that option; Kea knows a subscriber by its DUID, which --duids gives
  uci     a section of OpenWrt's /etc/config/network, of protocol `map` and type `lw4o6`
  nft     rules of nftables for the Linux host that is one B4, so it needs --b4: each flow is put on one of its port ranges, in turn

The addresses of hosts behind the B4 are --lan (192.168.1.0/24), and the tunnel's device is --device (softwire0). The LIST of --duids has a line
`B4,DUID` for each subscriber, as 2001:db8:1::1,00:03:00:01:02:00:00:00:00:01. A subscriber without a DUID is named and left out, and so is each
further binding of one (option 96 holds one binding); exit code 1 then, after all else is written."""
from __future__ import annotations

import csv
import functools
import io
import ipaddress
import re
import struct

from lwaftr_tools import addresses, command, converting, tables

CONTAINER, BR, BIND, PORT_PARAMETERS = 96, 90, 92, 93


DUID = re.compile(r"[0-9a-fA-F]{2}(:?[0-9a-fA-F]{2}){2,129}")


def option(code, data):
    """A DHCPv6 option (RFC 8415, section 21.1) in hexadecimal digits, as its data is."""
    return f"{code:04x}{len(data) // 2:04x}{data}"


@functools.lru_cache(maxsize=None)
def ports_option(offset, length, psid):
    """The option of a port set (RFC 7598, section 4.5); a whole address has none."""
    if (offset, length) == ("0", "0"):
        return ""
    return option(PORT_PARAMETERS, struct.pack("!BBH", int(offset), int(length), int(psid) << (16 - int(length)) & 0xFFFF).hex())


@functools.lru_cache(maxsize=1 << 16)
def hex_of_ipv4(text):
    return addresses.ipv4(text).packed.hex()


def router_option(softwire):
    """The option of the router (RFC 7598, section 4.2)."""
    return option(BR, softwire.aftr.packed.hex())


def inside_of_container(it, router):
    """What option 96 holds: the option of the router, and that of the binding with its port set (RFC 7598, section 4.4)."""
    # the whole address is the prefix that a subscriber's address begins with
    return router + option(BIND, f"{hex_of_ipv4(it.ipv4)}80{addresses.packed6(it.b4).hex()}{ports_option(it.offset, it.length, it.psid)}")


def as_option(softwire, rows, _):
    router = router_option(softwire)
    for it in rows:
        yield f"{it.b4} {option(CONTAINER, inside_of_container(it, router))}\n"


def duids(path):
    """The DUID of each subscriber of a list."""
    found, rows = {}, csv.reader(io.StringIO(command.text_of(path, newline=""), newline=""))
    for row in rows:
        words = [it.strip() for it in row]
        if not any(words) or words[0].startswith("#"):
            continue
        try:
            if len(words) != 2:
                raise ValueError(f"columns here: {len(words)}, wanted: 2 (b4,duid)")
            if not DUID.fullmatch(words[1]):
                raise ValueError(f"{words[1]!r} is not a DUID (write 3 to 130 bytes in hexadecimal digits, as 00:03:00:01:02:00:00:00:00:01)")
            b4 = addresses.packed6(words[0])
            if b4 in found:
                raise ValueError(f"{words[0]} has a DUID already")
            found[b4] = words[1]
        except ValueError as error:
            raise converting.SourceError(path, rows.line_num, error) from None
    return found


def reserved(rows, words):
    """Each binding that a reservation can hold, with the subscriber's DUID; the others are named."""
    known, seen = duids(words.duids), set()
    for it in rows:
        duid = known.get(addresses.packed6(it.b4))
        if it.b4 in seen:
            words.left_out(it, "option 96 holds one binding, and another one of this subscriber is there")
        elif duid is None:
            words.left_out(it, f"{words.duids} has no DUID of this subscriber")
        else:
            seen.add(it.b4)
            yield it, duid


def as_kea(softwire, rows, words):
    """The lines of JSON; no text in them holds a character that is to be escaped."""
    router, mark = router_option(softwire), "\n"
    yield '{"Dhcp6": {"reservations": ['
    for it, duid in reserved(rows, words):
        data = f'{{"code": {CONTAINER}, "space": "dhcp6", "csv-format": false, "data": "{inside_of_container(it, router)}"}}'
        yield f'{mark}{{"duid": "{duid}", "ip-addresses": ["{it.b4}"], "option-data": [{data}]}}'
        mark = ",\n"
    yield "\n]}}\n"


def as_uci(softwire, rows, _):
    aftr, mtu = addresses.shown(softwire.aftr), softwire.mtu6 - 40
    for at, it in enumerate(rows):
        yield (
            f"config interface 'softwire{at}'\n\toption proto 'map'\n\toption type 'lw4o6'\n\toption peeraddr '{aftr}'\n\toption ipaddr '{it.ipv4}'\n"
            f"\toption ip4prefixlen '32'\n\toption ip6prefix '{it.b4}'\n\toption ip6prefixlen '128'\n\toption offset '{it.offset}'\n"
            f"\toption psidlen '{it.length}'\n\toption psid '{it.psid}'\n\toption mtu '{mtu}'\n\toption encaplimit 'ignore'\n\n"
        )


PROTOCOLS = ("tcp", "udp", "icmp")


def nft_ranges(it):
    """A map from numbers to port ranges, for `numgen`."""
    return ", ".join(f"{at} : {it.ipv4} . {first}-{last}" for at, (first, last) in enumerate(it.ranges()))


def nft_target(it):
    """The lines that give a flow its address and port."""
    if it.is_whole():
        return [f"snat to {it.ipv4}"]
    ranges = f"numgen inc mod {len(it.ranges())} map {{ {nft_ranges(it)} }}"
    return [f"meta l4proto {protocol} snat ip to {ranges}" for protocol in PROTOCOLS]


def as_nft(softwire, rows, words):
    for at, it in enumerate(row.binding() for row in rows):
        front = f'oifname "{words.device}" ip saddr {words.lan}'
        yield f"table ip softwire{at} {{ # {addresses.shown(it.b4)} to {softwire.aftr}\n"
        yield "  chain postrouting {\n    type nat hook postrouting priority srcnat;\n"
        yield from (f"    {front} {target}\n" for target in nft_target(it))
        yield "  }\n  chain forward {\n    type filter hook forward priority filter;\n"
        yield f'    oifname "{words.device}" tcp flags syn tcp option maxseg size set rt mtu\n  }}\n}}\n'


FORMS = {"option": as_option, "kea": as_kea, "uci": as_uci, "nft": as_nft}


def network(word):
    return ipaddress.IPv4Network(word)


def main():
    it = converting.parser(__doc__, "TABLE")
    it.add_argument("form", metavar="FORM", choices=FORMS, help="option, kea, uci or nft")
    it.add_argument("--b4", metavar="IPV6", type=converting.address_word(addresses.ipv6), help="only this subscriber")
    it.add_argument("--lan", metavar="NETWORK", type=network, default=network("192.168.1.0/24"), help="the hosts behind the B4, for nft")
    it.add_argument("--device", metavar="NAME", default="softwire0", help="the tunnel's device, for nft (softwire0)")
    it.add_argument("--duids", metavar="LIST", type=command.source, help="a line B4,DUID for each subscriber, for kea")
    words = it.parse_args()
    if (words.form == "kea") != bool(words.duids):
        it.error("kea needs --duids LIST, since Kea knows a subscriber by its DUID" if words.form == "kea" else "--duids is for kea alone")
    if words.form == "nft" and not words.b4:
        it.error("nft needs --b4 IPV6, since the rules are those of one host")
    command.keep_apart([words.file, words.duids], [words.output])
    table, left_out = tables.document(words.file), []
    rows = table.rows if words.b4 is None else [it for it in table.rows if it.b4 == addresses.shown(words.b4)]
    if not rows:
        raise command.Refused(f"{words.file}: no binding is there{f' of {addresses.shown(words.b4)}' if words.b4 else ''}")

    def leave_out(it, why):
        left_out.append(it)
        command.warn(f"{words.file}: left out: the binding of {it.b4} ({it.ipv4}): {why}")

    words.left_out = leave_out
    command.put(words.output, "".join(FORMS[words.form](table.softwire, rows, words)))
    return command.REFUSED if left_out else command.DONE


if __name__ == "__main__":
    command.run(main)
