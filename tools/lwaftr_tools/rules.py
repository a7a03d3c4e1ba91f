"""What becomes of a whole packet under a table, and by which cause: the lists under 'The order of the tests' in FORMATS, line for line."""
from . import packets


def judge(table, packet):
    """The outcome, or the rule of a drop, and its cause in words."""
    if isinstance(packet, packets.Ip4):
        return from_network(table, packet)
    if packet.destination != table.softwire.aftr:
        return "not-ours", f"its destination is {packet.destination}, and the tunnel address is {table.softwire.aftr}"
    if packet.next == packets.ICMP6:
        return of_message(table, packet)
    if packet.next != packets.IPV4:
        return "not-softwire", f"it carries {packets.name(packet.next)}, and a softwire carries IPv4"
    return from_subscriber(table, packet)


def owner(table, address, packet, at):
    """Who owns an end of a packet, its source (0) or its destination (1), in words."""
    if address not in table.of:
        return f"{address} is no subscriber's address"
    port = packets.key(packet, at)
    if port is None:
        return owner_of_all(table, address, packet)
    it = table.owner(address, port)
    if not it:
        return f"port {port} of {address} is nobody's (offset {table.of[address][0].offset}, length {table.of[address][0].length})"
    return f"port {port} of {address} is {it.b4}'s (psid {it.psid})"


def owner_of_all(table, address, packet):
    """The same where the packet names no port."""
    whole = table.owner(address, None)
    if whole:
        return f"{address} is {whole.b4}'s alone"
    count = len(table.of[address])
    why = packets.nameless(packet) or f"{packets.name(packet.protocol)} has no ports by which one could be told"
    return f"{address} is shared by {count} binding{'s' if count > 1 else ''}, and {why}"


def message_fault(packet):
    """What is wrong with the ICMP message of an IPv4 packet (RFC 5508, REQ-3); None where nothing is, or where it carries none."""
    if packet.protocol != packets.ICMP:
        return None
    if len(packet.payload) < 8:
        return "its ICMP message is cut off: it has fewer than 8 bytes"
    if packets.is_echo(packet):
        return None
    if packets.checksum(packet.payload):
        return "its ICMP message has a wrong checksum"
    quote = packets.quoted(packet)
    if not quote or packets.checksum(quote.header):
        return "its ICMP message quotes no IPv4 header that sums up"
    return None


def too_big(packet, limit, which):
    """That a packet does not fit and must not be cut; None where it fits or may be cut."""
    if not packet.df or packet.total <= limit:
        return None
    return f"it has {packet.total} bytes and DF, and {which} takes {limit}"


def too_big_for_tunnel(table, packet):
    return too_big(packet, table.softwire.mtu6 - 40, "the tunnel (`mtu6` less 40)")


def from_network(table, packet):
    keys = table.softwire
    if packet.destination == keys.own:
        return "to-self", f"{packet.destination} is the router's own address (`own`)"
    if packet.protocol == packets.ICMP and not keys.icmp_in:
        return "icmp-off", "the table has `icmp_in = false`"
    if cause := message_fault(packet):
        return "icmp-bad", cause
    if cause := packets.nameless(packet):
        return "no-port", cause
    if not table.owner(packet.destination, packets.key(packet, 1)):
        return "no-binding", owner(table, packet.destination, packet, 1)
    if packet.ttl < 2:
        return "ttl", f"its time to live is {packet.ttl}"
    if cause := too_big_for_tunnel(table, packet):
        return "too-big", cause
    return "down", "sent into the tunnel of its destination's owner"


def from_subscriber(table, outer):
    packet = packets.ip4(outer.payload)
    if not packet or len(outer.payload) < packet.total:
        return "inner-malformed", "the packet inside has a faulty IPv4 header, or fewer bytes than it claims"
    if packets.checksum(packet.header):
        return "inner-checksum", "the checksum of the IPv4 header inside is wrong"
    if cause := message_fault(packet):
        return "icmp-bad", cause
    if cause := packets.nameless(packet):
        return "no-port", cause
    sender = table.owner(packet.source, packets.key(packet, 0))
    if not sender:
        return "no-binding", owner(table, packet.source, packet, 0)
    if sender.b4 != outer.source:
        return "no-binding", f"its owner's tunnel ends at {sender.b4}, it came from {outer.source}"
    if packet.ttl < 2:
        return "ttl", f"its time to live is {packet.ttl}"
    return to_subscriber(table, packet) if packet.destination in table.of else to_network(table, packet)


def to_subscriber(table, packet):
    if not table.softwire.hairpin:
        return "hairpin-off", f"{packet.destination} is a subscriber's address, and the table has `hairpin = false`"
    if not table.owner(packet.destination, packets.key(packet, 1)):
        return "hairpin-no-binding", owner(table, packet.destination, packet, 1)
    if cause := too_big_for_tunnel(table, packet):
        return "too-big", cause
    return "hairpin", "sent from one subscriber into the tunnel of another"


def to_network(table, packet):
    if packet.destination == table.softwire.own:
        return "to-self", f"{packet.destination} is the router's own address (`own`)"
    if cause := too_big(packet, table.softwire.mtu4, "the way out (`mtu4`)"):
        return "too-big", cause
    return "up", "sent out to the IPv4 network"


def of_message(table, outer):
    """What becomes of an ICMPv6 message."""
    if len(outer.payload) < 8:
        return "not-softwire", "its ICMPv6 message has fewer than 8 bytes"
    if outer.payload[0] not in packets.ERRORS6:
        return "not-softwire", f"its ICMPv6 message has type {outer.payload[0]}, and an error about a tunnel packet has 1 to 4"
    if packets.checksum6(outer):
        return "relay-bad", "the checksum of the error is wrong"
    tunnel = quoted_tunnel(outer)
    packet = packets.inside(tunnel) if tunnel else None
    if not packet or packets.checksum(packet.header):
        return "relay-bad", "the error quotes no tunnel packet with an IPv4 header in it that sums up"
    if tunnel.source != table.softwire.aftr:
        return "relay-bad", f"the error quotes no tunnel packet of the router: it came from {tunnel.source}, not from {table.softwire.aftr}"
    return of_quote(table, tunnel, packet)


def quoted_tunnel(outer):
    """The tunnel packet that an ICMPv6 error quotes, with no header but a Fragment header in front of what it carries."""
    quote = packets.quoted6(outer)
    if quote and outer.payload[14] == packets.FRAGMENT:
        return quote if quote.fragment.next == packets.IPV4 else None
    return quote if quote and outer.payload[14] == packets.IPV4 else None


def of_quote(table, tunnel, packet):
    """What becomes of an error that quotes a packet through a tunnel of the router (RFC 2473, section 8)."""
    missing = "no binding fits the packet that the error quotes"
    if packets.nameless_quote(packet):
        return "relay-no-binding", f"{missing}: {packets.nameless_quote(packet)}"
    receiver = table.owner(packet.destination, packets.key(packet, 1))
    if not receiver:
        return "relay-no-binding", f"{missing}: {owner(table, packet.destination, packet, 1)}"
    if receiver.b4 != tunnel.destination:
        return "relay-no-binding", f"{missing}: it went to {tunnel.destination}, and its destination's owner has the tunnel to {receiver.b4}"
    if packet.source in table.of and not table.owner(packet.source, packets.key(packet, 0)):
        return "relay-no-binding", f"{missing}: {owner(table, packet.source, packet, 0)}"
    if not may_be_told(packet):
        return "relay-mute", f"the sender of the quoted packet, {packet.source}, may get no ICMP error"
    return "relayed", f"an error about a tunnel packet of the router was passed on to the sender of the packet inside, {packet.source}"


def may_be_told(packet):
    """Whether both ends of a packet allow an ICMP error to its sender (RFC 1122, section 3.2.2)."""
    to_all = packet.destination.is_multicast or packet.destination == packets.BROADCAST
    return not to_all and packet.source.packed[0] not in (0, 127) and packet.source.packed[0] < 224
