"""For each rule by which a record is dropped: what it means, where it comes from, and what to do."""
import typing


class RuleText(typing.NamedTuple):
    meaning: str
    source: str
    action: str


RULES = {
    "frame-short": RuleText("The record has too few bytes for its frame header.", "this router's own rule", "Look at the capture, not at a subscriber."),
    "frame-type": RuleText("The frame holds neither IPv4 nor IPv6: ARP, or a second VLAN tag.", "this router's own rule", "Nothing, unless packets have two tags: remove one with tcprewrite."),
    "ip4-malformed": RuleText("A packet from the IPv4 network has a faulty header, or fewer bytes than it claims.", "RFC 791, section 3.1", "Check the snapshot length of the capture, then the path."),
    "ip4-checksum": RuleText("The header checksum of a packet from the IPv4 network is wrong.", "RFC 1812, section 5.2.2", "Turn off checksum offload where the capture is taken; else look for damage on the path."),
    "ip6-malformed": RuleText("An IPv6 packet has a faulty header, or fewer bytes than it claims.", "RFC 8200, section 3", "Check the snapshot length of the capture, then the path."),
    "ip6-chain": RuleText("The extension headers are cut off, out of order, or ask for source routing.", "RFC 8200, section 4", "Look at the sender: a tunnel packet needs none of these."),
    "frag-odd": RuleText("A fragment is empty, or its length is no multiple of 8 although more follow.", "RFC 8200, section 4.5", "Look at the sender, which cuts packets wrongly."),
    "frag-long": RuleText("A fragment, or the datagram that it completes, reaches past 65,535 bytes.", "RFC 8200, section 4.5", "Treat the sender as faulty or hostile."),
    "frag-overlap": RuleText("Fragments of one datagram overlap or contradict one another.", "RFC 8200, section 4.5", "Treat the sender as hostile; check for routes that duplicate packets."),
    "frag-many": RuleText("A datagram comes in more than 256 fragments.", "this router's own rule", "Look at the sender: no path needs fragments that small."),
    "frag-full": RuleText("256 incomplete datagrams wait in the lane of this fragment.", "this router's own rule", "Filter the capture to the tunnel address and IPv4; look for lost fragments or an attack."),
    "not-ours": RuleText("A packet from a subscriber is addressed to another tunnel address.", "this router's own rule", "Check the router address in the subscriber's provisioning, and routes."),
    "not-softwire": RuleText("A packet for the tunnel address carries neither IPv4 nor an ICMPv6 error about a tunnel packet.", "RFC 4443, section 3", "Nothing for pings; else find who sends it."),
    "inner-malformed": RuleText("The packet in a tunnel has a faulty IPv4 header, or fewer bytes than it claims.", "RFC 1812, section 5.2.2", "Look at the subscriber's equipment."),
    "inner-checksum": RuleText("The header checksum of the packet in a tunnel is wrong.", "RFC 1812, section 5.2.2", "Look at the subscriber's equipment."),
    "to-self": RuleText("A packet is addressed to the router's own IPv4 address, which answers nothing.", "this router's own rule", "Nothing."),
    "icmp-off": RuleText("ICMP from the IPv4 network came while `icmp_in` is false.", "RFC 7596, section 8.1", "Set `icmp_in = true` if path MTU discovery is to work."),
    "icmp-bad": RuleText("An ICMP message is damaged, or quotes nothing that names a subscriber.", "RFC 5508, REQ-3", "Look at its sender."),
    "no-port": RuleText("The packet names no port, so it has no owner.", "this router's own rule", "Nothing for single packets; many mean a sender that cuts too short."),
    "no-binding": RuleText("Nobody owns the address and port, or a subscriber used a source that is not its own.", "RFC 7596, section 6.2", "From one subscriber: check for a stale lease. From outside: mostly scans."),
    "ttl": RuleText("The time to live is used up.", "RFC 1812, section 5.3.1", "Nothing for traceroute; many mean a routing loop."),
    "too-big": RuleText("The packet is larger than its way out, and must not be cut.", "RFC 2473, section 7.2", "Check `mtu6` and `mtu4`, and whether ICMP reaches the sender."),
    "hairpin-off": RuleText("A subscriber sent to another one while `hairpin` is false.", "this router's own rule", "Set `hairpin = true` if subscribers are to reach one another."),
    "hairpin-no-binding": RuleText("A subscriber sent to an address of subscribers, to a port that none owns.", "RFC 7596, section 6.2", "Nothing for scans; else compare the table with yesterday's."),
    "relayed": RuleText("An ICMPv6 error about a tunnel packet was passed on to the sender of the packet inside.", "RFC 2473, section 8", "Many mean a path to a subscriber that is broken or too small for `mtu6`."),
    "relay-bad": RuleText("An ICMPv6 error has a wrong checksum, or quotes no tunnel packet of this router.", "RFC 2473, section 8", "Look at its sender."),
    "relay-no-binding": RuleText("An ICMPv6 error quotes a packet that no binding fits.", "RFC 7596, section 6.2", "Check whether a binding was removed while packets were on their way."),
    "relay-mute": RuleText("An ICMPv6 error quotes a packet whose sender may get no error.", "RFC 1122, section 3.2.2", "Nothing."),
}
