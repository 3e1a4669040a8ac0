"""Frames and the packets in them, for the tools beside it: link headers, VLAN tags, IP headers,
fragments and flows. Nothing in here refuses: of bytes that are too short it says less.
"""
import struct
from bisect import bisect_right
from collections import defaultdict
from functools import lru_cache
from hashlib import blake2b
from ipaddress import ip_address
from typing import NamedTuple

# Ethernet types
IPV4, IPV6, VLAN = 0x0800, 0x86DD, 0x8100
TAGS = {VLAN, 0x88A8, 0x9100}  # 802.1Q, 802.1ad, and what came before that
TYPES = {IPV4: "IPv4", IPV6: "IPv6", 0x0806: "ARP", 0x88CC: "LLDP", 0x8863: "PPPoE discovery",
         0x8864: "PPPoE", 0x888E: "EAPOL", 0x8847: "MPLS"}
PROTOCOLS = {1: "ICMP", 2: "IGMP", 6: "TCP", 17: "UDP", 47: "GRE", 50: "ESP", 58: "ICMPv6",
             132: "SCTP"}
WITH_PORTS = {6, 17, 132}

# Link types (pcap-linktype(7)); the first four are those that nfq takes.
ETHERNET, RAW, RAW_IPV4, RAW_IPV6 = 1, 101, 228, 229
LOOPBACK, OPENBSD_LOOPBACK, COOKED, COOKED_2 = 0, 108, 113, 276
OTHER_RAW = {12, 14}
TAKEN = {ETHERNET, RAW, RAW_IPV4, RAW_IPV6}
PLAIN = {RAW, LOOPBACK, OPENBSD_LOOPBACK} | OTHER_RAW  # whose packets raw IP can have as they are
# address families of a loopback: IPv4; IPv6 on Linux, Windows, NetBSD, FreeBSD and macOS
FAMILIES = {2, 10, 23, 24, 28, 30}
NO_TYPE = 0xFFFF  # a reserved Ethernet type, for raw frames that aren't IP
# IPv6 extension headers (RFC 8200) with their lengths; 44 is the fragment's, 51 is AH
HOPS, ROUTING, FRAGMENT, AUTHENTICATION, OPTIONS = 0, 43, 44, 51, 60


def big(data):
    return int.from_bytes(data, "big")


@lru_cache(maxsize=4096)
def address(data):
    return str(ip_address(data))


# ---- link headers


class Link(NamedTuple):
    """A link header: its length, the tags as (type, VLAN), and the Ethernet type of what comes
    after it, None where it tells none."""
    length: int
    tags: tuple
    type: int | None

    def is_packet(self):
        """Whether nfq takes what comes after it for a packet: after at most one 802.1Q tag."""
        return self.type in (IPV4, IPV6) and (not self.tags
                                              or len(self.tags) == 1 and self.tags[0][0] == VLAN)

    def vlans(self):
        return [vlan for _, vlan in self.tags]


def link_of(kind, frame):
    """The link header of a frame of a link type that nfq takes."""
    if kind == ETHERNET:
        return ethernet(frame)
    if kind in (RAW_IPV4, RAW_IPV6):
        return Link(0, (), IPV4 if kind == RAW_IPV4 else IPV6)
    return Link(0, (), version_type(frame))


def ethernet(frame):
    at, tags = 12, []
    while len(frame) >= at + 4 and big(frame[at:at + 2]) in TAGS:
        tags.append((big(frame[at:at + 2]), big(frame[at + 2:at + 4]) & 0xFFF))
        at += 4
    return Link(at + 2, tuple(tags), big(frame[at:at + 2]) if len(frame) >= at + 2 else None)


def version_type(packet):
    """The Ethernet type of a packet of IP without a link header."""
    return {4: IPV4, 6: IPV6}.get(packet[0] >> 4) if packet else None


def type_words(link):
    """What is in a frame, for one that nfq takes for no packet: `ARP`, or `2 VLAN tags, IPv4`."""
    if link.type is None:
        what = "too short" if link.length else "no version of IP"
    elif link.type < 0x0600:
        what = "802.3"
    else:
        what = TYPES.get(link.type, f"type 0x{link.type:04x}")
    if not link.tags:
        return what
    count = len(link.tags)
    return f"{count} VLAN tag{'s' if count > 1 else ''}, {what}"


# ---- other link headers, as one that nfq takes


def plain(kind, frame):
    """The packet in a frame of raw IP or a BSD loopback; None where a loopback has another one."""
    if kind in (LOOPBACK, OPENBSD_LOOPBACK):
        # In the byte order of the machine that captured it, which only OpenBSD has fixed.
        families = {big(frame[:4]), int.from_bytes(frame[:4], "little")}
        frame = frame[4:]
        if not families & FAMILIES or not version_type(frame):
            return None
    return frame


def as_ethernet(kind, frame):
    """The frame with an Ethernet header, unknown addresses being zero; None where it can't be."""
    if kind == ETHERNET:
        return frame
    if kind in (COOKED, COOKED_2):
        return uncooked(kind, frame)
    packet = plain(kind, frame) if kind in PLAIN | TAKEN else None
    if packet is None:
        return None
    type_ = link_of(kind, packet).type
    return bytes(12) + struct.pack(">H", NO_TYPE if type_ is None else type_) + packet


def uncooked(kind, frame):
    """A frame of Linux's `any` interface as Ethernet. Its header has only the sender's address."""
    if kind == COOKED and len(frame) >= 16:
        device, size = struct.unpack(">HH", frame[2:6])
        sender, type_, rest = frame[6:12], frame[14:16], frame[16:]
    elif kind == COOKED_2 and len(frame) >= 20:
        device, _, size = struct.unpack(">HBB", frame[8:12])
        sender, type_, rest = frame[12:18], frame[0:2], frame[20:]
    else:
        return None
    if device in (801, 802, 803, 824):  # radio frames and netlink: the type isn't Ethernet's
        return None
    if big(type_) in (1, 4):  # 802.3, where the length stands in the type's place
        type_ = struct.pack(">H", min(len(rest), 1500))
    elif big(type_) < 0x0600:
        return None
    return bytes(6) + (sender if size == 6 else bytes(6)) + type_ + rest


# ---- packets


class Ends(NamedTuple):
    """Who sends a packet to whom. `protocol` is that of the payload, `header` the one in the IP
    header, which differs where IPv6 has extension headers. `ports` are (source, destination) or
    None. Of a fragment `fragment` is what all of its packet have in common, and `offset` its first
    byte's place."""
    protocol: int
    header: int
    source: bytes
    destination: bytes
    ports: tuple | None
    fragment: tuple | None = None
    offset: int = 0

    def proto(self):
        return PROTOCOLS.get(self.protocol, f"protocol {self.protocol}")


def ends_of(kind, packet):
    """The ends of a packet of this Ethernet type, or None."""
    if kind == IPV4 and len(packet) >= 20:
        return ipv4(packet)
    if kind == IPV6 and len(packet) >= 40:
        return ipv6(packet)
    return None


def ports_of(protocol, packet, at):
    if protocol in WITH_PORTS and len(packet) >= at + 4:
        return struct.unpack_from(">HH", packet, at)
    return None


def ipv4(packet):
    source, destination, protocol = packet[12:16], packet[16:20], packet[9]
    place = big(packet[6:8])
    offset, has_more = (place & 0x1FFF) * 8, place & 0x2000
    fragment = (source, destination, protocol, packet[4:6]) if offset or has_more else None
    ports = None if offset else ports_of(protocol, packet, (packet[0] & 15) * 4)
    return Ends(protocol, protocol, source, destination, ports, fragment, offset)


def ipv6(packet):
    source, destination, header = packet[8:24], packet[24:40], packet[6]
    protocol, at, fragment, offset = header, 40, None, 0
    while len(packet) >= at + 8 and not offset:
        if protocol in (HOPS, ROUTING, OPTIONS):
            size = (packet[at + 1] + 1) * 8
        elif protocol == AUTHENTICATION:
            size = (packet[at + 1] + 2) * 4
        elif protocol == FRAGMENT:
            size, offset = 8, big(packet[at + 2:at + 4]) & 0xFFF8
            if offset or packet[at + 3] & 1:
                fragment = (source, destination, packet[at + 4:at + 8])
        else:
            break
        protocol, at = packet[at], at + size
    ports = None if offset else ports_of(protocol, packet, at)
    return Ends(protocol, header, source, destination, ports, fragment, offset)


class Fragments:
    """The ports of first fragments, which later ones don't have. A later one belongs to the last
    first one before it, or, where it came ahead of it, to the next."""

    def __init__(self):
        self.firsts = defaultdict(lambda: ([], []))  # by fragment: places, and the ports there

    def learn(self, place, ends):
        """Notes a first fragment. Places ascend."""
        if ends is not None and ends.fragment and ends.ports and not ends.offset:
            places, ports = self.firsts[ends.fragment]
            places.append(place)
            ports.append(ends.ports)

    def follow(self, place, ends):
        """The ends with the ports of the first fragment, where one is known."""
        if ends is None or not ends.offset or ends.fragment not in self.firsts:
            return ends
        places, ports = self.firsts[ends.fragment]
        return ends._replace(ports=ports[max(bisect_right(places, place) - 1, 0)])


# ---- words, and what a flow is


def end_words(end, port):
    end = address(end)
    if port is None:
        return end
    return f"[{end}]:{port}" if ":" in end else f"{end}:{port}"


def ends_words(ends):
    """`TCP 10.0.0.1:80 > 10.0.0.2:1024`, and what is special of it."""
    source, destination = ends.ports or (None, None)
    words = f"{ends.proto()} {end_words(ends.source, source)} > " \
            f"{end_words(ends.destination, destination)}"
    if ends.header != ends.protocol:
        words += f" after the extension header {ends.header}"
    if ends.fragment:
        words += f", fragment at {ends.offset}" if ends.offset else ", first fragment"
    return words


def vlan_words(vlans):
    return "".join(f"VLAN {vlan}, " for vlan in vlans)


def flow_id(ends, vlans):
    """A number of 53 bits that both directions of a flow have, as long as its ports are known."""
    source, destination = ends.ports or (0, 0)
    pair = sorted([(ends.source, source), (ends.destination, destination)])
    text = repr((ends.protocol, pair, list(vlans)))
    return big(blake2b(text.encode(), digest_size=8).digest()) >> 11
