"""Headers as bytes."""
import ipaddress
import struct
from typing import NamedTuple

ICMP, TCP, UDP = 1, 6, 17
PPP_IPV4, ETHERNET_IPV4, ETHERNET_ARP = 0x0021, 0x0800, 0x0806
FIN, SYN, RST, ACK = 1, 2, 4, 16
MORE_FRAGMENTS, DO_NOT_FRAGMENT = 1, 2
WINDOW = 65535


def number(address):
    return int(ipaddress.IPv4Address(address))


def checksum(data):
    """The Internet checksum (RFC 1071)."""
    if len(data) % 2:
        data += b"\0"
    total = sum(struct.unpack(f">{len(data) // 2}H", data))
    while total >> 16:
        total = (total & 0xFFFF) + (total >> 16)
    return total ^ 0xFFFF


class Ipv4(NamedTuple):
    """A head without options (RFC 791, section 3.1); the offset counts units of eight bytes."""

    total: int
    identity: int
    flags: int
    offset: int
    ttl: int
    proto: int
    src: int
    dst: int

    def write(self):
        head = struct.pack(
            ">BBHHHBBHII", 0x45, 0, self.total, self.identity, self.flags << 13 | self.offset, self.ttl, self.proto, 0, self.src, self.dst
        )
        return head[:10] + struct.pack(">H", checksum(head)) + head[12:]


def read_ipv4(data):
    _, _, total, identity, fragment, ttl, proto, _, src, dst = struct.unpack(">BBHHHBBHII", data[:20])
    return Ipv4(total, identity, fragment >> 13, fragment & 0x1FFF, ttl, proto, src, dst)


def with_pseudo_head(src, dst, proto, data):
    """The checksum of a segment or datagram, over its pseudo-head too."""
    return checksum(struct.pack(">IIBBH", src, dst, 0, proto, len(data)) + data)


def udp(src, dst, sport, dport, payload):
    """A datagram's head (RFC 768)."""
    length = 8 + len(payload)
    total = with_pseudo_head(src, dst, UDP, struct.pack(">HHHH", sport, dport, length, 0) + payload) or 0xFFFF
    return struct.pack(">HHHH", sport, dport, length, total)


def icmp(kind, code, rest, data):
    """A message's head (RFC 792)."""
    head = struct.pack(">BBHI", kind, code, 0, rest)
    return struct.pack(">BBHI", kind, code, checksum(head + data), rest)


class Tcp(NamedTuple):
    """A segment's head (RFC 9293, section 3.1), with its MSS where it tells one."""

    sport: int
    dport: int
    seq: int
    ack: int
    flags: int
    mss: int | None = None
    window: int = WINDOW

    def write(self, src, dst, payload):
        options = b"" if self.mss is None else struct.pack(">BBH", 2, 4, self.mss)
        offset = (20 + len(options)) // 4 << 4
        front = struct.pack(">HHIIBBH", self.sport, self.dport, self.seq, self.ack, offset, self.flags, self.window)
        total = with_pseudo_head(src, dst, TCP, front + bytes(4) + options + payload)
        return front + struct.pack(">HH", total, 0) + options


def read_tcp(data):
    sport, dport, seq, ack, offset, flags, window = struct.unpack(">HHIIBBH", data[:16])
    size = (offset >> 4) * 4
    mss = struct.unpack(">H", data[22:24])[0] if size == 24 else None
    return Tcp(sport, dport, seq, ack, flags, mss, window), size


def ethernet(dst, src, proto):
    return dst + src + struct.pack(">H", proto)


def arp(op, sender_mac, sender, target_mac, target):
    """A message about IPv4 addresses on Ethernet (RFC 826)."""
    return struct.pack(">HHBBH6sI6sI", 1, 0x0800, 6, 4, op, sender_mac, sender, target_mac, target)
