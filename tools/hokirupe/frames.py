"""Frames as a capture has them, read down to UDP, ICMP and TCP; what can't be read is left out."""
import ipaddress
import struct

PPP, ETHERNET = 9, 1
ICMP, TCP, UDP = 1, 6, 17
NAMES = {ICMP: "icmp", TCP: "tcp", UDP: "udp"}
ICMP_KINDS = {0: "echo-reply", 3: "unreachable", 8: "echo-request", 11: "time-exceeded"}
FIN, SYN, RST, ACK = 1, 2, 4, 16


class Frame:
    """A frame: when it was saved, its length, and the datagram in it, or None where it has none."""
    __slots__ = ("time", "length", "datagram", "source_mac")

    def __init__(self, time, length, datagram, source_mac):
        self.time, self.length, self.datagram, self.source_mac = time, length, datagram, source_mac


class Datagram:
    """An IPv4 datagram, or a piece of one: its header, and the header behind it where it stands whole. `size` counts the bytes
    behind the IPv4 header, `data` those behind the header that follows it."""
    __slots__ = ("src", "dst", "proto", "id", "offset", "more", "ttl", "total", "size", "sport", "dport", "kind", "code", "echo", "seq", "ack", "flags", "data")

    @property
    def key(self):
        """What stays the same from hop to hop."""
        return self.src, self.dst, self.proto, self.id, self.offset


class Flow:
    """What datagrams of one kind between the same two ends have in common."""
    __slots__ = ("name", "src", "dst", "sport", "dport")

    def __init__(self, name, src, dst, sport, dport):
        self.name, self.src, self.dst, self.sport, self.dport = name, src, dst, sport, dport

    def _all(self):
        return self.name, self.src, self.dst, self.sport, self.dport

    def __eq__(self, other):
        return isinstance(other, Flow) and self._all() == other._all()

    def __hash__(self):
        return hash(self._all())

    def back(self):
        return Flow(self.name, self.dst, self.src, self.dport, self.sport)

    def __str__(self):
        return f"{self.name} {_end(self.src, self.sport)} > {_end(self.dst, self.dport)}"


def _end(address, port):
    return f"{ipaddress.IPv4Address(address)}" + (f":{port}" if port is not None else "")


def flow_of(datagram):
    """The flow of a datagram; pieces behind the first have no ports."""
    name = NAMES.get(datagram.proto, f"protocol-{datagram.proto}")
    if datagram.proto == ICMP:
        name = "icmp-" + ICMP_KINDS.get(datagram.kind, str(datagram.kind))
    return Flow(name, datagram.src, datagram.dst, datagram.sport, datagram.dport)


def read(time, length, data, link_type):
    """The frame of captured bytes."""
    at, source = (2, None) if link_type == PPP else (14, data[6:12])
    proto = data[at - 2:at]
    datagram = _datagram(data, at) if proto in (b"\x00\x21", b"\x08\x00") else None
    return Frame(time, length, datagram, source)


def _datagram(data, at):
    if len(data) < at + 20 or data[at] >> 4 != 4:
        return None
    found = Datagram()
    found.total, found.id, cut, found.ttl, found.proto, _, found.src, found.dst = struct.unpack_from(">HHHBBHII", data, at + 2)
    found.offset, found.more = (cut & 0x1FFF) * 8, bool(cut & 0x2000)
    found.sport = found.dport = found.kind = found.code = found.echo = found.seq = found.ack = found.flags = None
    head = (data[at] & 15) * 4
    found.size = found.data = found.total - head
    if found.offset == 0:
        _transport(found, data, at + head)
    return found


def _transport(found, data, at):
    if found.proto == UDP and len(data) >= at + 8:
        found.sport, found.dport = struct.unpack_from(">HH", data, at)
        found.data -= 8
    elif found.proto == ICMP and len(data) >= at + 8:
        found.kind, found.code, _, found.echo = struct.unpack_from(">BBHI", data, at)
        found.data -= 8
    elif found.proto == TCP and len(data) >= at + 20:
        found.sport, found.dport, found.seq, found.ack, size, found.flags = struct.unpack_from(">HHIIBB", data, at)
        found.data -= (size >> 4) * 4
