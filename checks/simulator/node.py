"""A node above its interfaces: IPv4, reassembly, ICMP, UDP, and where segments go."""
import struct

from . import headers
from .draws import Draws
from .headers import ICMP, TCP, UDP, DO_NOT_FRAGMENT, MORE_FRAGMENTS
from .packets import Packet
from .tcp import Connections

FRAGMENT_PATIENCE = 30 * 10**9
LONGEST_DATA = 65515
HEAD = 20


class Gathering:
    """The pieces of one datagram that have come so far, by the place of their first byte."""

    def __init__(self, stamp):
        self.stamp, self.pieces, self.total = stamp, {}, None

    def refuses(self, start, end, last):
        overlaps = any(start < at + len(p.data) - HEAD and at < end for at, p in self.pieces.items())
        passes = self.total is not None and (last or end > self.total)
        return overlaps or passes or (last and any(at + len(p.data) - HEAD > end for at, p in self.pieces.items()))

    def whole(self):
        return self.total is not None and sum(len(p.data) - HEAD for p in self.pieces.values()) == self.total


class Node:
    def __init__(self, run, number, seed):
        self.run, self.number, self.draws = run, number, Draws(seed, number)
        self.ifaces, self.routes, self.ports, self.pings = [], [], {}, {}
        self.identity = self.drops = self.packets = self.stamps = self.events = self.scheduled = self.local_ports = 0
        self.gatherings, self.connections = {}, Connections(self)

    def next_uid(self):
        self.packets += 1
        return self.number, self.packets - 1

    def next_stamp(self):
        self.stamps += 1
        return self.stamps

    # IPv4 (RFC 791)

    def route(self, dst):
        """The interface and the next hop of the longest prefix that leads to an address."""
        fitting = [r for r in self.routes if (dst ^ r[0]) >> (32 - r[1]) == 0]
        if not fitting:
            return None
        _, _, iface, via = max(fitting, key=lambda r: r[1])
        return self.ifaces[iface], dst if via is None else via

    def ip_send(self, src, dst, proto, packet):
        way = self.route(dst)
        if way is None:
            self.drops += 1
            return
        identity, self.identity = self.identity, (self.identity + 1) % 2**16
        head = headers.Ipv4(0, identity, 0, 0, 64, proto, way[0].address if src is None else src, dst)
        self.carry(way, head, packet)

    def carry(self, way, head, packet):
        """Sends a packet's data behind a head, in pieces where the whole is too long."""
        iface, hop = way
        size = len(packet.data)
        if size + HEAD <= iface.mtu:
            iface.send(hop, packet.push_front("ipv4", head._replace(total=size + HEAD).write()))
            return
        step = (iface.mtu - HEAD) // 8 * 8
        for start in range(0, size, step):
            end = min(start + step, size)
            more = head.flags | MORE_FRAGMENTS if end < size else head.flags
            own = head._replace(total=end - start + HEAD, flags=more, offset=(head.offset + start // 8) % 2**13)
            iface.send(hop, packet.copy().cut(start, end).push_front("ipv4", own.write()))

    def datagram_came(self, packet):
        head = headers.read_ipv4(packet.data)
        packet.cut(0, head.total)
        if not any(head.dst == i.address for i in self.ifaces):
            self.forward(head, packet)
        elif head.offset or head.flags & MORE_FRAGMENTS:
            self.gather(head, packet)
        else:
            self.deliver(head, packet)

    def forward(self, head, packet):
        way = self.route(head.dst)
        if head.ttl <= 1:
            self.refuse(11, 0, packet)
        elif way is None:
            self.refuse(3, 0, packet)
        elif len(packet.data) > way[0].mtu and head.flags & DO_NOT_FRAGMENT:
            self.refuse(3, 4, packet)
        else:
            self.carry(way, head._replace(ttl=head.ttl - 1), packet.pop_front(HEAD))

    def gather(self, head, packet):
        key = (head.src, head.dst, head.proto, head.identity)
        start, last = 8 * head.offset, not head.flags & MORE_FRAGMENTS
        size = len(packet.data) - HEAD
        found = self.gatherings.get(key)
        bad = size == 0 or (not last and size % 8) or start + size > LONGEST_DATA
        if bad or (found and found.refuses(start, start + size, last)):
            self.drops += 1
            return
        if found is None:
            found = self.gatherings[key] = Gathering(self.next_stamp())
            self.run.schedule(self.run.now + FRAGMENT_PATIENCE, self, self.pieces_are_late, key, found.stamp)
        found.pieces[start] = packet
        if last:
            found.total = start + size
        if found.whole():
            del self.gatherings[key]
            self.deliver_joined([found.pieces[at] for at in sorted(found.pieces)])

    def deliver_joined(self, pieces):
        head = headers.read_ipv4(pieces[0].data)
        whole = pieces[0].pop_front(HEAD)
        for piece in pieces[1:]:
            whole.join(piece.pop_front(HEAD))
        head = head._replace(total=len(whole.data) + HEAD, flags=head.flags & ~MORE_FRAGMENTS, offset=0)
        self.deliver(head, whole.push_front("ipv4", head.write()))

    def pieces_are_late(self, key, stamp):
        found = self.gatherings.get(key)
        if found and found.stamp == stamp:
            self.drops += len(found.pieces)
            del self.gatherings[key]

    def deliver(self, head, packet):
        if head.proto == UDP:
            self.heard_udp(head, packet)
        elif head.proto == ICMP:
            self.heard_icmp(head, packet)
        elif head.proto == TCP:
            self.connections.heard(head.src, head.dst, packet.pop_front(HEAD))
        else:
            self.refuse(3, 2, packet)

    # ICMP (RFC 792)

    def refuse(self, kind, code, packet):
        """Drops a datagram, and tells its source why, but for pieces and for ICMP messages other than echoes."""
        self.drops += 1
        head = headers.read_ipv4(packet.data)
        about_report = head.proto == ICMP and packet.data[HEAD:HEAD + 1] not in (b"\0", b"\x08")
        if head.offset or about_report or self.route(head.src) is None:
            return
        data = packet.data[:HEAD + 8]
        report = Packet(self.next_uid(), data).push_front("icmp", headers.icmp(kind, code, 0, data))
        self.ip_send(None, head.src, ICMP, report)

    def heard_icmp(self, head, packet):
        packet.pop_front(HEAD)
        if len(packet.data) < 8:
            self.drops += 1
            return
        kind, code, _, rest = struct.unpack(">BBHI", packet.data[:8])
        data = packet.data[8:]
        if (kind, code) == (8, 0):
            reply = Packet(self.next_uid(), data).push_front("icmp", headers.icmp(0, 0, rest, data))
            self.ip_send(head.dst, head.src, ICMP, reply)
        elif (kind, code) == (0, 0) and rest >> 16 in self.pings:
            self.pings[rest >> 16].counts_got(len(data))

    # UDP (RFC 768)

    def udp_send(self, sport, dst, dport, packet):
        way = self.route(dst)
        if way is None:
            self.drops += 1
            return
        src = way[0].address
        self.ip_send(src, dst, UDP, packet.push_front("udp", headers.udp(src, dst, sport, dport, packet.data)))

    def heard_udp(self, head, packet):
        sport, dport, length = struct.unpack(">HHH", packet.data[HEAD:HEAD + 6])
        app = self.ports.get(dport)
        if app is None:
            self.refuse(3, 3, packet)
        else:
            app.heard(head.src, sport, packet.cut(HEAD + 8, HEAD + length))
