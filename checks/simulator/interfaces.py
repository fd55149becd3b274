"""An interface: its queue disc, its device on a link or a LAN, the frames that it loses, and its address cache."""
import struct

from . import headers
from .discs import disc
from .packets import LEAST_PAYLOAD, Packet

SLOT = 1000
MOST_TRIES = 1000
MOST_DOUBLINGS = 10
BROADCAST = b"\xff" * 6
SECOND = 10**9
KNOWN_FOR, FAILED_FOR = 120 * SECOND, 100 * SECOND
MOST_ASKED, MOST_HELD = 3, 3


def frame_time(length, rate):
    return -(-8 * length * 10**9 // rate)


class Loss:
    """Frames are counted from 1."""

    def __init__(self, table):
        self.frames, self.millionths, self.counted = set(table.get("frames", [])), table.get("millionths"), 0

    def loses(self, draws):
        self.counted += 1
        if self.millionths is not None:
            return draws.below(1_000_000) < self.millionths
        return self.counted in self.frames


class Interface:
    link_type = 0

    def __init__(self, run, node, place, table, address):
        self.run, self.node, self.place, self.address = run, node, place, address
        self.rate, self.delay, self.mtu = table["rate_bps"], table["delay_ns"], table.get("mtu", 1500)
        self.prefix, self.captured = table.get("prefix", 24), table.get("pcap", False)
        self.disc, self.asks_again, self.idle = disc(table), False, True
        self.loss, self.saved = Loss({}), []

    def offer(self, frame):
        self.run.line("+" if self.disc.offer(frame) else "d", self, frame)
        self.take()

    def take(self):
        if not self.idle or self.asks_again:
            return
        frame, at = self.disc.next(self.run.now)
        if at is not None:
            self.asks_again = True
            self.run.schedule(at, self.node, self.disc_ready)
        elif frame is not None:
            self.run.line("-", self, frame)
            self.start(frame)

    def disc_ready(self):
        self.asks_again = False
        self.take()

    def sent(self):
        self.idle = True
        self.take()

    def came(self, frame):
        if self.loss.loses(self.node.draws):
            self.run.line("d", self, frame)
            return
        self.run.line("r", self, frame)
        self.run.save(self, frame)
        self.lift(frame.copy())


class LinkEnd(Interface):
    """One end of a link, with a header of two bytes (RFC 1661)."""

    link_type = 9
    peer = None

    def send(self, hop, packet):
        self.offer(packet.push_front("ppp", struct.pack(">H", headers.PPP_IPV4)))

    def start(self, frame):
        self.idle = False
        self.run.save(self, frame)
        left = self.run.now + frame_time(len(frame.data), self.rate)
        self.run.schedule(left, self.node, self.sent)
        self.run.schedule(left + self.delay, self.peer.node, self.peer.came, frame.copy())

    def lift(self, frame):
        self.node.datagram_came(frame.pop_front(2))


class Entry:
    """What is known of a neighbour: its MAC, that it is asked for, or that nobody answered."""

    def __init__(self, state, until=None, mac=None):
        self.state, self.until, self.mac = state, until, mac
        self.tries, self.held, self.stamp = 0, [], None


class LanMember(Interface):
    """One station of a LAN, with Ethernet's header, a trailer of four bytes, and address resolution (RFC 826)."""

    link_type = 1

    def __init__(self, run, node, place, table, address, lan, number):
        super().__init__(run, node, place, table, address)
        self.lan, self.mac = lan, struct.pack(">BBHH", 2, 0, number, node.number)
        self.waiting, self.tries, self.entries = None, 0, {}

    # The device

    def start(self, frame):
        self.idle, self.waiting, self.tries = False, frame, 0
        self.attempt()

    def attempt(self):
        now = self.run.now
        if now < self.lan.busy_until:
            self.back_off()
            return
        frame, self.waiting = self.waiting, None
        come = now + frame_time(len(frame.data), self.rate) + self.delay
        self.lan.busy_until = come
        self.run.save(self, frame)
        for other in self.lan.members:
            if other is not self:
                self.run.schedule(come, other.node, other.heard, frame.copy())
        self.run.schedule(come, self.node, self.sent)

    def back_off(self):
        self.tries += 1
        if self.tries == MOST_TRIES:
            self.run.line("d", self, self.waiting)
            self.waiting, self.idle = None, True
            self.take()
        else:
            slots = 1 + self.node.draws.below(2 ** min(self.tries, MOST_DOUBLINGS))
            self.run.schedule(self.run.now + SLOT * slots, self.node, self.backoff_over)

    def backoff_over(self):
        if self.waiting is not None:
            self.attempt()

    def heard(self, frame):
        if frame.data[:6] in (self.mac, BROADCAST):
            self.came(frame)

    def lift(self, frame):
        proto = struct.unpack(">H", frame.data[12:14])[0]
        packet = frame.pop_back(4).pop_front(14)
        if proto in (headers.PPP_IPV4, headers.ETHERNET_IPV4):
            self.node.datagram_came(packet)
        elif proto == headers.ETHERNET_ARP:
            self.message_came(packet)
        else:
            self.node.drops += 1

    def frame_to(self, mac, proto, packet):
        packet.push_back("pad", bytes(max(LEAST_PAYLOAD - len(packet.data), 0)))
        packet.push_back("trailer", bytes(4)).push_front("eth", headers.ethernet(mac, self.mac, proto))
        self.offer(packet)

    # Address resolution

    def entry(self, address):
        found = self.entries.get(address)
        if found is None or (found.until is not None and found.until <= self.run.now):
            return None
        return found

    def send(self, hop, packet):
        found = self.entry(hop)
        if found is None:
            asked = self.entries[hop] = Entry("waiting")
            asked.held.append(packet)
            self.ask(hop, asked)
        elif found.state == "known":
            self.frame_to(found.mac, headers.ETHERNET_IPV4, packet)
        elif found.state == "waiting" and len(found.held) < MOST_HELD:
            found.held.append(packet)
        else:
            self.node.drops += 1

    def ask(self, address, entry):
        entry.tries += 1
        entry.stamp = self.node.next_stamp()
        self.say(1, bytes(6), address, BROADCAST)
        self.run.schedule(self.run.now + SECOND, self.node, self.no_answer, address, entry.stamp)

    def say(self, op, target_mac, target, to):
        message = headers.arp(op, self.mac, self.address, target_mac, target)
        self.frame_to(to, headers.ETHERNET_ARP, Packet(self.node.next_uid(), message, "arp"))

    def no_answer(self, address, stamp):
        found = self.entries.get(address)
        if found is None or found.state != "waiting" or found.stamp != stamp:
            return
        if found.tries < MOST_ASKED:
            self.ask(address, found)
        else:
            self.entries[address] = Entry("failed", self.run.now + FAILED_FOR)
            self.node.drops += len(found.held)

    def message_came(self, packet):
        if len(packet.data) < 28:
            self.node.drops += 1
            return
        _, _, _, _, op, sender_mac, sender, _, target = struct.unpack(">HHBBH6sI6sI", packet.data[:28])
        if target != self.address:
            return
        before = self.entry(sender)
        held = before.held if before else []
        self.entries[sender] = Entry("known", self.run.now + KNOWN_FOR, sender_mac)
        for waiting in held:
            self.frame_to(sender_mac, headers.ETHERNET_IPV4, waiting)
        if op == 1:
            self.say(2, sender_mac, sender, sender_mac)


class Lan:
    """A bus that one frame has at a time."""

    def __init__(self):
        self.busy_until, self.members = 0, []
