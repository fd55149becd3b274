"""Applications."""
from . import headers
from .interfaces import frame_time
from .packets import Packet

FIRST_LOCAL_PORT = 49153
PATTERN = bytes(range(251))


class App:
    """What all applications have: their number, and what they count."""

    def __init__(self, run, index, table):
        self.run, self.index, self.kind, self.node = run, index, table["kind"], run.nodes[table["node"]]
        self.dst = headers.number(table["dst"]) if "dst" in table else None
        self.port, self.left, self.size = table.get("port"), table.get("count", 1), table.get("size", 512)
        self.start, self.interval = table.get("start_ns", 0), table.get("interval_ns", 10**9)
        self.priority = table.get("priority", 0)
        self.sent = self.sent_bytes = self.got = self.got_bytes = 0

    def counts_sent(self, size):
        self.sent, self.sent_bytes = self.sent + 1, self.sent_bytes + size

    def counts_got(self, size):
        self.got, self.got_bytes = self.got + 1, self.got_bytes + size

    def takes_local_port(self):
        self.local = FIRST_LOCAL_PORT + self.node.local_ports
        self.node.local_ports += 1

    def begins(self):
        self.run.first_tick(self)

    def payload(self):
        return Packet(self.node.next_uid(), bytes(self.size), priority=self.priority)

    def text(self):
        return f"app {self.index} {self.kind} sent {self.sent} {self.sent_bytes} received {self.got} {self.got_bytes}"


class Listener(App):
    """A sink or an echo server on a UDP port."""

    def begins(self):
        self.node.ports[self.port] = self

    def heard(self, src, sport, packet):
        self.counts_got(len(packet.data))
        if self.kind == "udp-echo-server":
            packet.priority = None
            self.counts_sent(len(packet.data))
            self.node.udp_send(self.port, src, sport, packet)


class Sender(App):
    """`udp-send`, and `udp-echo-client`, which counts what comes back."""

    def begins(self):
        self.takes_local_port()
        self.node.ports[self.local] = self
        super().begins()

    def heard(self, src, sport, packet):
        if self.kind == "udp-echo-client":
            self.counts_got(len(packet.data))

    def sends_one(self):
        self.counts_sent(self.size)
        self.node.udp_send(self.local, self.dst, self.port, self.payload())

    def tick(self):
        self.sends_one()
        self.left -= 1
        if self.left:
            self.run.schedule(self.next_tick(), self.node, self.tick)

    def next_tick(self):
        return self.run.now + self.interval


class OnOff(Sender):
    """Sends at a rate while it is on; a period begins with its first tick."""

    def __init__(self, run, index, table):
        super().__init__(run, index, table)
        self.gap, self.on, self.off = frame_time(self.size, table["rate_bps"]), table["on_ns"], table["off_ns"]
        self.period = self.start

    def next_tick(self):
        at = self.run.now + self.gap
        if at >= self.period + self.on:
            at = self.period = max(self.period + self.on + self.off, self.run.now + 1)
        return at


class Ping(Sender):
    def begins(self):
        self.asked = 0
        self.node.pings[self.index % 2**16] = self
        App.begins(self)

    def sends_one(self):
        self.counts_sent(self.size)
        rest = self.index % 2**16 << 16 | self.asked % 2**16
        self.asked += 1
        packet = self.payload()
        self.node.ip_send(None, self.dst, headers.ICMP, packet.push_front("icmp", headers.icmp(8, 0, rest, packet.data)))


class Bulk(App):
    """Writes so many bytes into a connection, and closes it."""

    def __init__(self, run, index, table):
        super().__init__(run, index, table)
        self.bytes, self.mss, self.written, self.closed = table["bytes"], table.get("mss", 536), 0, False

    def begins(self):
        self.takes_local_port()
        super().begins()

    def tick(self):
        self.node.connections.connect(self)

    def has_room(self, connection):
        if self.closed:
            return
        start = self.written % len(PATTERN)
        most = min(self.bytes - self.written, connection.room())
        taken = connection.write((PATTERN * (2 + most // len(PATTERN)))[start:start + most])
        self.written += taken
        if taken:
            self.counts_sent(taken)
        if self.written == self.bytes:
            self.closed = True
            connection.close()


class TcpSink(App):
    def begins(self):
        self.node.connections.listeners[self.port] = self


def app(run, index, table):
    kinds = {
        "udp-sink": Listener, "udp-echo-server": Listener, "udp-send": Sender, "udp-echo-client": Sender,
        "on-off": OnOff, "ping": Ping, "tcp-bulk": Bulk, "tcp-sink": TcpSink,
    }
    return kinds[table["kind"]](run, index, table)
