"""TCP (RFC 9293) with data from the opener alone, and the connections of a node. Both initial sequence numbers are 0."""
from . import headers
from .headers import ACK, FIN, RST, SYN, TCP, WINDOW
from .packets import Packet
from .reno import Reno

SECOND, MILLISECOND = 10**9, 10**6
MOST_BUFFERED = 131_072
MOST_TRIES = 12
SINK_MSS, DEFAULT_MSS, LEAST_MSS = 9000, 536, 64
SEQUENCE = 2**32
CLOSED, SYN_SENT, SYN_RECEIVED, ESTABLISHED = "Closed", "SynSent", "SynReceived", "Established"
FIN_WAIT_1, FIN_WAIT_2, LAST_ACK, TIME_WAIT = "FinWait1", "FinWait2", "LastAck", "TimeWait"


class RoundTrip:
    """The estimator of RFC 6298."""

    def __init__(self):
        self.srtt, self.rttvar, self.rto = None, None, SECOND

    def sample(self, time):
        if self.srtt is None:
            self.srtt, self.rttvar = time, time // 2
        else:
            self.rttvar = (3 * self.rttvar + abs(self.srtt - time)) // 4
            self.srtt = (7 * self.srtt + time) // 8
        self.rto = min(max(self.srtt + max(MILLISECOND, 4 * self.rttvar), SECOND), 60 * SECOND)

    def back_off(self):
        self.rto = min(2 * self.rto, 60 * SECOND)


class Connection:
    """One side of a connection. Positions: the SYN is 0, the first byte 1, the FIN one past the data. `first` is the position of
    the first byte that is kept. What a step asks for is carried out when the step is over."""

    def __init__(self, owner, app, four, mss, opens):
        self.owner, self.app, self.four, self.opens = owner, app, four, opens
        self.una = self.nxt = self.max = self.rcv = self.tries = 0
        self.smss, self.peer_window = mss, WINDOW
        self.reno, self.round_trip = Reno(mss), RoundTrip()
        self.first, self.kept, self.closing = 1, bytearray(), False
        self.held, self.fin_at = {}, None
        self.timed, self.stamp, self.state, self.syn_was_repeated = None, None, CLOSED, False
        self.acts = []

    def now(self):
        return self.owner.node.run.now

    def written_end(self):
        return self.first + len(self.kept)

    def room(self):
        return MOST_BUFFERED - len(self.kept)

    def carry_out(self):
        acts, self.acts = self.acts, []
        for call, *rest in acts:
            call(*rest)

    # Sending

    def segment(self, at, flags, data=b"", mss=None):
        length = len(data) + bool(flags & SYN) + bool(flags & FIN)
        end = at + length
        if length and at < self.max:
            self.timed = None
        elif length and self.timed is None:
            self.timed = (end, self.now())
        head = headers.Tcp(self.four[1], self.four[3], at % SEQUENCE, self.rcv % SEQUENCE if flags & ACK else 0, flags, mss)
        self.acts.append((self.owner.send, self.four, self.owner.packet(self.four, head, data)))
        if at == self.nxt:
            self.nxt, self.max = end, max(self.max, end)
        if length and self.stamp is None and self.una < self.max:
            self.starts_timer()

    def starts_timer(self):
        self.stamp = self.owner.node.next_stamp()
        at = self.now() + self.round_trip.rto
        self.acts.append((self.owner.node.run.schedule, at, self.owner.node, self.owner.timer_fired, self, self.stamp))

    def acknowledges(self):
        self.segment(self.nxt, ACK)

    def first_segment(self):
        """The first unacknowledged segment once more."""
        data = bytes(self.kept[:self.smss])
        if data:
            self.segment(self.una, ACK, data)
        elif self.una < self.max:
            self.segment(self.una, ACK | FIN)

    def pump(self):
        if not self.opens or self.state not in (ESTABLISHED, FIN_WAIT_1):
            return
        while True:
            n = min(self.smss, self.written_end() - self.nxt)
            if n <= 0 or self.nxt - self.una + n > min(self.reno.cwnd, self.peer_window):
                break
            start = self.nxt - self.first
            self.segment(self.nxt, ACK, bytes(self.kept[start:start + n]))
        if self.closing and self.nxt == self.written_end():
            self.state = FIN_WAIT_1
            self.segment(self.nxt, ACK | FIN)

    # What the application asks for

    def connect(self):
        self.state = SYN_SENT
        self.segment(0, SYN, mss=self.smss)
        self.carry_out()

    def write(self, data):
        taken = data[:self.room()]
        self.kept += taken
        self.pump()
        self.carry_out()
        return len(taken)

    def close(self):
        self.closing = True
        self.pump()
        self.carry_out()

    # What comes

    def is_closed(self):
        self.state, self.stamp = CLOSED, None
        self.owner.remove(self)

    def heard(self, head, data):
        if self.state == SYN_SENT:
            self.heard_by_opener(head)
        elif head.flags & RST:
            if head.seq == self.rcv:
                self.is_closed()
            else:
                self.owner.node.drops += 1
        elif head.flags & SYN:
            if self.state == SYN_RECEIVED:
                self.segment(0, SYN | ACK, mss=SINK_MSS)
            else:
                self.acknowledges()
        elif not head.flags & ACK:
            self.owner.node.drops += 1
        else:
            self.heard_ack(head, data)
            if self.state != CLOSED:
                self.heard_data(head, data)
        self.carry_out()

    def heard_by_opener(self, head):
        if head.flags & RST and head.ack == 1:
            self.is_closed()
        elif head.flags & (SYN | ACK | RST) == SYN | ACK and (head.seq, head.ack) == (0, 1):
            peer = DEFAULT_MSS if head.mss is None else max(head.mss, LEAST_MSS)
            self.una = self.rcv = 1
            self.stamp = None
            self.smss = min(self.smss, peer)
            self.state, self.reno = ESTABLISHED, Reno(self.smss, self.syn_was_repeated)
            self.acknowledges()
            self.pump()
            self.acts.append((self.app.has_room, self))
        else:
            self.owner.node.drops += 1

    def heard_ack(self, head, data):
        if head.ack > self.max or head.ack < self.una:
            return
        if head.ack > self.una:
            self.heard_new_ack(head.ack)
        elif self.una < self.nxt and not data and not head.flags & FIN and head.window == self.peer_window:
            if self.reno.dup_ack(head.ack, self.max, self.nxt - self.una):
                self.first_segment()
            self.pump()
        self.peer_window = head.window

    def heard_new_ack(self, ack):
        acked = ack - self.una
        if self.timed and self.timed[0] <= ack:
            self.round_trip.sample(max(self.now() - self.timed[1], 0))
            self.timed = None
        self.una, self.nxt, self.tries = ack, max(self.nxt, ack), 0
        passed = min(max(ack - self.first, 0), len(self.kept))
        self.first, self.kept = self.first + passed, self.kept[passed:]
        self.stamp = None
        if self.una < self.max:
            self.starts_timer()
        if self.state == SYN_RECEIVED:
            self.state = ESTABLISHED
        elif self.state == FIN_WAIT_1 and ack > self.written_end():
            self.state = FIN_WAIT_2
        elif self.state == LAST_ACK:
            self.is_closed()
        if self.state in (ESTABLISHED, FIN_WAIT_1):
            if self.reno.new_ack(ack, acked, self.nxt - self.una):
                self.first_segment()
            self.pump()
            if self.opens:
                self.acts.append((self.app.has_room, self))

    def heard_data(self, head, data):
        fin = bool(head.flags & FIN)
        if self.opens:
            if self.state == FIN_WAIT_2 and fin and head.seq == self.rcv:
                self.rcv += 1
                self.state = TIME_WAIT
                self.acknowledges()
            elif self.state == TIME_WAIT and fin:
                self.acknowledges()
        elif self.state == ESTABLISHED:
            self.takes_in(head.seq, data, fin)
        elif self.state == LAST_ACK and (data or fin):
            self.acknowledges()

    def takes_in(self, seq, data, fin):
        for at, byte in enumerate(data, seq):
            if self.rcv <= at < self.rcv + WINDOW:
                self.held.setdefault(at, byte)
        at = seq + len(data)
        if fin and self.rcv <= at < self.rcv + WINDOW and self.fin_at is None:
            self.fin_at = at
        ready = bytearray()
        while self.rcv in self.held:
            ready.append(self.held.pop(self.rcv))
            self.rcv += 1
        if ready:
            self.owner.node.next_uid()
            self.acts.append((self.app.counts_got, len(ready)))
        if self.rcv == self.fin_at:
            self.rcv += 1
            self.state = LAST_ACK
            self.segment(self.nxt, ACK | FIN)
        elif data or fin:
            self.acknowledges()

    def timed_out(self):
        self.stamp = None
        self.tries += 1
        if self.tries > MOST_TRIES:
            self.is_closed()
            return
        self.reno.timeout(self.una, self.max, self.nxt - self.una)
        self.round_trip.back_off()
        self.timed, self.nxt = None, self.una
        if self.state == SYN_SENT:
            self.syn_was_repeated = True
            self.segment(0, SYN, mss=self.smss)
        elif self.state == SYN_RECEIVED:
            self.segment(0, SYN | ACK, mss=SINK_MSS)
        elif self.state == LAST_ACK:
            self.segment(self.nxt, ACK | FIN)
        else:
            self.pump()
        if self.stamp is None and self.una < self.max:
            self.starts_timer()
        self.carry_out()


class Connections:
    """Those of a node, by their own and their other ends."""

    def __init__(self, node):
        self.node, self.by_four, self.listeners = node, {}, {}

    def remove(self, connection):
        self.by_four.pop(connection.four, None)

    def packet(self, four, head, data):
        packet = Packet(self.node.next_uid(), data)
        return packet.push_front("tcp", head.write(four[0], four[2], data))

    def send(self, four, packet):
        self.node.ip_send(four[0], four[2], TCP, packet)

    def connect(self, app):
        way = self.node.route(app.dst)
        if way is None:
            self.node.drops += 1
            return
        four = (way[0].address, app.local, app.dst, app.port)
        connection = self.by_four[four] = Connection(self, app, four, app.mss, True)
        connection.connect()

    def timer_fired(self, connection, stamp):
        if connection.stamp == stamp and connection.state != CLOSED:
            connection.timed_out()

    def heard(self, src, dst, packet):
        head, size = headers.read_tcp(packet.data)
        data, four = packet.data[size:], (dst, head.dport, src, head.sport)
        found, listener = self.by_four.get(four), self.listeners.get(head.dport)
        if found:
            found.heard(head, data)
        elif head.flags & SYN and not head.flags & (ACK | RST) and head.seq == 0 and listener:
            self.accepts(listener, four, head)
        elif not head.flags & RST:
            self.resets(four, head, data)

    def accepts(self, listener, four, head):
        peer = DEFAULT_MSS if head.mss is None else max(head.mss, LEAST_MSS)
        connection = self.by_four[four] = Connection(self, listener, four, min(SINK_MSS, peer), False)
        connection.state, connection.rcv = SYN_RECEIVED, 1
        connection.segment(0, SYN | ACK, mss=SINK_MSS)
        connection.carry_out()

    def resets(self, four, head, data):
        if head.flags & ACK:
            answer = headers.Tcp(four[1], four[3], head.ack, 0, RST)
        else:
            length = len(data) + bool(head.flags & SYN) + bool(head.flags & FIN)
            answer = headers.Tcp(four[1], four[3], 0, (head.seq + length) % SEQUENCE, RST | ACK)
        self.send(four, self.packet(four, answer, b""))
