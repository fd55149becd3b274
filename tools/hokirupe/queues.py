"""How many frames wait at an interface over time: exactly from the text trace, else as far as captures show it."""
import ipaddress

from hokirupe import ticks, ways
from hokirupe.flows import frame_time


class Waiting:
    """A queue over time: `steps` are (time, frames, bytes) from then on; `lost` are times at which a frame found no room."""

    def __init__(self, changes, lost, is_exact):
        self.steps, self.lost, self.is_exact = [], lost, is_exact
        frames = octets = 0
        for time, change, length in sorted(changes, key=lambda change: change[0]):
            frames, octets = frames + change, octets + change * length
            if self.steps and self.steps[-1][0] == time:
                self.steps.pop()
            self.steps.append((time, frames, octets))

    @property
    def most(self):
        return max((frames for _, frames, _ in self.steps), default=0)


def of_trace(lines):
    """The queues of a text trace by (node, interface). A `d` is a refusal where the node had the packet: it made it or got it."""
    changes, lost, had = {}, {}, set()
    for line in lines:
        at = line.node, line.iface
        if line.sign in "+-":
            changes.setdefault(at, []).append((line.time, 1 if line.sign == "+" else -1, line.length))
        elif line.sign == "r":
            had.add((line.packet, line.node))
        elif line.packet[0] == line.node or (line.packet, line.node) in had:
            lost.setdefault(at, []).append(line.time)
    return {at: Waiting(rows, lost.get(at, []), True) for at, rows in changes.items()}


def of_captures(scenario, found):
    """The queues of the captured interfaces by (node, interface), from sightings: the frames that their nodes forward, and
    those of the node's own applications where their times are known."""
    arrived, left = {}, {}
    for sighting in found:
        key = sighting.end.node, sighting.frame.datagram.key
        if not sighting.is_sent:
            arrived.setdefault((*key, sighting.frame.datagram.ttl), []).append(sighting)
        else:
            left.setdefault((sighting.end.node, sighting.end.number), []).append(sighting)
    made = {node: _made(scenario, node, rows) for node, rows in _own(scenario, left).items()}
    lost = _lost(scenario, arrived, left)
    return {at: _waiting(rows, arrived, made.get(at[0], {}), lost.get(at, [])) for at, rows in left.items()}


def _waiting(rows, arrived, made, lost):
    changes = []
    for sighting in rows:
        begun = _came(sighting, arrived)
        if begun is None:
            begun = made.get(id(sighting))
        if begun is not None:
            changes += [(begun, 1, sighting.frame.length), (sighting.time, -1, sighting.frame.length)]
    return Waiting(changes, lost, False)


def _came(sighting, arrived):
    """When a forwarded frame came to its node, or None."""
    datagram = sighting.frame.datagram
    came = arrived.get((sighting.end.node, datagram.key, datagram.ttl + 1), ())
    return max((other.time for other in came if other.time <= sighting.time), default=None)


def _lost(scenario, arrived, left):
    """When frames found no room, by (node, interface): they were to leave there and never left, though some that came later did,
    or though the queue had time to empty."""
    routing, gone, last, lost = ways.Routing(scenario), set(), {}, {}
    for at, rows in left.items():
        for sighting in rows:
            datagram = sighting.frame.datagram
            gone.add((at[0], datagram.key, datagram.ttl + 1))
            last[at] = max(last.get(at, -1), _came(sighting, arrived) or -1)
    for (node, key, ttl), rows in arrived.items():
        if ttl <= 1 or (node, key, ttl) in gone or any(int(end.address) == key[1] for end in scenario.interfaces[node]):
            continue
        hop = routing.hop(node, ipaddress.IPv4Address(key[1]))
        if isinstance(hop, str):
            continue
        at, network = (node, hop[0].number), hop[0].network
        longest = (network.limit + 1) * frame_time(network.mtu + 18, network.rate_bps)
        lost.setdefault(at, []).extend(row.time for row in rows if row.time < last.get(at, -1) or row.time + longest < scenario.stop_ns)
    return lost


def _own(scenario, left):
    """By node, what it sent of its own making, in the order in which it began to be sent."""
    own = {}
    for (node, _), rows in left.items():
        addresses = {int(end.address) for end in scenario.interfaces[node]}
        own.setdefault(node, []).extend(sighting for sighting in rows if sighting.frame.datagram.src in addresses)
    return own


def _made(scenario, node, rows):
    """When the datagrams that a node sent were made, by sighting: the n-th send has the identification n modulo 2^16. Where the
    identifications don't fit the applications' times, since the node answers others too, nothing is known."""
    times, rounds, made = list(ticks.of_node(scenario, node)), 0, {}
    before = -1
    for sighting in sorted(rows, key=lambda sighting: sighting.time):
        datagram = sighting.frame.datagram
        number = datagram.id + rounds * 65536
        if number < before - 32768:
            rounds, number = rounds + 1, number + 65536
        before = max(before, number)
        if number >= len(times) or times[number][0] > sighting.time or not _is_from(times[number][1], datagram):
            return {}
        made[id(sighting)] = times[number][0]
    return made


def _is_from(app, datagram):
    if app.dst is None or int(app.dst) != datagram.dst:
        return False
    return datagram.kind == 8 if app.kind == "ping" else datagram.offset > 0 or datagram.sport == app.local_port
