"""Flows as the captures of a run show them: where each datagram was seen, how long it took, where it was lost."""
import bisect
import collections
from typing import NamedTuple

from hokirupe import frames
from hokirupe.scenario import Interface


class Sighting(NamedTuple):
    """A frame with a datagram at a captured interface: sent by it, or received."""
    time: int
    end: Interface
    is_sent: bool
    frame: frames.Frame
    flow: frames.Flow


class Place(NamedTuple):
    """An interface at which a flow was seen, on its way out or in."""
    end: Interface
    is_sent: bool

    def __str__(self):
        return f"{self.end} {'out' if self.is_sent else 'in'}"


class Seen:
    """A flow with its sightings by place, in the order in which it came there."""

    def __init__(self, flow):
        self.flow, self.places = flow, {}

    def ordered(self):
        """The places from the sender on. What is sent on at the time at which it came was received first."""
        return sorted(self.places, key=lambda place: (self.places[place][0].time, place.is_sent))

    @property
    def first(self):
        return self.ordered()[0]

    @property
    def last(self):
        return self.ordered()[-1]

    def delays(self, first, last):
        """How long each datagram took from one place to another: (when it was there, nanoseconds), in order."""
        begun = collections.defaultdict(list)
        for sighting in self.places[first]:
            begun[sighting.frame.datagram.key].append(sighting.time)
        took = []
        for sighting in self.places[last]:
            times = begun.get(sighting.frame.datagram.key, ())
            before = bisect.bisect_right(times, sighting.time)
            if before:
                took.append((sighting.time, sighting.time - times[before - 1]))
        return took

    def missed(self, first, last, stop):
        """How many datagrams of one place were lost on the way to another, and how many were under way at the stop. One that
        was split on the way has come where all of its pieces have."""
        came = collections.defaultdict(list)
        for sighting in self.places[last]:
            came[sighting.frame.datagram.key].append(sighting.frame.datagram.size)
        longest = max((took for _, took in self.delays(first, last)), default=0)
        lost = waiting = 0
        for sighting in self.places[first]:
            if _has_come(sighting.frame.datagram, came):
                continue
            if sighting.time + longest >= stop:
                waiting += 1
            else:
                lost += 1
        return lost, waiting


def _has_come(datagram, came):
    """Whether what came has a datagram, whole or in pieces; takes them away."""
    *name, offset = datagram.key
    end, taken = offset + datagram.size, []
    while True:
        sizes = came.get((*name, offset))
        if not sizes:
            for key, size in taken:
                came[key].append(size)
            return False
        taken.append(((*name, offset), sizes.pop()))
        offset += taken[-1][1]
        if offset >= end:
            return True


def jitters(delays):
    """By how much each delay differs from the one before: (when, nanoseconds)."""
    return [(time, abs(took - before)) for (_, before), (time, took) in zip(delays, delays[1:])]


def rates(rows, step):
    """The mean rate of sightings in each step of so many nanoseconds: (the step's number, bit/s), and 0 behind the last."""
    octets = collections.Counter()
    for row in rows:
        octets[row.time // step] += row.frame.length
    return [(at, octets[at] * 8 * 10**9 / step) for at in range(min(octets), max(octets) + 2)]


def sightings(scenario, captures):
    """All sightings of datagrams in the order of time."""
    ends = {(end.node, end.number): end for row in scenario.interfaces for end in row}
    strange = [str(capture) for capture in captures if (capture.node, capture.iface) not in ends]
    if strange:
        raise ValueError(f"the scenario has no interface {', '.join(strange)}: these are captures of another one")
    met = [(capture, ends[capture.node, capture.iface]) for capture in captures]
    names, sides, found = _FlowNames(), _Sides(scenario, met), []
    for capture, end in met:
        for frame in capture.frames:
            if frame.datagram:
                found.append(Sighting(frame.time, end, sides.is_sent(frame, end), frame, names.of(frame.datagram)))
    found.sort(key=lambda sighting: (sighting.time, sighting.is_sent))
    return found


class _FlowNames:
    """Flows by datagram: a piece behind the first has the flow of its datagram."""

    def __init__(self):
        self.by_datagram = {}

    def of(self, datagram):
        key = (datagram.src, datagram.dst, datagram.proto, datagram.id)
        if datagram.offset == 0:
            self.by_datagram[key] = frames.flow_of(datagram)
        return self.by_datagram.get(key) or frames.flow_of(datagram)


class _Sides:
    """Whether an interface sent a frame or received it, which a capture doesn't say."""

    def __init__(self, scenario, met):
        self.scenario, self.times = scenario, {end: set() for _, end in met}
        for capture, end in met:
            self.times[end].update((frame.time, frame.datagram.key, frame.datagram.ttl) for frame in capture.frames if frame.datagram)

    def is_sent(self, frame, end):
        """On a LAN the source tells; on a link a frame that comes was sent by the other end so much earlier."""
        network, datagram = end.network, frame.datagram
        if network.is_lan:
            return frame.source_mac == end.mac
        other = end.others[0]
        if other in self.times:
            begun = frame.time - frame_time(frame.length, network.rate_bps) - network.delay_ns
            return (begun, datagram.key, datagram.ttl) not in self.times[other]
        return any(int(own.address) == datagram.src for own in self.scenario.interfaces[end.node])


def frame_time(length, rate):
    """How long a frame of so many bytes takes at a rate, in nanoseconds."""
    return -(-8 * length * 10**9 // rate)


def seen(found):
    """The flows of sightings, by flow, in the order in which they were first seen."""
    flows = {}
    for sighting in found:
        flow = flows.setdefault(sighting.flow, Seen(sighting.flow))
        flow.places.setdefault(Place(sighting.end, sighting.is_sent), []).append(sighting)
    return flows


def percentile(values, part):
    values = sorted(values)
    return values[min(len(values) - 1, int(part * len(values)))]
