"""A TCP connection as its sender's interface saw it."""
from typing import NamedTuple


class Segment(NamedTuple):
    time: int
    start: int
    length: int
    is_repeat: bool


class Transfer:
    """Data segments, acknowledgements as (time, number), and bytes in flight as (time, bytes)."""

    def __init__(self, flow):
        self.flow, self.segments, self.acks, self.flight = flow, [], [], []


def transfers(seen):
    """The transfers of flows that carry TCP data, each at the first place where its segments were seen."""
    found = []
    for flow, there in seen.items():
        if flow.name == "tcp" and any(sighting.frame.datagram.data for rows in there.places.values() for sighting in rows):
            found.append(_transfer(flow, there, seen.get(flow.back())))
    return found


def _transfer(flow, there, back):
    out, place = Transfer(flow), there.first
    coming = [row for at, rows in (back.places.items() if back else ()) if at.end is place.end and not at.is_sent for row in rows]
    events = sorted([*there.places[place], *coming], key=lambda sighting: sighting.time)
    highest, acked = None, None
    for sighting in events:
        datagram = sighting.frame.datagram
        if sighting.flow == flow:
            start = _near(datagram.seq, highest)
            if highest is None:
                highest = start
            if datagram.data:
                end = start + datagram.data
                out.segments.append(Segment(sighting.time, start, datagram.data, end <= highest))
                highest = max(highest, end)
            elif datagram.flags & 3:
                highest = max(highest, start + 1)
        elif datagram.flags & 16:
            number = _near(datagram.ack, highest)
            acked = number if acked is None else max(acked, number)
            out.acks.append((sighting.time, number))
        if highest is not None and acked is not None:
            out.flight.append((sighting.time, max(0, highest - acked)))
    return out


def _near(number, highest):
    """The position of a 32-bit number, near the highest so far."""
    if highest is None:
        return number
    return number + (highest - number + 2**31) // 2**32 * 2**32
