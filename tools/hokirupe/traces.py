"""Reads the text trace, `trace.tr`: a line for each frame that a queue takes, gives or refuses, and for each that comes."""
import re
from typing import NamedTuple

LINE = re.compile(r"([-+dr]) (\d+)\.(\d{9}) n(\d+) i(\d+) p(\d+)\.(\d+) (\d+)((?: \S+)*)$")


class Line(NamedTuple):
    """`sign` is + (waits), - (begins to be sent), d (lost) or r (received); the packet is named by who made it, and a count."""
    sign: str
    time: int
    node: int
    iface: int
    packet: tuple
    length: int
    items: tuple


class Fault(Exception):
    pass


def read(path):
    """The lines of a trace, one at a time."""
    with open(path) as file:
        for number, row in enumerate(file, 1):
            found = LINE.match(row.rstrip("\n"))
            if not found:
                raise Fault(f"{path}:{number}: this is no line of a trace: {row.strip()[:80]}")
            sign, seconds, rest, node, iface, by, count, length, items = found.groups()
            yield Line(sign, int(seconds) * 10**9 + int(rest), int(node), int(iface), (int(by), int(count)), int(length), tuple(items.split()))
