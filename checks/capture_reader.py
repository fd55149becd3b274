"""Reads captures in the libpcap format, apart from the program: the listing that `show` should write, or its fault line."""
import struct

FORMS = {"a1b23c4d": (">", 9), "a1b2c3d4": (">", 6), "4d3cb2a1": ("<", 9), "d4c3b2a1": ("<", 6)}
LONGEST_FRAME = 262_144


class Broken(Exception):
    """The bytes leave the format here."""


class Fields:
    """Numbers by their place. A number that doesn't stand whole is one at which the bytes end."""

    def __init__(self, data, order):
        self.data, self.order = data, order

    def number(self, at, kind="I", is_right=lambda number: True):
        size = struct.calcsize(kind)
        if at + size > len(self.data):
            raise Broken(len(self.data))
        (number,) = struct.unpack_from(self.order + kind, self.data, at)
        if not is_right(number):
            raise Broken(at)
        return number


def listed(data):
    """The lines of a capture; `Broken` where it is none."""
    if len(data) < 4:
        raise Broken(len(data))
    if data[:4].hex() not in FORMS:
        raise Broken(0)
    order, digits = FORMS[data[:4].hex()]
    fields = Fields(data, order)
    fields.number(4, "H", lambda major: major == 2)
    fields.number(6, "H", lambda minor: minor == 4)
    names = "big" if order == ">" else "little", "nanoseconds" if digits == 9 else "microseconds"
    snap, link = fields.number(16), fields.number(20)
    lines = [f"{names[0]} {names[1]} linktype {link} snaplen {snap}"]
    at = 24
    while at < len(data):
        seconds = fields.number(at)
        fraction = fields.number(at + 4, is_right=lambda fraction: fraction < 10**digits)
        captured = fields.number(at + 8, is_right=lambda captured: captured <= LONGEST_FRAME)
        original = fields.number(at + 12)
        at += 16 + captured
        if at > len(data):
            raise Broken(len(data))
        lines.append(f"{seconds}.{fraction:0{digits}} {captured} {original}")
    return lines


def answer(data):
    """The status of `show`, and what it prints."""
    try:
        return 0, "".join(f"{line}\n" for line in listed(data))
    except Broken as broken:
        return 7, f"capture {broken.args[0]}\n"


def swapped(data):
    """A capture with all its numbers in the other byte order."""
    order, _ = FORMS[data[:4].hex()]
    sizes, parts, at = [4, 2, 2, 4, 4, 4, 4], [], 0
    while at < len(data):
        for size in sizes:
            parts.append(data[at : at + size][::-1])
            at += size
        if at > 24:
            (captured,) = struct.unpack_from(order + "I", data, at - 8)
            parts.append(data[at : at + captured])
            at += captured
        sizes = [4, 4, 4, 4]
    return b"".join(parts)
