"""Captures that are changed at random, and what is wrong with what `show` answers to one."""
import pathlib
import random
import struct
import subprocess
import tempfile

import capture_reader

NUMBERS = [0, 1, 2, 4, 15, 16, 65_535, 262_143, 262_144, 262_145, 999_999, 1_000_000, 999_999_999, 1_000_000_000, 2**31, 2**32 - 1]
MAGICS = [0xA1B23C4D, 0xA1B2C3D4]
SECONDS = 4


def drawn(draw):
    """A capture of a few packets, and its byte order."""
    order, magic = draw.choice("<>"), draw.choice(MAGICS)
    second = 10**9 if magic == MAGICS[0] else 10**6
    parts = [struct.pack(order + "IHHIIII", magic, 2, 4, 0, 0, draw.choice(NUMBERS), draw.choice([1, 9, 101]))]
    for _ in range(draw.randrange(6)):
        frame = draw.randbytes(draw.choice([0, 1, 15, 16, 60, draw.randrange(300)]))
        parts.append(struct.pack(order + "IIII", draw.randrange(2**32), draw.randrange(second), len(frame), len(frame) + draw.randrange(3)))
        parts.append(frame)
    return b"".join(parts), order


def places(data, order):
    """Where the numbers of a capture stand, as (place, how it is packed)."""
    found, at = [(0, "I"), (4, "H"), (6, "H"), (8, "I"), (12, "I"), (16, "I"), (20, "I")], 24
    while at < len(data):
        found += [(at + field, "I") for field in (0, 4, 8, 12)]
        at += 16 + struct.unpack_from(order + "I", data, at + 8)[0]
    return found


def other_number(draw, data, order):
    place, kind = draw.choice(places(data, order))
    (old,) = struct.unpack_from(order + kind, data, place)
    number = draw.choice([draw.choice(NUMBERS), max(0, old + draw.choice([-1, 1, 2]))]) % (2**16 if kind == "H" else 2**32)
    return data[:place] + struct.pack(order + kind, number) + data[place + struct.calcsize(kind) :]


def other_byte(draw, data, order):
    at = draw.randrange(len(data) + 1)
    return data[:at] + draw.randbytes(draw.randrange(2)) + data[at + draw.randrange(2) :]


def other_end(draw, data, order):
    return data[: draw.randrange(len(data) + 1)] if draw.random() < 0.8 else data + draw.randbytes(draw.randrange(40))


def mutated(number):
    """A number always makes the same. The first change finds its place in the capture as it was drawn."""
    draw = random.Random(f"capture {number}")
    data, order = drawn(draw)
    data = draw.choice([other_number, other_number, other_number, other_byte, other_end])(draw, data, order)
    for _ in range(draw.choice([0, 0, 0, 1, 2])):
        data = draw.choice([other_byte, other_end])(draw, data, order)
    return data


def fault_of(program, data, counted):
    with tempfile.TemporaryDirectory() as folder:
        try:
            ran = subprocess.run([program, "show"], input=data, capture_output=True, cwd=folder, timeout=SECONDS)
        except subprocess.TimeoutExpired:
            return f"no answer in {SECONDS} seconds"
        if list(pathlib.Path(folder).iterdir()):
            return "a file was made"
    status, text = capture_reader.answer(data)
    counted["were refused" if status else "were listed"] += 1
    is_right = (ran.returncode, ran.stdout) == (status, text.encode())
    return None if is_right else f"the answer is {ran.returncode}, {ran.stdout!r}, and should be {status}, {text!r}"
