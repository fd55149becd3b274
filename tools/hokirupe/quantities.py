"""Numbers that were meant: "5Mbps" or 2.5 in the place of a whole number of bits or nanoseconds."""
import re

UNITS = {
    "_bps": {
        "": 1, "bps": 1, "b/s": 1, "bit/s": 1, "kbps": 10**3, "kb/s": 10**3, "kbit/s": 10**3, "mbps": 10**6, "mb/s": 10**6,
        "mbit/s": 10**6, "m": 10**6, "k": 10**3, "g": 10**9, "gbps": 10**9, "gb/s": 10**9, "gbit/s": 10**9,
    },
    "_ns": {"": 1, "ns": 1, "us": 10**3, "ms": 10**6, "s": 10**9, "min": 60 * 10**9},
    "": {"": 1, "b": 1, "byte": 1, "bytes": 1, "p": 1, "kb": 10**3, "mb": 10**6},
}


def meant(key, value):
    """The whole number that a text or a float stands for, and a word on how it was read, or None."""
    units = next(table for ending, table in UNITS.items() if key.endswith(ending))
    if isinstance(value, float):
        if value != value or abs(value) > 10**15:
            return None
        if key.endswith("_ns") and abs(value) < 10**4:
            return round(value * 10**9), f"{value:g} seconds"
        return (int(value), f"{value:g}") if value == int(value) else None
    if isinstance(value, str):
        found = re.fullmatch(r"\s*([+-]?[\d_,]*\.?\d+(?:[eE][+-]?\d+)?)\s*([A-Za-z/]*)\s*", value)
        scale = units.get(found[2].lower()) if found else None
        if scale is None:
            return None
        number = float(found[1].replace("_", "").replace(",", "")) * scale
        return (round(number), value.strip()) if abs(number) < 10**15 and number == round(number) else None
    return None
