"""Times, rates and counts in words."""


def _short(value):
    return f"{value:.6f}".rstrip("0").rstrip(".")


def time(nanoseconds):
    for unit, name in ((10**9, "s"), (10**6, "ms"), (10**3, "us")):
        if abs(nanoseconds) >= unit:
            return f"{_short(nanoseconds / unit)} {name}"
    return f"{nanoseconds} ns" if nanoseconds else "0 s"


def rate(bits):
    for unit, name in ((10**9, "Gbit/s"), (10**6, "Mbit/s"), (10**3, "kbit/s")):
        if bits >= unit:
            return f"{_short(bits / unit)} {name}"
    return f"{_short(bits)} bit/s"


def size(count):
    for unit, name in ((10**9, "GB"), (10**6, "MB"), (10**3, "kB")):
        if count >= unit:
            return f"{count / unit:.3g} {name}"
    return f"{count} bytes"


def counted(number, one, many=None):
    return f"{number} {one if number == 1 else many or one + 's'}"


def listed(names):
    """1; 1 and 2; 1, 2 and 3."""
    return " and ".join(filter(None, (", ".join(names[:-1]), names[-1])))
