"""Queue discs: what waits in front of a device."""

BANDS = [1, 2, 2, 2, 1, 2, 0, 0, 1, 1, 1, 1, 1, 1, 1, 1]
BIT = 10**9


class Fifo:
    def __init__(self, table):
        self.room, self.lists = table.get("limit", 100), [[]]

    def band(self, frame):
        return 0

    def offer(self, frame):
        """Whether the frame is kept."""
        if sum(map(len, self.lists)) >= self.room:
            return False
        self.lists[self.band(frame)].append(frame)
        return True

    def next(self, now):
        """The next frame, or the time at which to ask again, or neither."""
        for band in self.lists:
            if band:
                return band.pop(0), None
        return None, None


class Prio(Fifo):
    """Three bands by the packet's priority; the lowest that has a frame goes first."""

    def __init__(self, table):
        super().__init__(table)
        self.lists = [[], [], []]

    def band(self, frame):
        return BANDS[(frame.priority or 0) % 16]


class Tbf(Fifo):
    """A token bucket. Credit is counted in billionths of a bit, so that a nanosecond brings `rate` of it."""

    def __init__(self, table):
        super().__init__(table)
        self.rate, self.full = table["tbf_bps"], table["tbf_burst"] * 8 * BIT
        self.credit, self.seen = self.full, 0

    def next(self, now):
        self.credit = min(self.full, self.credit + self.rate * max(now - self.seen, 0))
        self.seen = max(self.seen, now)
        if not self.lists[0]:
            return None, None
        missing = 8 * BIT * len(self.lists[0][0].data) - self.credit
        if missing > 0:
            return None, now - (-missing // self.rate)
        self.credit = -missing
        return super().next(now)


def disc(table):
    return {"fifo": Fifo, "prio": Prio, "tbf": Tbf}[table.get("queue", "fifo")](table)
