"""How far a run is: by the last frame in its growing files, or by an estimate of its events."""
import os
import pathlib
import re
import resource
import tempfile
import time

from hokirupe import captures, ticks, ways, words

TRACE_TIME = re.compile(rb"\n[-+dr] (\d+)\.(\d{9}) ")
TRIAL_EVENTS = 400_000


def expected_events(told, stop=None):
    """About how many events a run fires: for each datagram a tick, and two for each hop, there and for an answer back."""
    stop, routing, events = told.stop_ns if stop is None else stop, ways.Routing(told), 0
    for app in told.apps:
        if not app.is_active:
            continue
        way = routing.way(app.node, app.dst)
        hops = way.hops if "circle" not in (way.fault or "") else 64
        if app.kind == "tcp-bulk":
            events += (-(-app.bytes // app.mss) if app.start_ns < stop else 0) * hops * 4
            continue
        answered = app.kind in ("ping", "udp-echo-client") and not way.fault
        events += ticks.count(app, stop) * (1 + 2 * hops * (2 if answered else 1))
    return events


def trial_stop(told):
    """An earlier stop below which about TRIAL_EVENTS events fire, or None where the whole run has few more."""
    if expected_events(told) < 10 * TRIAL_EVENTS:
        return None
    low, high = 0, told.stop_ns
    while high - low > 1000:
        middle = (low + high) // 2
        low, high = (middle, high) if expected_events(told, middle) < TRIAL_EVENTS else (low, middle)
    return high


class Progress:
    """What is known of a run that goes on: the part that is done (0 to 1) or None, and a line about it."""

    def __init__(self, told, folder, rate):
        self.told, self.folder, self.rate, self.begun = told, pathlib.Path(folder), rate, time.monotonic()
        self.tails = [captures.Tail(self.folder / f"trace-{end.node}-{end.number}.pcap") for end in told.captures()[:64]]
        self.events = expected_events(told)
        self.started = time.time()

    def simulated(self):
        """The time of the last frame that was written in this run, or None."""
        times = [tail.time() for tail in self.tails if _is_since(tail.path, self.started)]
        trace = self.folder / "trace.tr"
        if self.told.ascii and _is_since(trace, self.started):
            times.append(_last_of_trace(trace))
        return max((found for found in times if found is not None), default=None)

    def part(self, process, reached):
        """The part of the run that is done, or None."""
        if reached is not None:
            return min(reached / max(self.told.stop_ns, 1), 1)
        return min(_processor_seconds(process) * self.rate / self.events, 0.99) if self.rate and self.events else None

    def line(self, process):
        seconds, reached = time.monotonic() - self.begun, self.simulated()
        part, memory = self.part(process, reached), _memory(process)
        said = [f"{seconds:.0f} s" if seconds >= 10 else f"{seconds:.1f} s"]
        if part is not None:
            said.insert(0, f"{'' if reached is not None else 'about '}{part:.0%}")
            if part > 0.02:
                said.append(f"{seconds / part - seconds:.0f} s left")
        if self.events:
            said.append(f"some {self.events:_} events in all")
        return ", ".join([*said, *([f"{words.size(memory)} of memory"] if memory else [])])


def measured_rate(run, told, data):
    """The events a second of the processor, by a short run in a folder of its own: `run` takes a scenario's bytes and a folder."""
    stop = trial_stop(told)
    if stop is None:
        return None
    text = re.sub(rb"(?m)^(\s*stop_ns\s*=\s*)[\d_]+", rb"\g<1>" + str(stop).encode(), data, count=1)
    with tempfile.TemporaryDirectory() as folder:
        before = _children_seconds()
        said = run(text, folder)
        took = _children_seconds() - before
    found = re.match(r"events (\d+)", said or "")
    return int(found[1]) / max(took, 0.001) if found else None


def _is_since(path, started):
    try:
        return path.stat().st_mtime >= started - 1
    except OSError:
        return False


def _children_seconds():
    used = resource.getrusage(resource.RUSAGE_CHILDREN)
    return used.ru_utime + used.ru_stime


def _processor_seconds(process):
    try:
        with open(f"/proc/{process}/stat") as file:
            words_of_it = file.read().rpartition(")")[2].split()
            return (int(words_of_it[11]) + int(words_of_it[12])) / os.sysconf("SC_CLK_TCK")
    except (OSError, IndexError, ValueError):
        return 0


def _memory(process):
    try:
        with open(f"/proc/{process}/statm") as file:
            return int(file.read().split()[1]) * os.sysconf("SC_PAGE_SIZE")
    except (OSError, IndexError, ValueError):
        return None


def _last_of_trace(path):
    try:
        with open(path, "rb") as file:
            file.seek(max(0, path.stat().st_size - 4096))
            found = TRACE_TIME.findall(file.read())
    except OSError:
        return None
    return int(found[-1][0]) * 10**9 + int(found[-1][1]) if found else None
