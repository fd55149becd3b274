"""The pictures of tools/plot. matplotlib draws them, and is looked for only when one is asked for."""
import importlib.util
import logging
import os
import subprocess
import sys

from hokirupe import flows, queues, segments

MISSING = "matplotlib isn't installed; apt-get install python3-matplotlib (or pip install matplotlib) brings it"


class NoPicture(Exception):
    """There is nothing to draw, and why."""


def _axes(count, title):
    logging.getLogger("matplotlib").setLevel(logging.ERROR)     # nothing of its font cache, which it builds the first time
    import matplotlib
    matplotlib.use("Agg")
    matplotlib.rcParams.update({"svg.hashsalt": "hokirupe", "svg.fonttype": "none", "font.size": 9, "axes.grid": True, "grid.alpha": 0.3})
    from matplotlib import pyplot
    figure, axes = pyplot.subplots(count, 1, figsize=(9, 3 + 2.4 * (count - 1)), sharex=True, squeeze=False, constrained_layout=True)
    axes[0][0].set_title(title)
    axes[-1][0].set_xlabel("time in seconds")
    return figure, [row[0] for row in axes]


def need_matplotlib():
    """Goes on under Debian's Python where that has matplotlib and this one hasn't; False where there is none."""
    if importlib.util.find_spec("matplotlib"):
        return True
    system = "/usr/bin/python3"
    if os.access(system, os.X_OK) and os.path.realpath(system) != os.path.realpath(sys.executable) and "HOKIRUPE_PYTHON" not in os.environ:
        if subprocess.run([system, "-c", "import matplotlib"], capture_output=True).returncode == 0:
            os.environ["HOKIRUPE_PYTHON"] = system
            sys.stdout.flush()
            os.execv(system, [system, *sys.argv])
    return False


def save(figure, path):
    """Writes a picture, as SVG or PNG by the name's ending."""
    is_svg = str(path).endswith(".svg")
    figure.savefig(path, dpi=120, metadata={"Date": None} if is_svg else {"Software": None})
    from matplotlib import pyplot
    pyplot.close(figure)


def _legend(axis, count):
    if count:
        axis.legend(fontsize=7, loc="best", ncol=1 + (count > 8))


def throughput(seen, step):
    """The rate of each flow where it was seen last, in steps of so many nanoseconds."""
    if not seen:
        raise NoPicture("no datagram was captured")
    figure, (axis,) = _axes(1, f"throughput, a mean over each {step / 1e6:g} ms")
    for flow, there in seen.items():
        rates = flows.rates(there.places[there.last], step)
        begin = (rates[0][0] * step / 1e9, 0)
        points = [begin, *((at * step / 1e9, rate / 1e6) for at, rate in rates)]
        axis.step([time for time, _ in points], [rate for _, rate in points], where="post", label=f"{flow} at {there.last}")
    axis.set_ylabel("Mbit/s")
    axis.set_ylim(bottom=0)
    _legend(axis, len(seen))
    return figure


def delay(seen):
    """Delay and jitter of each datagram of each flow, from the first place that saw it to the last."""
    took_by_flow = {flow: there.delays(there.first, there.last) for flow, there in seen.items() if there.first != there.last}
    if not any(took_by_flow.values()):
        raise NoPicture("no flow was seen at two places")
    figure, (above, below) = _axes(2, "delay from the first capture to the last, and how it changes from datagram to datagram")
    for flow, took in took_by_flow.items():
        changes = flows.jitters(took)
        above.plot([time / 1e9 for time, _ in took], [value / 1e6 for _, value in took], ".-", markersize=3, linewidth=0.6, label=str(flow))
        below.plot([time / 1e9 for time, _ in changes], [value / 1e6 for _, value in changes], ".-", markersize=3, linewidth=0.6)
    above.set_ylabel("delay in ms")
    below.set_ylabel("jitter in ms")
    above.set_ylim(bottom=0)
    _legend(above, len(took_by_flow))
    return figure


def queue(waiting, names, end):
    """How many frames wait at each interface over time; crosses where one found no room."""
    held = {at: line for at, line in waiting.items() if line.most or line.lost}
    if not held:
        raise NoPicture("no frame was seen to wait")
    is_exact = all(line.is_exact for line in held.values())
    figure, (axis,) = _axes(1, "frames that wait at an interface" + ("" if is_exact else ", as far as captures show it"))
    for at, line in sorted(held.items()):
        times = [time / 1e9 for time, *_ in line.steps]
        axis.step(times + [max(end / 1e9, times[-1]) if times else 0], [count for _, count, _ in line.steps] + [0], where="post", linewidth=0.9, label=names[at])
        if line.lost:
            axis.plot([time / 1e9 for time in line.lost], [line.most] * len(line.lost), "x", markersize=4, color="red", label=f"{len(line.lost)} lost")
    axis.set_ylabel("frames")
    axis.set_ylim(bottom=0)
    _legend(axis, len(held))
    return figure


def tcp(seen):
    """The segments and acknowledgements of each transfer over time, and below the bytes in flight."""
    found = segments.transfers(seen)
    if not found:
        raise NoPicture("no TCP data was captured")
    figure, (above, below) = _axes(2, "TCP: segments sent, and acknowledgements, at the sender's interface")
    for number, transfer in enumerate(found):
        colour, base = f"C{number}", transfer.segments[0].start if transfer.segments else 0
        rows = transfer.segments
        above.vlines([row.time / 1e9 for row in rows], [(row.start - base) / 1e3 for row in rows], [(row.start + row.length - base) / 1e3 for row in rows],
                     colors=colour, linewidth=2.5, label=str(transfer.flow))
        again = [row for row in rows if row.is_repeat]
        if again:
            above.plot([row.time / 1e9 for row in again], [(row.start - base) / 1e3 for row in again], ".", color="red", markersize=4, label=f"sent again: {len(again)}")
        above.step([time / 1e9 for time, _ in transfer.acks], [(ack - base) / 1e3 for _, ack in transfer.acks], where="post", color=colour, linewidth=0.8, alpha=0.7,
                   label="acknowledged" if number == 0 else None)
        below.step([time / 1e9 for time, _ in transfer.flight], [octets / 1e3 for _, octets in transfer.flight], where="post", color=colour, linewidth=0.9)
    above.set_ylabel("position in kB")
    below.set_ylabel("in flight in kB")
    below.set_ylim(bottom=0)
    _legend(above, len(found) + 1)
    return figure


def queue_names(scenario):
    return {(end.node, end.number): f"{end} to node {', '.join(str(other.node) for other in end.others[:3])}" for row in scenario.interfaces for end in row}


def waiting_of(scenario, trace, found):
    """The queues of a run: of its text trace where there is one, else of its captures."""
    return queues.of_trace(trace) if trace is not None else queues.of_captures(scenario, found)
