"""Tests of tools/draw and tools/plot, and of how tools/flows counts, on captures made by hand."""
import re
import shutil

from tools_common import EXAMPLES, TOOLS, capture, datagram, has, piece, ran, same, segment, skip

from hokirupe import captures, flows, queues, scenario, segments, traces


def networks_are_drawn(folder):
    ran(TOOLS / "draw", EXAMPLES / "star-queue.toml", "--out", folder / "net.dot")
    has((folder / "net.dot").read_text(), 'n0 -- n4 [label="1 Mbit/s\\n1 ms\\nfifo 2", taillabel="10.1.4.1", headlabel="10.1.4.2"', "a link")
    if not shutil.which("dot"):
        skip("drawing by dot (it isn't installed)")
        return
    _, errors, status = ran(TOOLS / "draw", EXAMPLES / "star-queue.toml", "--out", folder / "net.svg", "--cut")
    same((status, errors), (0, ""), "draw")
    has((folder / "net.svg").read_text(), "udp&#45;sink 9", "the picture of a network")


def transfers_are_followed(folder):
    """Three segments of which the second is lost and sent again, as two captures show them."""
    here, there = (10, 1, 1, 1), (10, 1, 1, 2)
    took = lambda size: 8 * (42 + size) * 1000 + 1_000_000      # at 1 Mbit/s and 1 ms
    sent = [(10**6 * number, 1 + 500 * at, number) for number, at in enumerate((0, 1, 2))] + [(10**9, 501, 3)]
    out = [(time, segment(here, there, number, 49153, 80, seq, 1, 16, 500)) for time, seq, number in sent]
    came = [(time + took(500), packet) for time, packet in out if packet[5] != 1]
    acks = [(time, number) for number, (time, _) in zip((501, 501, 1501), came)]
    back = [(time, segment(there, here, at, 80, 49153, 1, number, 16, 0)) for at, (time, number) in enumerate(acks)]
    (folder / "trace-0-0.pcap").write_bytes(capture(out + [(time + took(0), packet) for time, packet in back]))
    (folder / "trace-1-0.pcap").write_bytes(capture(came + back))
    (folder / "tcp.toml").write_text("""format = 1
nodes = 2
stop_ns = 5_000_000_000
link = [{ a = 0, b = 1, a_addr = "10.1.1.1", b_addr = "10.1.1.2", rate_bps = 1_000_000, delay_ns = 1_000_000, pcap = true }]
app = [{ kind = "tcp-sink", node = 1, port = 80 }, { kind = "tcp-bulk", node = 0, port = 80, dst = "10.1.1.2", bytes = 1500, mss = 500 }]
""")
    seen = flows.seen(flows.sightings(scenario.load(folder / "tcp.toml"), captures.of_folder(folder)))
    transfer, = segments.transfers(seen)
    same([(row.start, row.length, row.is_repeat) for row in transfer.segments], [(1, 500, False), (501, 500, False), (1001, 500, False), (501, 500, True)], "segments")
    same([number for _, number in transfer.acks], [501, 501, 1501], "acknowledgements")
    same(transfer.flight[-1][1], 0, "bytes in flight at the end")
    picture("tcp", folder / "tcp.toml", folder, ["sent again: 1"])


def traces_are_read(folder):
    (folder / "trace.tr").write_text("+ 0.000000000 n0 i0 p0.0 100 payload:70 udp:8\n- 0.000000000 n0 i0 p0.0 100\n+ 0.000000001 n0 i0 p0.1 100\n"
                                     "d 0.000000002 n0 i0 p0.2 100\n- 0.000100000 n0 i0 p0.1 100\nr 0.000100005 n1 i0 p0.0 100\n")
    waiting, = queues.of_trace(traces.read(folder / "trace.tr")).values()
    same((waiting.steps, waiting.lost), ([(0, 0, 0), (1, 1, 100), (100_000, 0, 0)], [2]), "a queue from the trace")
    picture("queue", EXAMPLES / "two-nodes.toml", folder, ["n0 i0 to node 1", "1 lost"])


def picture(kind, told, folder, labels):
    """A picture of a run is made, and has its labels; without matplotlib the tool says so."""
    said, errors, status = ran(TOOLS / "plot", kind, told, folder, "--out", folder / f"{kind}.svg")
    if "matplotlib isn't installed" in errors:
        skip("pictures of runs (matplotlib isn't installed)")
        same(status, 1, "the status of plot without matplotlib")
        return
    same((said.strip(), errors, status), (str(folder / f"{kind}.svg"), "", 0), f"plot {kind}")
    for label in labels:
        has((folder / f"{kind}.svg").read_text(), label, f"the picture {kind}")


def groups_are_coloured(folder):
    """One colour for each group, of the scenario or of the automatic cut: links of at least the median delay are cut."""
    delays = {"0": 1000, "1": 3000, "2": 2000, "3": 0}
    links = "".join(f'  {{ a = {a}, b = {int(a) + 1}, a_addr = "10.1.{a}.1", b_addr = "10.1.{a}.2", rate_bps = 1, delay_ns = {delay} }},\n' for a, delay in delays.items())
    (folder / "five.toml").write_text(f"format = 1\nnodes = 5\nstop_ns = 1\ngroups = [[0, 1, 2], [3, 4]]\nlink = [\n{links}]\n")
    for words, wanted in (((), [[0, 1, 2], [3, 4]]), (("--cut",), [[0, 1], [2], [3, 4]])):
        ran(TOOLS / "draw", folder / "five.toml", "--out", folder / "net.dot", "--plain", *words)
        colours = dict(re.findall(r'n(\d) \[label="\d", shape=circle, fillcolor="(#?\w+)"', (folder / "net.dot").read_text()))
        same([[node for node in range(5) if colours[str(node)] == one] for one in dict.fromkeys(colours.values())], wanted, "groups by their colours")


def large_networks_are_drawn(folder):
    """Within seconds, with straight lines."""
    links = "".join(f'  {{ a = 0, b = {at}, a_addr = "10.1.{at}.1", b_addr = "10.1.{at}.2", rate_bps = 1, delay_ns = 1 }},\n' for at in range(1, 250))
    (folder / "star.toml").write_text(f"format = 1\nnodes = 250\nstop_ns = 1\nlink = [\n{links}]\n")
    ran(TOOLS / "draw", folder / "star.toml", "--out", folder / "net.dot")
    has((folder / "net.dot").read_text(), "splines=line", "the edges of a large network")
    if shutil.which("dot"):
        same(ran(TOOLS / "draw", folder / "star.toml", timeout=60), (f"{folder / 'star.svg'}\n", "", 0), "the picture of a large network")


# Two nodes and a router between them: the first datagram of three waits for no one, the second for the first, the third is lost.
CHAIN = """format = 1
nodes = 3
stop_ns = 10_000_000_000
link = [
  { a = 0, b = 1, a_addr = "10.1.1.1", b_addr = "10.1.1.2", rate_bps = 8_000_000, delay_ns = 1_000_000, pcap = true },
  { a = 1, b = 2, a_addr = "10.1.2.1", b_addr = "10.1.2.2", rate_bps = 800_000, delay_ns = 1_000_000, limit = 1, pcap = true },
]
route = [{ node = 0, dest = "10.1.2.0", prefix = 24, via = "10.1.1.2" }]
app = [{ kind = "udp-send", node = 0, dst = "10.1.2.2", port = 9, count = 3, interval_ns = 2_000_000, size = 970 }]
"""
MS = 10**6


def chain(folder):
    """Its captures: a frame of 1000 bytes takes 1 ms on the first link and 10 ms on the second, and 1 ms on the way."""
    sent = lambda number, ttl: datagram((10, 1, 1, 1), (10, 1, 2, 2), number, 970, ttl)
    files = {
        "0-0": [(0, sent(0, 64)), (2 * MS, sent(1, 64)), (4 * MS, sent(2, 64))], "1-0": [(2 * MS, sent(0, 64)), (4 * MS, sent(1, 64)), (6 * MS, sent(2, 64))],
        "1-1": [(2 * MS, sent(0, 63)), (12 * MS, sent(1, 63))], "2-0": [(13 * MS, sent(0, 63)), (23 * MS, sent(1, 63))],
    }
    for name, frames in files.items():
        (folder / f"trace-{name}.pcap").write_bytes(capture(frames))
    (folder / "chain.toml").write_text(CHAIN)
    told = scenario.load(folder / "chain.toml")
    return told, flows.sightings(told, captures.of_folder(folder))


def flows_are_measured(folder):
    told, found = chain(folder)
    (flow, there), = flows.seen(found).items()
    same(str(flow), "udp 10.1.1.1:49153 > 10.1.2.2:9", "a flow")
    same([str(place) for place in there.ordered()], ["n0 i0 out", "n1 i0 in", "n1 i1 out", "n2 i0 in"], "the places of a flow")
    first, _, _, last = there.ordered()
    same(there.delays(first, last), [(13 * MS, 13 * MS), (23 * MS, 21 * MS)], "delays")
    same(flows.jitters(there.delays(first, last)), [(23 * MS, 8 * MS)], "jitter")
    same(there.missed(first, last, told.stop_ns), (1, 0), "what was lost")
    same(flows.rates(there.places[last], 10 * MS), [(1, 800_000.0), (2, 800_000.0), (3, 0.0)], "rates in steps of 10 ms")
    waiting = queues.of_captures(told, found)[1, 1]
    same(([step[:2] for step in waiting.steps], waiting.lost), ([(2 * MS, 0), (4 * MS, 1), (12 * MS, 0)], [6 * MS]), "the queue of the slow link")


def pieces_are_followed(folder):
    """A datagram that is split on the way has come where all of its pieces have; a piece is of the flow of its datagram."""
    here, there = (10, 1, 1, 1), (10, 1, 2, 2)
    whole = [datagram(here, there, number, 40) for number in range(2)]
    parts = [[piece(here, there, number, 0, False, data[20:52], 63), piece(here, there, number, 32, True, data[52:], 63)] for number, data in enumerate(whole)]
    files = {"0-0": [(0, whole[0]), (MS, whole[1])], "2-0": [(20 * MS, parts[0][0]), (21 * MS, parts[0][1]), (22 * MS, parts[1][0])]}
    for name, frames in files.items():
        (folder / f"trace-{name}.pcap").write_bytes(capture(frames))
    (folder / "chain.toml").write_text(CHAIN)
    told = scenario.load(folder / "chain.toml")
    (flow, seen), = flows.seen(flows.sightings(told, captures.of_folder(folder))).items()
    first, last = seen.ordered()
    same((str(flow), len(seen.places[last])), ("udp 10.1.1.1:49153 > 10.1.2.2:9", 3), "the flow of pieces")
    same(seen.missed(first, last, told.stop_ns), (1, 0), "of two datagrams one that lacks a piece")


def flows_are_listed(folder):
    chain(folder)
    said, errors, status = ran(TOOLS / "flows", folder / "chain.toml", folder)
    same((errors, status), ("", 0), "flows")
    same([line.split() for line in said.splitlines()[2:]], [line.split() for line in (
        "n0 i0 out  3  3000  -    4 Mbit/s   0 s, 0 s, 0 s",
        "n1 i0 in   3  3000  0    4 Mbit/s   2 ms, 2 ms, 2 ms",
        "n1 i1 out  2  2000  1  800 kbit/s   2 ms, 10 ms, 10 ms",
        "n2 i0 in   2  2000  0  800 kbit/s   13 ms, 21 ms, 21 ms",
        "from n0 i0 out to n2 i0 in: 1 of 3 lost, mean delay 17 ms, mean jitter 8 ms",
    )], "the lines of a flow")


def runs_are_drawn(folder):
    """Each kind of picture has its labels, as SVG and as PNG, and `all` draws those of which there is something to draw."""
    chain(folder)
    told = folder / "chain.toml"
    picture("throughput", told, folder, ["a mean over each 0.5 ms", "udp 10.1.1.1:49153 &gt; 10.1.2.2:9 at n2 i0 in", "Mbit/s"])
    picture("delay", told, folder, ["delay in ms", "jitter in ms", "udp 10.1.1.1:49153 &gt; 10.1.2.2:9"])
    picture("queue", told, folder, ["n1 i1 to node 2", "1 lost", "as far as captures show it"])
    said, errors, status = ran(TOOLS / "plot", "all", told, folder)
    if not status:
        same(said.split(), [str(folder / f"{kind}.svg") for kind in ("throughput", "queue", "delay")], "all pictures")
        ran(TOOLS / "plot", "delay", told, folder, "--out", folder / "delay.png")
        same((folder / "delay.png").read_bytes()[:8], b"\x89PNG\r\n\x1a\n", "a picture as PNG")
        _, errors, _ = ran(TOOLS / "plot", "throughput", told, folder, "--flow", "tcp")
        same(errors, "tools/plot: no datagram was captured\n", "a picture of flows that aren't there")
        _, errors, _ = ran(TOOLS / "plot", "queue", told, folder, "--interface", "0.0")
        same(errors, "tools/plot: no frame was seen to wait\n", "a picture of another queue")
    _, errors, status = ran(TOOLS / "plot", "tcp", told, folder, "--out", folder / "tcp.jpg")
    same((errors, status), (f"tools/plot: {folder / 'tcp.jpg'} ends neither with .svg nor with .png\n", 1), "a picture of another form")


TESTS = (
    networks_are_drawn, groups_are_coloured, large_networks_are_drawn, flows_are_measured, pieces_are_followed, flows_are_listed,
    runs_are_drawn, transfers_are_followed, traces_are_read,
)
