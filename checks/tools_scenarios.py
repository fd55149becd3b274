"""Tests of tools/explain and tools/routes, and of how the tools read documents."""
import ipaddress
import re
import sys

from tools_common import EXAMPLES, TOOLS, TOP, has, ran, same, skip

from hokirupe import document, doubts, faults, scenario, ways

# A code with a number, as the test of the reader prints it.
NUMBERED = re.compile(r"(\w+) \{ \w+: (\d+) \}")


def documents_are_read(_):
    try:
        import tomllib
    except ImportError:
        skip("the reader of documents beside Python's (tomllib isn't there)")
        return
    for path in EXAMPLES.glob("*.toml"):
        text = path.read_text()
        same(document.read(text), tomllib.loads(text), f"the document of {path.name}")
        same(tomllib.loads(document.write(document.read(text))), tomllib.loads(text), f"{path.name}, written again")


def numbers_have_64_bits(_):
    """Where a number is greater, the program finds no document, and the tools say where."""
    same(document.read(f"a = {2**63 - 1}\nb = -{2**63}")["b"], -2**63, "the least number")
    said = faults.explain("scenario NotToml", f"format = 1\nstop_ns = {2**63}\n", "x.toml")
    same(said[0], f"x.toml:2:11: NotToml: `{2**63}` is beyond the whole numbers of 64 bits", "a number that is too great")


def refusals_are_explained(_):
    """Every refusal that test_reader stores gets a place in the file, and a word on what is accepted."""
    stored = TOP / "crates/test_reader"
    before, changes = (stored / "stdin").read_text().split("====\n")
    for change, answer in zip(changes.splitlines(), (stored / "stdout").read_text().splitlines()):
        answer = NUMBERED.sub(r"\1 \2", answer).rsplit(": ", 1)[1]
        if answer in ("accepted", "TooLong") or len(change) > 1000 or " times " in change:
            continue
        old, new = (part.replace(" & ", "\n") for part in change.split(" => "))
        text = before.replace(old, new, 1)
        said = "\n".join(faults.explain(f"scenario {answer}", text, "x.toml"))
        has(said, f" {answer.split()[3] if len(answer.split()) > 3 else answer}: ", f"{change}: {answer}")
        if answer != "NotToml" and "accepted:" not in said and "write" not in said:
            sys.exit(f"{change}: {answer}: no advice in\n{said}")


def a_fault_has_its_place(_):
    text = (EXAMPLES / "first.toml").read_text().replace("rate_bps = 5000000", 'rate_bps = "5Mbps"')
    row = text.splitlines().index('rate_bps = "5Mbps"') + 1
    said = faults.explain("scenario 1 0 6 WrongType", text, "my.toml")
    same(said[:3], [
        f"my.toml:{row}:12: WrongType: the value is of another type", f"{row:>5} | rate_bps = \"5Mbps\"", " " * 19 + "^",
    ], "the place of a fault")
    same(said[-1], "  write: rate_bps = 5_000_000", "what to write")


def faults_of_another_file_are_told(_):
    """A fault line that doesn't fit the file is answered, whatever it is."""
    text = (EXAMPLES / "second.toml").read_text()
    for code in [*faults.CODES, "Strange"]:
        for place in ("0 0 8", "1 0 3", "1 7 3", "2 0 2", "3 0 4", "4 1 4", "5 0 2", "9 0 0", "4 0 99"):
            for number in ("", " 77"):
                same(bool(faults.explain(f"scenario {place} {code}{number}", text, "x.toml")), True, f"{place} {code}")
    for line in ("scenario", "scenario 1 0", "scenario a b c d", "words x y", "words 1", "limit", "capture", "", "capture x"):
        same(bool(faults.explain(line, text, "x.toml")), True, line)
    has(faults.explain("scenario 1 7 3 Address", text, "x.toml")[0], "has it changed since?", "a fault of a table that isn't there")


def groups_are_explained(_):
    text = TRIANGLE.replace("nodes = 5\n", "nodes = 5\ngroups = GROUPS\n").replace("delay_ns = 1 },\n  { a = 1, b = 2", "delay_ns = 0 },\n  { a = 1, b = 2")
    for groups, fault, column, lines in (
        ("[[0, 1], [2, 1, 3, 4]]", "GroupTwice 1", 23, ["node 1 stands in group 0 already", "write: each node in exactly one group"]),
        ("[[0, 1, 1], [2, 3, 4]]", "GroupTwice 1", 18, ["node 1 stands twice in group 0", "write: each node in exactly one group"]),
        ("[[0], [1, 2, 3]]", "GroupMissing 4", 10, ["node 4 stands in no group", "write: each node in exactly one group, as [[0], [1, 2, 3, 4]]"]),
        ("[[0, 1], [2, 3, 4]]", "Lan 0", 10, ["the members of [[lan]] number 0 (line 12) stand in different groups: 1 in group 0; 2 and 3 in group 1",
                                              "write: all members of a LAN in one group"]),
        ("[[0], [1, 2, 3, 4]]", "ZeroDelay 0", 10, ["[[link]] number 0 (line 7) has no delay, and joins node 0 of group 0 and node 1 of group 1",
                                                    "write: both of its ends in one group, or give it a delay"]),
    ):
        said = faults.explain(f"scenario 0 0 8 {fault}", text.replace("GROUPS", groups), "x.toml")
        same((said[0].split(":")[1:3], [line.strip() for line in said[4:]]), (["3", str(column)], lines), fault)


def doubts_are_told(_):
    text = """
format = 1
nodes = 3
stop_ns = 1_000
link = [
  { a = 0, b = 1, a_addr = "10.1.1.1", b_addr = "10.1.1.2", rate_bps = 1_000_000, delay_ns = 1 },
  { a = 1, b = 2, a_addr = "10.1.2.1", b_addr = "10.1.2.2", rate_bps = 1_000_000, delay_ns = 1 },
]
route = [
  { node = 0, dest = "10.1.2.0", prefix = 24, via = "10.1.1.2" },
  { node = 0, dest = "10.9.0.0", prefix = 16, via = "10.1.1.2" },
  { node = 1, dest = "10.9.0.0", prefix = 16, via = "10.1.1.1" },
]
app = [
  { kind = "udp-sink", node = 1, port = 7 },
  { kind = "udp-send", node = 0, dst = "10.9.0.1", port = 9 },
  { kind = "udp-send", node = 0, dst = "10.1.1.2", port = 9 },
  { kind = "ping", node = 0, dst = "10.1.2.2", start_ns = 2_000 },
  { kind = "ping", node = 2, dst = "10.1.1.1" },
]
"""
    told = scenario.build(document.read(text))
    found = [f"{doubt.place().line}: {doubt.text}" for doubt in doubts.of(told, ways.Routing(told))]
    same(found, [
        "16: no node has the address 10.9.0.1; the routes lead in a circle (way 0 > 1 > 0)",
        "17: no one listens at UDP port 9 of node 1",
        "18: it begins at 2 us, and the run stops at 1 us",
        "18: no answer comes back from node 2 to 10.1.1.1: node 2 has no route to 10.1.1.1 (way 2)",
        "19: nothing comes to 10.1.1.1: node 2 has no route to 10.1.1.1 (way 2)",
        "15: nothing is sent to UDP port 7 of node 1",
    ], "doubts")


def explain_shows_a_network(_):
    said, _, status = ran(TOOLS / "explain", EXAMPLES / "no-route.toml")
    same(status, 0, "the status of explain")
    has(said, "route        10.9.0.0/16 via 10.1.1.2 (node 1)", "a route")
    has(said, "no-route.toml:39:1: warning: application 0 (udp-send on node 0): no node has the address 10.9.0.1", "a warning")


def routes_are_listed(folder):
    """Without its routes, and with those of the tool, the example is the same network."""
    told = document.read((EXAMPLES / "chain-ping.toml").read_text())
    wanted = sorted((row["node"], row["dest"], row["via"]) for row in told.pop("route"))
    (folder / "bare.toml").write_text(document.write(told))
    said, _, status = ran(TOOLS / "routes", folder / "bare.toml")
    same(status, 0, "the status of routes")
    found = document.read(said)
    same(sorted((row["node"], row["dest"], row["via"]) for row in found["route"]), wanted, "routes")
    used, _, _ = ran(TOOLS / "routes", "--used", "--only", folder / "bare.toml")
    same(sorted((row["node"], row["dest"], row["via"]) for row in document.read(used)["route"]), wanted, "the routes that are used")


def other_faults_are_explained(_):
    text = "format = 1\nnodes = 2\nstop_ns = 5\nevents_per_node = 30\n"
    said = faults.explain("limit node 1 time 2000000", text, "x.toml")
    has(said[0], "at 2 ms node 1 would have scheduled more than 30 events", "a limit")
    has(said[2], "write: events_per_node = 300 ", "a limit")
    has(faults.explain("words 2 NoValue", "", "x.toml")[0], "word 2 of the command line: behind the command", "a fault of the words")
    for fault, command, wanted in (
        ("words 2 BadValue", ["run", "workers=0"], ["word 2 of the command line, `workers=0`: the key takes another value; a number has neither a sign nor leading zeros",
                                                    "accepted: workers=1 to 64"]),
        ("words 2 UnknownKey", ["run", "colour=1"], ["word 2 of the command line, `colour=1`: the command has no such key",
                                                     "accepted: workers=1 to 64, partition=auto, file or one, report=yes or no"]),
        ("words 2 UnknownKey", ["check", "n=1"], ["word 2 of the command line, `n=1`: the command has no such key", "accepted: nothing behind this command"]),
        ("words 2 MissingKey", ["demo"], ["word 2 of the command line: a key has to stand there", "write: ./simulate demo n=40"]),
        ("words 1 UnknownCommand", ["--help"], ["word 1 of the command line, `--help`: there is no such command; `run` runs the scenario on standard input, `check` reads"
                                               " it alone, `demo` needs none"]),
    ):
        same(faults.explain(fault, "", "x.toml", command), wanted, " ".join([fault, "of", *command]))
    text += 'link = [{ a = 0, b = 1, a_addr = "10.1.1.1", b_addr = "10.1.1.2", rate_bps = 1, delay_ns = 1, pcap = true }]\n'
    has("\n".join(faults.explain("write fault", text, "x.toml")), "asks for 2 captures", "a write fault")
    for line, word in (("read fault", "standard input"), ("no memory", "memory"), ("scenario TooLong", "16_777_216"), ("nonsense", "no fault line")):
        has(faults.explain(line, text, "x.toml")[0], word, line)


def a_fault_line_may_be_given(folder):
    """As words behind the scenario, and on standard input."""
    text = (EXAMPLES / "first.toml").read_text().replace('b_addr = "10.1.1.2"', 'b_addr = "10.1.1.300"')
    (folder / "bad.toml").write_text(text)
    (folder / "fault").write_text("scenario 1 0 4 Address\n")
    given, _, status = ran(TOOLS / "explain", folder / "bad.toml", "scenario", "1", "0", "4", "Address")
    has(given, "`300` is above 255", "a fault line behind the scenario")
    with open(folder / "fault") as fault:
        same(ran(TOOLS / "explain", folder / "bad.toml", "-", stdin=fault), (given, "", status), "a fault line on standard input")


def files_that_are_no_scenario_are_told(folder):
    """Each tool that reads a scenario says in one line what is wrong with the file, and ends with 1."""
    (folder / "junk.toml").write_bytes(b"a = \xff\n")
    (folder / "empty.toml").touch()
    for name, what in (
        ("junk.toml", f"{folder}/junk.toml:1:5: a byte that is no UTF-8"), ("none.toml", f"{folder}/none.toml: No such file or directory"),
        ("empty.toml", f"{folder}/empty.toml is no scenario that the program accepts; tools/explain {folder}/empty.toml says why"),
    ):
        for tool, words in (("draw", ()), ("routes", ()), ("flows", (folder,))):
            same(ran(TOOLS / tool, folder / name, *words), ("", f"tools/{tool}: {what}\n", 1), f"tools/{tool} {name}")
    for tool, words in (("flows", (folder / "no",)), ("draw", ("--out", folder / "no/net.svg"))):
        same(ran(TOOLS / tool, EXAMPLES / "first.toml", *words), ("", f"tools/{tool}: there is no folder {folder}/no\n", 1), f"tools/{tool} without a folder")


TRIANGLE = """format = 1
nodes = 5
stop_ns = 1
routing = "auto"
link = [
  { a = 0, b = 1, a_addr = "10.1.1.1", b_addr = "10.1.1.2", rate_bps = 1, delay_ns = 1 },
  { a = 1, b = 2, a_addr = "10.1.2.1", b_addr = "10.1.2.2", rate_bps = 1, delay_ns = 1 },
  { a = 0, b = 2, a_addr = "10.1.3.1", b_addr = "10.1.3.2", rate_bps = 1, delay_ns = 1, cost = 5 },
  { a = 2, b = 4, a_addr = "10.1.5.1", b_addr = "10.1.5.2", rate_bps = 1, delay_ns = 1 },
]
lan = [{ members = [2, 1, 3], addrs = ["10.1.4.1", "10.1.4.2", "10.1.4.3"], rate_bps = 1, delay_ns = 1 }]
"""


def routes_cost_least(_):
    """A dear link isn't taken; of hops that cost the same the least interface is, and on it the least address."""
    routing = ways.Routing(scenario.build(document.read(TRIANGLE)))
    net = {str(network.address): network for network in routing.scenario.networks}
    hop = lambda node, network: [str(end.address) for end in routing.first_hop(node, net[network])]
    same(hop(0, "10.1.5.0/24"), ["10.1.1.1", "10.1.1.2"], "the way round a dear link")
    same(hop(0, "10.1.4.0/24"), ["10.1.1.1", "10.1.1.2"], "the way to a LAN")
    same(hop(3, "10.1.2.0/24"), ["10.1.4.3", "10.1.4.1"], "of two on a LAN the one of the least address")
    same(hop(3, "10.1.1.0/24"), ["10.1.4.3", "10.1.4.2"], "the way from a LAN")
    same(str(routing.way(0, routing.scenario.networks[4].ends[2].address)), "0 > 1 > 3", "a way")


def the_longest_prefix_leads(_):
    text = TRIANGLE.replace('routing = "auto"\n', "") + """route = [
  { node = 0, dest = "10.0.0.0", prefix = 8, via = "10.1.3.2" },
  { node = 0, dest = "10.1.4.0", prefix = 24, via = "10.1.1.2" },
  { node = 0, dest = "10.1.0.0", prefix = 16, via = "10.1.3.2" },
]
"""
    told = scenario.build(document.read(text))
    for dst, wanted in (("10.1.4.3", "0 > 1 > 3"), ("10.1.5.2", "0 > 2 > 4"), ("10.1.1.2", "0 > 1")):
        same(str(ways.Routing(told).way(0, ipaddress.ip_address(dst))), wanted, f"the way to {dst}")


def routes_are_written_behind_the_scenario(folder):
    (folder / "triangle.toml").write_text(TRIANGLE)
    said, errors, status = ran(TOOLS / "routes", folder / "triangle.toml")
    same((errors, status), ("", 0), "routes")
    told = document.read(said)
    same(("routing" in told, len(told["route"])), (False, 14), "a scenario with its routes")
    (folder / "listed.toml").write_text(said)
    _, errors, status = ran(TOOLS / "routes", folder / "listed.toml")
    same((errors, status), (f"tools/routes: {folder / 'listed.toml'} lists routes already\n", 1), "routes that stand already")


def used_routes_are_fewer(folder):
    """In a chain of ten nodes with one flow: eight there, and eight for what comes back."""
    links = "".join(f'  {{ a = {a}, b = {a + 1}, a_addr = "10.1.{a}.1", b_addr = "10.1.{a}.2", rate_bps = 1, delay_ns = 1 }},\n' for a in range(9))
    app = '{ kind = "udp-send", node = 0, dst = "10.1.8.2", port = 9 }'
    (folder / "ten.toml").write_text(f"format = 1\nnodes = 10\nstop_ns = 1\nlink = [\n{links}]\napp = [{app}]\n")
    for words, wanted in (((), 72), (("--used",), 16)):
        said, _, _ = ran(TOOLS / "routes", *words, folder / "ten.toml")
        same(len(document.read(said)["route"]), wanted, f"routes {' '.join(words)}")


TESTS = (
    documents_are_read, numbers_have_64_bits, refusals_are_explained, a_fault_has_its_place, faults_of_another_file_are_told,
    groups_are_explained, doubts_are_told, other_faults_are_explained,
    files_that_are_no_scenario_are_told, a_fault_line_may_be_given, routes_are_listed,
    routes_cost_least, the_longest_prefix_leads, routes_are_written_behind_the_scenario, used_routes_are_fewer,
)
WITH_PROGRAM = (explain_shows_a_network,)
