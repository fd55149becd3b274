"""Tests of ./simulate, tools/flows, tools/try and tools/watch, with the program."""
import os
import pty
import shutil
import subprocess
import sys

from tools_common import EXAMPLES, PROGRAM, TOOLS, has, ran, same, simulate_in

from hokirupe import captures, document, flows, progress, queues, scenario


def flows_are_told(folder):
    subprocess.run([PROGRAM, "run"], stdin=open(EXAMPLES / "chain-ping.toml"), stdout=subprocess.DEVNULL, cwd=folder, check=True)
    said, _, _ = ran(TOOLS / "flows", EXAMPLES / "chain-ping.toml", folder)
    has(said, "icmp-echo-reply 10.1.2.2 > 10.1.1.1\n", "a flow")
    has(said, "  from n1 i0 out to n0 i0 in: 0 of 3 lost, mean delay 1.0688 ms, mean jitter 0 s\n", "the way of a flow")


def a_try_leaves_a_folder(folder):
    """The star's queue loses three frames; its captures say where."""
    copy, run = folder / "star.toml", folder / "star.run"
    shutil.copy(EXAMPLES / "star-queue.toml", copy)
    for _ in range(2):
        said, errors, status = ran(TOOLS / "try", copy, "--capture-all", "--pictures", "none")
        same((errors, status), ("", 0), "a try")
        same((run / "trace-9-9.pcap").exists(), False, "a capture of an earlier try")
        (run / "trace-9-9.pcap").touch()
    (run / "trace-9-9.pcap").unlink()
    same((run / "summary.txt").read_text(), (EXAMPLES / "star-queue.summary").read_text(), "the summary of a try")
    same((run / "flows.txt").read_text().count(": 1 of 2 lost, mean delay"), 3, "flows that lose one of two")
    told = scenario.load(run / "scenario.toml")
    waiting = queues.of_captures(told, flows.sightings(told, captures.of_folder(run)))
    same((waiting[0, 3].most, waiting[0, 3].lost), (2, [3_000_000] * 3), "the queue of the slow link")
    (run / "mine").touch()
    _, errors, status = ran(TOOLS / "try", copy)
    has(errors, "which no try has made", "a folder with another's file")
    (folder / "bad.toml").write_text((EXAMPLES / "first.toml").read_text().replace("port = 9", "prot = 9", 1))
    said, _, status = ran(TOOLS / "try", folder / "bad.toml")
    same(status, 2, "the status of a try that is refused")
    has(said, "write: port = 9", "a fault that is explained")


def watched_runs_are_the_same(folder):
    """Under a terminal as without one: captures, summary and status."""
    plain, shown = folder / "plain", folder / "shown"
    for where in (plain, shown):
        where.mkdir()
    wanted, _, _ = ran(PROGRAM, "run", stdin=open(EXAMPLES / "first.toml"), cwd=plain)
    _, said, status = under_a_terminal([TOOLS / "watch", EXAMPLES / "first.toml"], shown)
    same((said, status), (wanted, 0), "a watched run's summary and status")
    for capture_file in plain.glob("*.pcap"):
        same((shown / capture_file.name).read_bytes() == capture_file.read_bytes(), True, f"{capture_file.name} of a watched run")


def simulate_adds_to_standard_error_alone(folder):
    """Beside the program itself: what is written, and the exit status; a copy stands where nothing has to be built."""
    simulate = simulate_in(folder)
    first = EXAMPLES / "first.toml"
    bad = folder / "bad.toml"
    bad.write_text(first.read_text().replace("nodes = 2", "nodes = 1"))
    commands = [(word.split(), first) for word in ("run", "check", "run x", "", "rum", "demo", "demo n=2", "run workers=2")]
    for words, given in [*commands, (["run"], bad)]:
        wanted, _, status = ran(PROGRAM, *words, stdin=open(given), cwd=folder)
        found, errors, now = ran(simulate, *words, stdin=open(given), cwd=folder)
        same((found, now), (wanted, status), f"./simulate {' '.join(words)}")
        same(bool(errors), status != 0, f"whether ./simulate {' '.join(words)} explains")
    _, errors, _ = ran(simulate, "run", stdin=open(bad), cwd=folder)
    has(errors, "bad.toml:17:5: Range", "a fault of a file")
    shutil.copy(first, folder)
    _, errors, _ = ran(simulate, "run", "first.toml", cwd=folder)
    has(errors, "a scenario is read from standard input; write: ./simulate run < first.toml\n", "a file in place of a word")
    said, _, status = ran(simulate, "help", cwd=folder)
    same((status, said.split()[0]), (0, "usage:"), "help")
    many_captures(folder)


def many_captures(folder):
    """More captures than files may be open at first."""
    links = "".join(f'  {{ a = 0, b = 1, a_addr = "10.0.{at}.1", b_addr = "10.0.{at}.2", rate_bps = 1, delay_ns = 1, pcap = true }},\n' for at in range(60))
    (folder / "many.toml").write_text(f"format = 1\nnodes = 2\nstop_ns = 0\nlink = [\n{links}]\n")
    said, _, status = ran("bash", "-c", "ulimit -Sn 100; ./simulate run < many.toml", cwd=folder)
    same((said, status), ("events 0\ndrops 0\n", 0), "a run with 120 captures")


def a_try_draws_and_runs_as_it_is_told(folder):
    """Its words go to the program, and its pictures are there, as PNG where that is asked for."""
    shutil.copy(EXAMPLES / "two-nodes.toml", folder)
    said, _, status = ran(TOOLS / "try", folder / "two-nodes.toml", "--pictures", "png", "--folder", folder / "here")
    same(status, 0, "a try with pictures")
    drawn = [path.name for path in (folder / "here").glob("*.png")]
    same([name for name in drawn if str(folder / "here" / name) not in said], [], "pictures that a try names")
    if shutil.which("dot"):
        has(" ".join(drawn), "network.png", "the pictures of a try")
    text = (EXAMPLES / "star-queue.toml").read_text().replace("pcap = true", "pcap = false").replace("nodes = 5", "nodes = 5\nascii = true")
    (folder / "traced.toml").write_text(text)
    said, _, _ = ran(TOOLS / "try", folder / "traced.toml")
    if "matplotlib isn't installed" not in said:
        has((folder / "traced.run/queue.svg").read_text(), "3 lost", "the queue of a run with a text trace and no captures")
    _, errors, status = ran(TOOLS / "try", folder / "two-nodes.toml", "colour=1", "--pictures", "none")
    same(((folder / "two-nodes.run/summary.txt").read_text(), status), ("words 2 UnknownKey\n", 1), "a word that the program doesn't know")


# A program that has come to 2.5 of 10 seconds when it is looked at.
SLOW = """#!{python}
import pathlib, struct, sys, time
sys.stdin.read()
pathlib.Path("trace-0-0.pcap").write_bytes(bytes(24) + struct.pack("<IIII", 2, 500_000_000, 4, 4) + bytes(4))
time.sleep(1.5)
print("events 5")
sys.exit(5)
"""


def a_terminal_shows_how_far_a_run_is(folder):
    slow = folder / "slow"
    slow.write_text(SLOW.replace("{python}", sys.executable))
    slow.chmod(0o755)
    shutil.copy(EXAMPLES / "first.toml", folder)
    shown, said, status = under_a_terminal([TOOLS / "watch", "first.toml", "--program", slow], folder)
    same((said, status), ("events 5\n", 5), "what a watched program writes, and its status")
    has(shown, "\r\x1b[K25%, ", "how far a run is")
    has(shown, "some 5 events in all", "how far a run is")
    has(shown.rpartition("\r\x1b[K")[2], "would have scheduled more than 1_000_000 events", "what stands there at the end")
    shown, _, _ = under_a_terminal([TOOLS / "watch", "first.toml", "--program", slow], folder, is_apart=False)
    has(shown, "\r\x1b[Kevents 5\r\n", "a summary on the terminal")


def events_are_foretold(_):
    """About as many as fire, in the examples; a short run measures as many as were asked for."""
    for path in EXAMPLES.glob("*.toml"):
        fired = int(path.with_suffix(".summary").read_text().split()[1])
        told = scenario.load(path)
        if not fired / 3 <= progress.expected_events(told) <= 3 * fired:
            sys.exit(f"{path.name}: {progress.expected_events(told)} events are foretold, and {fired} fire")
    text = (EXAMPLES / "first.toml").read_text()
    same(progress.trial_stop(scenario.build(document.read(text))), None, "a trial of a short run")
    long = text.replace("count = 1\n", "count = 10_000_000\n").replace("interval_ns = 1000000000\n", "interval_ns = 1_000\n")
    told = scenario.build(document.read(long))
    stop = progress.trial_stop(told)
    same(abs(progress.expected_events(told, stop) - progress.TRIAL_EVENTS) < 10, True, "the events of a trial")
    asked = []
    rate = progress.measured_rate(lambda data, _: asked.append(data.decode()) or "events 400000\n", told, long.encode())
    has(asked[0], f"stop_ns = {stop}\n", "the stop of a trial")
    same(rate > 0, True, "the rate of a trial")


def under_a_terminal(command, folder, is_apart=True):
    """What a command shows on a terminal, what it writes to standard output if that is apart, and its status."""
    with open(folder / "said", "w+") as said:
        child, terminal = pty.fork()
        if child == 0:
            os.chdir(folder)
            if is_apart:
                os.dup2(said.fileno(), 1)
            os.execv(command[0], [str(word) for word in command])
        shown = b""
        try:
            while part := os.read(terminal, 4096):
                shown += part
        except OSError:         # the child has ended
            pass
        status = os.waitstatus_to_exitcode(os.waitpid(child, 0)[1])
        os.close(terminal)
        said.seek(0)
        return shown.decode(), said.read(), status


WITH_PROGRAM = (
    flows_are_told, a_try_leaves_a_folder, a_try_draws_and_runs_as_it_is_told, watched_runs_are_the_same,
    a_terminal_shows_how_far_a_run_is, events_are_foretold, simulate_adds_to_standard_error_alone,
)
