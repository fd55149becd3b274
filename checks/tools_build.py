"""Tests of tools/build and of what ./simulate says without words, with a stand-in for the toolchain's command rt."""
import os
import shutil
import sys

from tools_common import TOOLS, TOP, has, lacks, ran, same

# Crates that stand on each other so: a program over two crates side by side over one.
CRATES = """# A comment, as the real file has them.
base: std_alloc
left: base
right: base toml
sim_main: left right
waiting: base
"""
# Proves in the order in which it is listed here; with a file `fails` it fails there, with one `killed` once for want of memory.
# With a file `changes` a source changes while it is at work.
RT = """#!{python}
import pathlib, sys
top = pathlib.Path.cwd().parents[1]
with open(top / "asked", "a") as file:
    print(*sys.argv[1:], file=file)
if (top / "changes").exists():
    (top / "changes").unlink()
    (top / "crates/sim_main/src/main.rt").touch()
if sys.argv[1] == "run":
    sys.stdin.read()
    (pathlib.Path("out")).mkdir(exist_ok=True)
    pathlib.Path("out/sim_main").write_text("#!/bin/sh\\necho events 0\\n")
    pathlib.Path("out/sim_main").chmod(0o755)
    sys.exit(0)
for crate in ("base", "right", "left", "sim_main"):
    if crate == "left" and (top / "fails").exists():
        sys.exit(print("left: a goal is open") or 1)
    if crate == "left" and (top / "killed").exists():
        (top / "killed").unlink()
        sys.exit(print("rt: the check was killed") or 1)
    print("==", crate)
"""


def place(folder):
    """A repository of four crates with the tools, and the words that run a command in it with the stand-in on the PATH."""
    shutil.copy(TOP / "simulate", folder)
    shutil.copytree(TOOLS, folder / "tools")
    (folder / "crates/sim_main").mkdir(parents=True)
    (folder / "examples").mkdir()
    shutil.copy(TOP / "examples/first.toml", folder / "examples")
    (folder / "crates.txt").write_text(CRATES)
    (folder / "bin").mkdir()
    (folder / "bin/rt").write_text(RT.replace("{python}", sys.executable))
    (folder / "bin/rt").chmod(0o755)
    return {"env": {**os.environ, "PATH": f"{folder / 'bin'}:{os.environ['PATH']}"}, "cwd": folder}


def a_build_says_how_far_it_is(folder):
    how = place(folder)
    said, errors, status = ran(folder / "tools/build", "--jobs", "2", **how)
    same((said, status), ("", 0), "a build")
    lines = [line.removeprefix("simulate: ") for line in errors.splitlines()]
    same(lines[1:-1], [
        "0 of 4 crates proved, 4 left; at work: base",
        "1 of 4 crates proved, 3 left; at work: left, right",
        "2 of 4 crates proved, 2 left; at work: left",
        "3 of 4 crates proved, 1 left; at work: sim_main",
        "linking the program",
    ], "what a build says")
    has(lines[0], "building: 4 crates are proved, 2 at a time", "the beginning of a build")
    has(lines[-1], "built in ", "the end of a build")
    same((folder / "asked").read_text(), "all check --jobs 2\nrun -- check\n", "what the toolchain is asked for")


def a_build_that_fails_says_why(folder):
    how = place(folder)
    (folder / "fails").touch()
    _, errors, status = ran(folder / "tools/build", "--jobs", "2", **how)
    same(status, 70, "the status of a build that fails")
    has(errors, "left: a goal is open", "why a build fails")
    lacks((folder / "asked").read_text(), "run", "what follows a build that fails")


def a_build_goes_on_with_half(folder):
    """A check that is killed for want of memory is tried again with fewer beside it."""
    how = place(folder)
    (folder / "killed").touch()
    _, errors, status = ran(folder / "tools/build", "--jobs", "4", **how)
    same(status, 0, "the status of a build in which a check is killed")
    has(errors, "2 at a time from here on", "what is said of a check that is killed")
    same((folder / "asked").read_text(), "all check --jobs 4\nall check --jobs 2\nrun -- check\n", "the words of both tries")


def simulate_builds_where_it_is_due(folder):
    how = place(folder)
    said, errors, status = ran(folder / "simulate", "help", **how)
    same((said.split()[0], errors, status), ("usage:", "", 0), "help before a build")
    said, errors, status = ran(folder / "simulate", **how)
    same((said, errors.split()[0], status), ("", "usage:", 1), "no words before a build")
    for wanted in ("all check", "all check"):
        said, errors, status = ran(folder / "simulate", "check", **how)
        same((said, status), ("events 0\n", 0), "a command that builds first")
        same((folder / "asked").read_text().count(wanted), 1, "how often a program is built that is asked for twice")
    (folder / "crates/sim_main/src").mkdir()
    (folder / "crates/sim_main/src/main.rt").touch()
    _, errors, _ = ran(folder / "simulate", "check", **how)
    has(errors, "built in", "a build after a source has changed")
    (folder / "changes").touch()
    (folder / "crates/sim_main/src/main.rt").touch()
    _, errors, status = ran(folder / "simulate", "check", **how)
    has(errors, "a source changed while the program was built; run it again", "a source that changes meanwhile")
    same(status, 70, "a source that changes meanwhile")
    how["env"]["PATH"] = "/usr/bin:/bin"
    (folder / "crates/sim_main/src/main.rt").touch()
    _, errors, status = ran(sys.executable, folder / "tools/build", **how)
    if not shutil.which("rt", path="/usr/bin:/bin"):
        same((errors, status), ("simulate: the toolchain's command 'rt' is not on the PATH\n", 70), "a build without the toolchain")


TESTS = (a_build_says_how_far_it_is, a_build_that_fails_says_why, a_build_goes_on_with_half, simulate_builds_where_it_is_due)
