"""Runs the commands in documents, and compares what they print; `checks/commands` calls this at the top.

A block ```console has lines `$ COMMAND`, each with what it prints below it, a line `..` standing for any lines. A block ```toml
that begins with `# NAME.toml` is a file of that name for the commands below it. Each document has a folder of its own, with the
program, the tools and the examples.
"""
import fnmatch
import os
import pathlib
import re
import shutil
import subprocess
import sys
import tempfile

TOP = pathlib.Path(__file__).resolve().parent.parent
PROGRAM = "crates/sim_main/out/sim_main"
NEEDED = ("tcpdump", "tshark", "dot")
LONGEST = 120       # seconds; a command that takes longer, on a machine full of other work, is left out
BLOCK = re.compile(r"^```(console|toml)\n(.*?)^```$", re.M | re.S)


def room(folder):
    """What the commands of a document need, in a folder where nothing has to be built."""
    shutil.copy(TOP / "simulate", folder)
    for name in ("tools", "examples", "checks"):
        shutil.copytree(TOP / name, folder / name)
    (folder / PROGRAM).parent.mkdir(parents=True)
    shutil.copy(TOP / PROGRAM, folder / PROGRAM)
    (folder / "crates.txt").touch()
    os.utime(folder / "crates.txt", (0, 0))


def commands(block):
    """The commands of a block, each with the lines that it prints."""
    found = []
    for line in block.splitlines():
        if line.startswith("$ "):
            found.append((line[2:], []))
        elif found:
            found[-1][1].append(line)
    return found


def fits(printed, wanted):
    """Whether lines are those that stand in a document, `..` standing for any lines."""
    if not wanted:
        return not printed
    if wanted[0] == "..":
        return any(fits(printed[skipped:], wanted[1:]) for skipped in range(len(printed) + 1))
    return bool(printed) and fnmatch.fnmatchcase(printed[0], wanted[0].replace("[", "[[]")) and fits(printed[1:], wanted[1:])


def lacks(command, printed):
    """What a command needs and isn't installed, or None."""
    for tool in NEEDED:
        if re.search(rf"\b{tool}\b", command) and not shutil.which(tool):
            return tool
    missing = re.search(r"(\S+) isn't installed", printed)
    return missing[1].strip("`'s") if missing else None


def output(command, folder):
    """What a command prints, on standard error too, or None where it takes too long."""
    how = {"stdin": subprocess.DEVNULL, "stdout": subprocess.PIPE, "stderr": subprocess.STDOUT, "text": True}
    try:
        return subprocess.run(["bash", "-c", command], cwd=folder, timeout=LONGEST, **how).stdout
    except subprocess.TimeoutExpired:
        return None


def known(document, name, block):
    """A scenario in a document is one that the program knows."""
    asked = subprocess.run([TOP / PROGRAM, "check"], input=block, capture_output=True, text=True)
    if asked.returncode:
        sys.exit(f"{document.name}: {name}: the program answers {asked.stdout}")


def run(document, folder, lacking):
    """Runs a document's commands; how many were compared."""
    compared = 0
    for kind, block in BLOCK.findall(document.read_text()):
        if kind == "toml":
            name = re.match(r"# (\w+\.toml)\n", block)
            if name:
                (folder / name[1]).write_text(block)
                known(document, name[1], block)
            continue
        for command, wanted in commands(block):
            printed = output(command, folder)
            if printed is None:
                lacking.add(f"time for `{command}` and what follows it")
                return compared
            without = lacks(command, printed)
            if without:
                lacking.add(without)
            elif not fits(printed.splitlines(), wanted):
                sys.exit(f"{document.name}: `{command}` prints\n{printed}\nand the document has\n" + "\n".join(wanted))
            compared += not without
    return compared


def main():
    compared, lacking = 0, set()
    for name in sys.argv[1:]:
        with tempfile.TemporaryDirectory() as folder:
            folder = pathlib.Path(folder)
            room(folder)
            compared += run(TOP / name, folder, lacking)
    print(f"passed, {compared} commands" + (f"; not there: {', '.join(sorted(lacking))}" if lacking else ""))


if __name__ == "__main__":
    main()
