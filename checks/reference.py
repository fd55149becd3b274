#!/usr/bin/env python3
"""A simulator written a second time, in another language, from docs/ and the RFCs.

    checks/reference.py SCENARIO FOLDER

runs a scenario of links and LANs, with every queue, loss and application. It writes the captures and the text trace into the
folder and prints the summary, or the limit that was met. It looks for no faults: the scenario has to be one that the program
accepts. `checks/examples` lays what it writes beside what the program writes.
"""
import pathlib
import sys
import tomllib

from simulator.run import Run


def main():
    scenario, folder = pathlib.Path(sys.argv[1]), pathlib.Path(sys.argv[2])
    run = Run(tomllib.loads(scenario.read_text()))
    run.run()
    for name, written in run.files():
        (folder / name).write_bytes(written)
    sys.stdout.write(run.text())


if __name__ == "__main__":
    main()
