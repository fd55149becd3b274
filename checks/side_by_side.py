#!/usr/bin/env python3
"""Runs drawn scenarios by a program, in one group and in those of the automatic cut by several workers, and by the reference, and
compares what they write.

    checks/side_by_side.py PROGRAM COUNT [FEATURE..]
    checks/side_by_side.py PROGRAM FILE

The second compares what one scenario writes. The features are those of random_scenario.py. Where groups are drawn, the program runs each scenario with words on partition and
workers that are drawn too.
"""
import pathlib
import random
import subprocess
import sys
import tempfile
import tomllib

import random_scenario
from simulator.run import Run


def by_reference(scenario):
    """The text and the files, by name."""
    run = Run(tomllib.loads(scenario))
    run.run()
    return run.text(), dict(run.files())


def words(seed, features):
    if "groups" not in features:
        return []
    draw = random.Random(f"words {seed}")
    return [f"partition={draw.choice(['one', 'file', 'file', 'auto'])}", f"workers={draw.choice([1, 2, 3, 8, 64])}"]


def by_program(program, scenario, words):
    with tempfile.TemporaryDirectory() as folder:
        ran = subprocess.run([program, "run", *words], input=scenario, capture_output=True, text=True, cwd=folder)
        return ran.stdout, {file.name: file.read_bytes() for file in pathlib.Path(folder).iterdir()}


def compared(program, scenario, words, name):
    """The text and the files of a scenario, by name, which both write alike."""
    (text, files), (said, written) = by_reference(scenario), by_program(program, scenario, words)
    if text != said:
        sys.exit(f"scenario {name}: the reference says\n{text}and the program\n{said}")
    if files != written:
        differing = [name for name in sorted({*files, *written}) if files.get(name) != written.get(name)]
        sys.exit(f"scenario {name}: these files differ: {', '.join(differing)}")
    return text, files


def main():
    program = pathlib.Path(sys.argv[1]).resolve()
    if not sys.argv[2].isdigit():
        text, _ = compared(program, pathlib.Path(sys.argv[2]).read_text(), [], sys.argv[2])
        print(f"passed, {text.splitlines()[0]}")
        return
    count, features = int(sys.argv[2]), frozenset(sys.argv[3:])
    endings = {"events": 0, "limit": 0}
    packets = 0
    for seed in range(1, count + 1):
        text, files = compared(program, random_scenario.scenario(seed, features), words(seed, features), seed)
        endings[text.split()[0]] += 1
        packets += sum(len(file) > 24 for file in files.values())
    print(f"passed, {count} drawn scenarios: {endings['events']} ended, {endings['limit']} met a limit; {packets} captures with packets")


if __name__ == "__main__":
    main()
