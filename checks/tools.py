"""Runs the tools on the examples, and compares what they say and write; `checks/tools` calls this at the top."""
import concurrent.futures
import pathlib
import sys
import tempfile

import tools_build
import tools_pictures
import tools_runs
import tools_scenarios
from tools_common import PROGRAM, TOOLS, ran, same, skip, skipped


def helps():
    """Each tool says how it is used."""
    names = [path.name for path in TOOLS.iterdir() if path.is_file()]
    with concurrent.futures.ThreadPoolExecutor() as threads:
        for name, (said, _, status) in zip(names, threads.map(lambda name: ran(TOOLS / name, "--help"), names)):
            same((status, said.split()[:2]), (0, ["usage:", f"tools/{name}"]), f"tools/{name} --help")


def main(chosen):
    tests = [*tools_scenarios.TESTS, *tools_pictures.TESTS, *tools_build.TESTS]
    if PROGRAM.exists():
        tests += [*tools_scenarios.WITH_PROGRAM, *tools_runs.WITH_PROGRAM]
    else:
        skip("runs (the program isn't built)")
    for test in tests:
        if not chosen or test.__name__ in chosen:
            with tempfile.TemporaryDirectory() as folder:
                test(pathlib.Path(folder))
    helps()
    print("passed" + (f", without {', '.join(skipped)}" if skipped else ""))


if __name__ == "__main__":
    main(sys.argv[1:])
