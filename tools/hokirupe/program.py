"""The simulator: where it is built, and what it answers."""
import os
import pathlib
import resource
import subprocess

TOP = pathlib.Path(__file__).resolve().parent.parent.parent
BUILT = TOP / "crates/sim_main/out/sim_main"


def find(path=None):
    """The program at a path, of the environment's HOKIRUPE, or as it is built here; None where there is none."""
    chosen = pathlib.Path(path or os.environ.get("HOKIRUPE") or BUILT).resolve()
    return chosen if os.access(chosen, os.X_OK) and chosen.is_file() else None


MISSING = "the program isn't built; ./simulate builds it"


def answer(program, data):
    """What `check` answers to a scenario's bytes: the exit status, and the line."""
    ran = subprocess.run([program, "check"], input=data, capture_output=True)
    return ran.returncode, ran.stdout.decode(errors="replace").strip()


def allow_files(count):
    """Lets a program that is started now open so many files, as far as the system lets us."""
    soft, hard = resource.getrlimit(resource.RLIMIT_NOFILE)
    wanted = count + 32
    if soft != resource.RLIM_INFINITY and soft < wanted:
        resource.setrlimit(resource.RLIMIT_NOFILE, (wanted if hard == resource.RLIM_INFINITY else min(wanted, hard), hard))


def folder_of(scenario):
    """Where the captures of a scenario lie: the folder that tools/try made beside it, else the current one."""
    beside = pathlib.Path(scenario).with_suffix(".run")
    return beside if beside.is_dir() else pathlib.Path(".")
