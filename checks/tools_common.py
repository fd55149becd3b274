"""What the tests of the tools share: running a command, comparing, and scenarios and captures made by hand."""
import os
import pathlib
import shutil
import struct
import subprocess
import sys

TOP = pathlib.Path(__file__).resolve().parent.parent
TOOLS, EXAMPLES = TOP / "tools", TOP / "examples"
PROGRAM = TOP / "crates/sim_main/out/sim_main"
sys.path.insert(0, str(TOOLS))

skipped = []


def skip(what):
    if what not in skipped:
        skipped.append(what)


def ran(*words, **how):
    """What a command writes to standard output and to standard error, and its exit status."""
    how = {"stdin": subprocess.DEVNULL, **how}
    done = subprocess.run([str(word) for word in words], capture_output=True, text=True, **how)
    return done.stdout, done.stderr, done.returncode


def same(found, wanted, what):
    if found != wanted:
        sys.exit(f"{what}: found\n{found}\nand wanted\n{wanted}")


def has(text, part, what):
    if part not in text:
        sys.exit(f"{what}: `{part}` isn't in\n{text}")


def lacks(text, part, what):
    if part in text:
        sys.exit(f"{what}: `{part}` is in\n{text}")


def simulate_in(folder):
    """A copy of ./simulate and the tools in a folder where nothing has to be built."""
    shutil.copy(TOP / "simulate", folder)
    shutil.copytree(TOOLS, folder / "tools")
    (folder / "crates/sim_main/out").mkdir(parents=True)
    shutil.copy(PROGRAM, folder / "crates/sim_main/out/sim_main")
    (folder / "crates.txt").touch()
    os.utime(folder / "crates.txt", (0, 0))
    return folder / "simulate"


# Captures made by hand

def capture(frames):
    """A capture file of IPv4 packets on a link: each with its time in nanoseconds."""
    data = struct.pack("<IHHiIII", 0xA1B23C4D, 2, 4, 0, 0, 65535, 9)
    for time, packet in sorted(frames, key=lambda frame: frame[0]):
        data += struct.pack("<IIII", time // 10**9, time % 10**9, len(packet) + 2, len(packet) + 2) + b"\0\x21" + packet
    return data


def _head(src, dst, identity, proto, size, ttl, cut=0):
    return struct.pack(">BBHHHBBH4s4s", 0x45, 0, 20 + size, identity, cut, ttl, proto, 0, bytes(src), bytes(dst))


def segment(src, dst, identity, sport, dport, seq, ack, flags, size):
    return _head(src, dst, identity, 6, 20 + size, 64) + struct.pack(">HHIIBBHHH", sport, dport, seq, ack, 0x50, flags, 65535, 0, 0) + bytes(size)


def datagram(src, dst, identity, size, ttl=64):
    return _head(src, dst, identity, 17, 8 + size, ttl) + struct.pack(">HHHH", 49153, 9, 8 + size, 0) + bytes(size)


def piece(src, dst, identity, offset, is_last, data, ttl=64):
    """A piece of a datagram: its data begins at an offset in bytes, a multiple of 8."""
    return _head(src, dst, identity, 17, len(data), ttl, offset // 8 | (0 if is_last else 0x2000)) + data
