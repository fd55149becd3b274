"""Reads capture files in the libpcap format, version 2.4."""
import pathlib
import re
import struct

from hokirupe import frames

MAGICS = {b"\x4d\x3c\xb2\xa1": ("<", 1), b"\xa1\xb2\x3c\x4d": (">", 1), b"\xd4\xc3\xb2\xa1": ("<", 1000), b"\xa1\xb2\xc3\xd4": (">", 1000)}
NAME = re.compile(r"trace-(\d+)-(\d+)\.pcap$")


class Capture:
    """What one interface saw: its node, its number there, and its frames in order."""

    def __init__(self, node, iface, link_type, found):
        self.node, self.iface, self.link_type, self.frames = node, iface, link_type, found

    def __str__(self):
        return f"n{self.node} i{self.iface}"


class Fault(Exception):
    pass


def read(path):
    """The capture of a file named trace-N-I.pcap. A frame that is cut off at the file's end is left out."""
    path = pathlib.Path(path)
    name = NAME.search(path.name)
    data = path.read_bytes()
    if data[:4] not in MAGICS or len(data) < 24:
        raise Fault(f"{path} is no capture")
    order, scale = MAGICS[data[:4]]
    link_type, = struct.unpack_from(order + "I", data, 20)
    if link_type not in (frames.PPP, frames.ETHERNET):
        raise Fault(f"{path} has the link type {link_type}; 9 (PPP) and 1 (Ethernet) are read")
    head, at, found = struct.Struct(order + "IIII"), 24, []
    while at + 16 <= len(data):
        seconds, rest, kept, length = head.unpack_from(data, at)
        if at + 16 + kept > len(data):
            break
        found.append(frames.read(seconds * 10**9 + rest * scale, length, data[at + 16:at + 16 + min(kept, 120)], link_type))
        at += 16 + kept
    node, iface = map(int, name.groups()) if name else (0, 0)
    return Capture(node, iface, link_type, found)


def of_folder(folder):
    """The captures of a folder, by node and interface."""
    if not pathlib.Path(folder).is_dir():
        raise Fault(f"there is no folder {folder}")
    paths = [path for path in pathlib.Path(folder).glob("trace-*-*.pcap") if NAME.search(path.name)]
    return [read(path) for path in sorted(paths, key=lambda path: tuple(map(int, NAME.search(path.name).groups())))]


class Tail:
    """A capture that grows: `time` gives when its last whole frame was saved, and reads only what is new."""

    def __init__(self, path):
        self.path, self.at, self.last = path, 24, None

    def time(self):
        try:
            with open(self.path, "rb") as file:
                file.seek(self.at)
                data = file.read(1 << 22)
        except OSError:
            return self.last
        at = 0
        while at + 16 <= len(data):
            seconds, rest, kept, _ = struct.unpack_from("<IIII", data, at)
            if at + 16 + kept > len(data):
                break
            self.last, at = seconds * 10**9 + rest, at + 16 + kept
        self.at += at
        return self.last
