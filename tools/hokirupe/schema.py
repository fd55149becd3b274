"""The keys of a scenario by section and field number, as docs/scenario.md lists them."""
from typing import NamedTuple, Optional

TABLES = ("", "link", "lan", "route", "app", "loss")
TRILLION = 10**12


class Field(NamedTuple):
    """A key: what it may hold, a unit, its default (None: it has none), and an example."""
    key: str
    form: str                               # number, node, text, address, boolean, numbers, nodes, addresses, groups, tables
    low: int = 0
    high: int = 0
    unit: str = ""
    default: object = None
    example: object = None
    words: Optional[tuple] = None

    def accepted(self, nodes=None):
        """What may stand there, in words."""
        if self.form == "node":
            return "a node's number, 0 to " + (str(nodes - 1) if nodes else "`nodes` less 1")
        if self.form == "number":
            return f"a whole number, {_number(self.low)} to {_number(self.high)}" + (f" {self.unit}" if self.unit else "")
        if self.form == "text":
            return "one of " + ", ".join(f'"{word}"' for word in self.words)
        return {
            "address": 'an address in quotes, as "10.1.1.1"', "boolean": "true or false",
            "numbers": f"an array of rising whole numbers, {_number(self.low)} to {_number(self.high)}",
            "nodes": f"an array of {self.low} to {self.high} different node numbers", "addresses": "an array of addresses, one a member",
            "groups": "an array of arrays of node numbers", "tables": f"at most {_number(self.high)} tables `[[{self.key}]]`",
            "any": "a whole number",
        }[self.form]


def _number(value):
    return "10^12" if value == TRILLION else "2^53" if value == 2**53 else "2^30" if value == 2**30 else f"{value:_}"


KIND_NAMES = ("udp-send", "udp-sink", "udp-echo-client", "udp-echo-server", "ping", "on-off", "tcp-bulk", "tcp-sink")
QUEUES = ("fifo", "prio", "tbf")

_NET = (
    Field("prefix", "number", 8, 30, "", 24, 24), Field("rate_bps", "number", 1, TRILLION, "bit/s", None, 10_000_000),
    Field("delay_ns", "number", 0, TRILLION, "ns", None, 2_000_000), Field("mtu", "number", 68, 65535, "bytes", 1500, 1500),
    Field("cost", "number", 1, 65535, "", 1, 1), Field("queue", "text", default="fifo", example="fifo", words=QUEUES),
    Field("limit", "number", 1, 100_000, "packets", 100, 100), Field("tbf_bps", "number", 1, TRILLION, "bit/s", None, 1_000_000),
    Field("tbf_burst", "number", 1, 10**9, "bytes", None, 3000), Field("pcap", "boolean", default=False, example=True),
)

FIELDS = (
    (
        Field("format", "number", 1, 1, "", None, 1), Field("nodes", "number", 1, 1000, "nodes", None, 2),
        Field("stop_ns", "number", 0, TRILLION, "ns", None, 10_000_000_000), Field("seed", "number", 0, 2**53, "", 1, 1),
        Field("events_per_node", "number", 1, 10**9, "events", 1_000_000, 1_000_000),
        Field("routing", "text", default="static", example="static", words=("static", "auto")),
        Field("ascii", "boolean", default=False, example=False), Field("groups", "groups", example=[[0], [1]]),
        Field("link", "tables", 0, 4000, default=[]), Field("lan", "tables", 0, 200, default=[]),
        Field("route", "tables", 0, 10_000, default=[]), Field("app", "tables", 0, 4000, default=[]),
        Field("loss", "tables", 0, 1000, default=[]),
    ),
    (
        Field("a", "node", example=0), Field("b", "node", example=1), Field("a_addr", "address", example="10.1.1.1"),
        Field("b_addr", "address", example="10.1.1.2"), *_NET,
    ),
    (Field("members", "nodes", 2, 200, example=[0, 1, 2]), Field("addrs", "addresses", example=["10.2.1.1", "10.2.1.2", "10.2.1.3"]), *_NET),
    (
        Field("node", "node", example=0), Field("dest", "address", example="10.1.2.0"),
        Field("prefix", "number", 0, 30, "", None, 24), Field("via", "address", example="10.1.1.2"),
    ),
    (
        Field("kind", "text", example="udp-send", words=KIND_NAMES), Field("node", "node", example=0),
        Field("port", "number", 1, 49152, "", None, 9), Field("dst", "address", example="10.1.1.2"),
        Field("start_ns", "number", 0, TRILLION, "ns", 0, 1_000_000_000), Field("count", "number", 1, 10**9, "", 1, 10),
        Field("interval_ns", "number", 1, TRILLION, "ns", 10**9, 1_000_000), Field("size", "number", 0, 65507, "bytes", 512, 1000),
        Field("priority", "number", 0, 15, "", 0, 0), Field("rate_bps", "number", 1, TRILLION, "bit/s", None, 1_000_000),
        Field("on_ns", "number", 1, TRILLION, "ns", None, 1_000_000_000), Field("off_ns", "number", 0, TRILLION, "ns", None, 1_000_000_000),
        Field("bytes", "number", 0, 2**30, "bytes", None, 1_000_000), Field("mss", "number", 64, 9000, "bytes", 536, 536),
    ),
    (
        Field("node", "node", example=1), Field("iface", "any", example=0), Field("frames", "numbers", 1, 10**9, example=[3, 7]),
        Field("millionths", "number", 0, 10**6, "", None, 10_000),
    ),
)

_SENDS = ("port", "dst", "start_ns", "count", "interval_ns", "size", "priority")
KIND_KEYS = {
    "udp-send": _SENDS, "udp-echo-client": _SENDS, "udp-sink": ("port",), "udp-echo-server": ("port",), "tcp-sink": ("port",),
    "on-off": ("port", "dst", "start_ns", "count", "size", "priority", "rate_bps", "on_ns", "off_ns"), "ping": _SENDS[1:],
    "tcp-bulk": ("port", "dst", "start_ns", "bytes", "mss"),
}
LISTENERS = {"udp-sink": "udp", "udp-echo-server": "udp", "tcp-sink": "tcp"}     # and the protocol that they listen to


def field(section, number):
    """The field of a fault line, or None."""
    if not 0 <= section < len(FIELDS) or not 1 <= number <= len(FIELDS[section]):
        return None
    return FIELDS[section][number - 1]


def field_named(section, key):
    return next((field for field in FIELDS[section] if field.key == key), None)


def known_keys(section, table):
    """The keys that a table may have, by the kind of an application where it is one."""
    kind = table.get("kind")
    if section == 4 and isinstance(kind, str) and kind in KIND_KEYS:
        return ["kind", "node", *KIND_KEYS[kind]]
    return [field.key for field in FIELDS[section]]
