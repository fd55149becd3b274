"""A run: one sorted list of events, and the files and the text that it writes."""
import heapq
import struct

from . import headers
from .apps import app
from .interfaces import Lan, LanMember, LinkEnd, Loss
from .node import Node
from .routing import add_routes

SNAP_LENGTH = 65535


class Run:
    def __init__(self, scenario):
        self.stop, self.most = scenario["stop_ns"], scenario.get("events_per_node", 1_000_000)
        self.told = scenario.get("ascii", False)
        seed = scenario.get("seed", 1)
        self.nodes = [Node(self, number, seed) for number in range(scenario["nodes"])]
        self.pending, self.fired, self.limit, self.trace = [], 0, None, []
        for link in scenario.get("link", []):
            self.join(link)
        for number, lan in enumerate(scenario.get("lan", [])):
            self.share(number, lan)
        self.give_routes(scenario)
        for table in scenario.get("loss", []):
            self.nodes[table["node"]].ifaces[table["iface"]].loss = Loss(table)
        self.apps = [app(self, index, table) for index, table in enumerate(scenario.get("app", []))]
        for each in self.apps:
            each.begins()

    def put(self, make, node, table, address, *rest):
        iface = make(self, node, len(node.ifaces), table, headers.number(address), *rest)
        iface.cost = table.get("cost", 1)
        node.ifaces.append(iface)
        return iface

    def join(self, link):
        a = self.put(LinkEnd, self.nodes[link["a"]], link, link["a_addr"])
        b = self.put(LinkEnd, self.nodes[link["b"]], link, link["b_addr"])
        a.peer, b.peer = b, a

    def share(self, number, table):
        lan = Lan()
        for member, address in zip(table["members"], table["addrs"]):
            lan.members.append(self.put(LanMember, self.nodes[member], table, address, lan, number))
        lan.members.sort(key=lambda iface: iface.node.number)

    def give_routes(self, scenario):
        for node in self.nodes:
            node.routes = [(i.address, i.prefix, i.place, None) for i in node.ifaces]
        for route in scenario.get("route", []):
            node, via = self.nodes[route["node"]], headers.number(route["via"])
            place = next(i.place for i in node.ifaces if (i.address ^ via) >> (32 - i.prefix) == 0)
            node.routes.append((headers.number(route["dest"]), route["prefix"], place, via))
        if scenario.get("routing", "static") == "auto":
            add_routes(self.nodes)

    # Events. A firing that its node may not make leaves nothing, so what it does is kept back till its end.

    def first_tick(self, each):
        node = each.node
        heapq.heappush(self.pending, (each.start, node.number, 0, node.number, node.events, (each.tick, ())))
        node.events += 1

    def schedule(self, at, node, call, *rest):
        self.sends.append((at, node.number, (call, rest)))

    def line(self, sign, iface, frame):
        if self.told:
            seconds, rest = divmod(self.now, 10**9)
            self.lines.append(f"{sign} {seconds}.{rest:09} n{iface.node.number} i{iface.place} {frame.text()}\n")

    def save(self, iface, frame):
        if iface.captured:
            self.saves.append((iface, frame.data))

    def run(self):
        while self.pending and self.pending[0][0] < self.stop:
            time, at, _, _, _, (call, rest) = heapq.heappop(self.pending)
            self.now, self.sends, self.saves, self.lines = time, [], [], []
            call(*rest)
            node = self.nodes[at]
            if node.scheduled + len(self.sends) > self.most:
                self.limit = (at, time)
                return
            for when, to, load in self.sends:
                heapq.heappush(self.pending, (when, to, time, at, node.events, load))
                node.events, node.scheduled = node.events + 1, node.scheduled + 1
            for iface, frame in self.saves:
                iface.saved.append((time, frame))
            self.trace += self.lines
            self.fired += 1

    # What a run writes

    def files(self):
        for node in self.nodes:
            for iface in node.ifaces:
                if iface.captured:
                    yield f"trace-{node.number}-{iface.place}.pcap", capture(iface)
        if self.told:
            yield "trace.tr", "".join(self.trace).encode()

    def text(self):
        if self.limit:
            return "limit node {} time {}\n".format(*self.limit)
        lines = [f"events {self.fired}", f"drops {sum(node.drops for node in self.nodes)}"]
        return "".join(line + "\n" for line in lines + [each.text() for each in self.apps])


def capture(iface):
    written = struct.pack("<IHHiIII", 0xA1B23C4D, 2, 4, 0, 0, SNAP_LENGTH, iface.link_type)
    for time, frame in iface.saved:
        kept = frame[:SNAP_LENGTH]
        written += struct.pack("<IIII", time // 10**9, time % 10**9, len(kept), len(frame)) + kept
    return written
