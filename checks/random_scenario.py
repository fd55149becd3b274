#!/usr/bin/env python3
"""Writes a scenario that the program accepts, drawn by a number:

    checks/random_scenario.py 7 [FEATURE..]

A few nodes are joined by a tree of networks and some more, with few rates and delays, so that many events fall on the same time;
queues are short; some routes are missing and some go round in circles; some runs stop early or meet the limit on events. The
features, of which none is drawn unless it is named: lan, discs, loss, on-off, trace, tcp, fragments, auto, groups.
"""
import random
import sys

SINKS = ["udp-sink", "udp-echo-server"]
SENDERS = ["udp-send", "udp-send", "udp-echo-client", "udp-echo-client", "ping"]
TCP_DATA = 40


class Network:
    """A link or a LAN: its members as (node, address)."""

    def __init__(self, draw, features, number, members):
        self.number = number
        self.members = [(node, f"10.1.{number}.{host + 1}") for host, node in enumerate(members)]
        self.is_lan = len(members) > 2 or ("lan" in features and draw.random() < 0.3)
        self.dest = f"10.1.{number}.0"
        self.mtu = draw.choice([1500, 1500, 576, 9000])
        if "fragments" in features and draw.random() < 0.4:
            self.mtu = draw.choice([68, 100, 300])

    def others(self, node):
        return [member for member in self.members if member[0] != node]

    def holds(self, node):
        return any(member == node for member, _ in self.members)


def networks(draw, features, nodes):
    """The first ones a tree."""
    groups = [[draw.randrange(node), node] for node in range(1, nodes)]
    for _ in range(draw.randrange(3)):
        pair = [draw.randrange(nodes), draw.randrange(nodes)]
        if pair[0] != pair[1]:
            groups.append(pair)
    for group in groups:
        if "lan" in features and draw.random() < 0.4:
            more = [node for node in range(nodes) if node not in group]
            group += draw.sample(more, draw.randrange(len(more) + 1))
        draw.shuffle(group)
    return [Network(draw, features, number, group) for number, group in enumerate(groups)]


def neighbours(nets, node):
    """Those of a node as (network, the other node, its address)."""
    return [(net, other, address) for net in nets if net.holds(node) for other, address in net.others(node)]


def first_hop(nets, node, target):
    """The neighbour's address by which a shortest walk leads from a node to a network."""
    reached, walks = {node}, [(node, None)]
    for at, hop in walks:
        if target.holds(at):
            return hop
        for _, other, address in neighbours(nets, at):
            if other not in reached:
                reached.add(other)
                walks.append((other, hop or address))
    return None


def routes(draw, nets, nodes):
    for node in range(nodes):
        around = neighbours(nets, node)
        for net in nets:
            if not net.holds(node) and draw.random() < 0.9:
                via = first_hop(nets, node, net) if draw.random() < 0.95 else draw.choice(around)[2]
                yield {"node": node, "dest": net.dest, "prefix": 24, "via": via}
        if draw.random() < 0.2:
            yield {"node": node, "dest": draw.choice(["0.0.0.0", "10.0.0.0"]), "prefix": 8 * draw.randrange(2), "via": draw.choice(around)[2]}


def is_bare(route):
    """Whether a route's destination has no bits beyond its prefix."""
    return route["dest"] != "10.0.0.0" or route["prefix"] == 8


def kinds(features):
    found = SINKS + SENDERS
    if "on-off" in features:
        found = found + ["on-off", "on-off"]
    if "tcp" in features:
        found = found + ["tcp-sink", "tcp-bulk", "tcp-bulk"]
    return found


def apps(draw, features, nets, nodes):
    listened, most = set(), min(net.mtu for net in nets) - 28
    if "fragments" in features:
        most = draw.choice([most, 2000, 5000])
    for _ in range(draw.randrange(1, 9)):
        node, kind = draw.randrange(nodes), draw.choice(kinds(features))
        app = {"kind": kind, "node": node}
        if kind in SINKS + ["tcp-sink"]:
            app["port"] = draw.choice([7, 9])
            listens = (node, app["port"], kind == "tcp-sink")
            if listens not in listened:
                listened.add(listens)
                yield app
            continue
        own = {address for net in nets for member, address in net.members if member == node}
        others = [address for net in nets for _, address in net.members if address not in own]
        absent = [f"10.1.{draw.randrange(len(nets))}.77", "10.9.0.1"]
        app["dst"] = draw.choice(others * 3 + absent)
        app["start_ns"] = draw.choice([0, 0, 1000, 500_000, 1_000_000])
        if kind != "ping":
            app["port"] = draw.choice([7, 9, 9])
        if kind == "tcp-bulk":
            app["bytes"] = draw.choice([0, 1, 536, 3000, 40_000])
            fitting = [mss for mss in [64, 100, 536, 1460] if mss + TCP_DATA <= most + 28]
            app["mss"] = draw.choice(fitting) if fitting else 64
            yield app
            continue
        app["count"] = draw.choice([1, 2, 5, 20])
        app["size"] = draw.choice([1, 22, 70, 100, max(most, 1)])
        app["priority"] = draw.randrange(16)
        if kind == "on-off":
            app["rate_bps"] = draw.choice([1_000_000, 8_000_000, 10**12])
            app["on_ns"], app["off_ns"] = draw.choice([1, 1000, 250_000]), draw.choice([0, 1000, 1_000_000])
        else:
            app["interval_ns"] = draw.choice([1, 1000, 100_000, 1_000_000])
            app["size"] = draw.choice([0, app["size"]])
        yield app


def losses(draw, nets, nodes):
    for node in range(nodes):
        for iface in range(sum(net.holds(node) for net in nets)):
            if draw.random() < 0.3:
                loss = {"node": node, "iface": iface}
                if draw.random() < 0.5:
                    loss["frames"] = sorted(draw.sample(range(1, 30), draw.randrange(6)))
                else:
                    loss["millionths"] = draw.choice([0, 100_000, 300_000, 1_000_000])
                yield loss


def queue(draw, features, mtu):
    keys = {"limit": draw.choice([1, 2, 100])}
    if "discs" in features:
        keys["queue"] = draw.choice(["fifo", "prio", "tbf"])
        if keys["queue"] == "tbf":
            keys["tbf_bps"], keys["tbf_burst"] = draw.choice([1_000_000, 8_000_000, 10**12]), mtu + draw.choice([18, 2000])
    return keys


def described(draw, features, net):
    """The table of a network, and its name."""
    if net.is_lan:
        table = {"members": [node for node, _ in net.members], "addrs": [address for _, address in net.members]}
    else:
        (a, a_addr), (b, b_addr) = net.members
        table = {"a": a, "b": b, "a_addr": a_addr, "b_addr": b_addr}
    table |= {"mtu": net.mtu, "rate_bps": draw.choice([8_000_000, 8_000_000, 3_000_000, 10**12])}
    table |= {"delay_ns": draw.choice([0, 1000, 1_000_000, 1_000_000]), "pcap": draw.random() < 0.7}
    if "auto" in features:
        table["cost"] = draw.choice([1, 1, 2, 5])
    return "lan" if net.is_lan else "link", table | queue(draw, features, net.mtu)


def value(thing):
    if isinstance(thing, bool):
        return "true" if thing else "false"
    if isinstance(thing, list):
        return "[" + ", ".join(map(value, thing)) + "]"
    return f'"{thing}"' if isinstance(thing, str) else str(thing)


def table(name, row):
    return f"\n[[{name}]]\n" + "".join(f"{key} = {value(row[key])}\n" for key in row)


def groups(draw, described, nodes):
    """A cut that the program allows: no LAN and no link without delay is cut."""
    wanted = draw.choice([2, 3, nodes, 2 * nodes])
    group_of = [draw.randrange(wanted) for _ in range(nodes)]
    for _, net in described:
        together = net.get("members", [net["a"], net["b"]] if "a" in net and net["delay_ns"] == 0 else [])
        joined = {group_of[node] for node in together}
        group_of = [min(joined) if group in joined else group for group in group_of]
    members = [[node for node in range(nodes) if group_of[node] == group] for group in sorted(set(group_of))]
    draw.shuffle(members)
    return members


def scenario(seed, features=frozenset()):
    draw = random.Random(seed)
    nodes = draw.randrange(2, 8)
    nets = networks(draw, features, nodes)
    text = f"format = 1\nnodes = {nodes}\nseed = {seed}\nstop_ns = {draw.choice([0, 3_000_000, 10**9] + 4 * [10**10])}\n"
    if draw.random() < 0.3:
        text += f"events_per_node = {draw.choice([1, 5, 20, 100])}\n"
    if "trace" in features:
        text += "ascii = true\n"
    auto = "auto" in features and draw.random() < 0.7
    if auto:
        text += 'routing = "auto"\n'
    drawn = [described(draw, features, net) for net in nets]
    if "groups" in features:
        text += f"groups = {value(groups(random.Random(f'groups {seed}'), drawn, nodes))}\n"
    text += "".join(table(*net) for net in drawn)
    held = set()
    for route in [] if auto else filter(is_bare, routes(draw, nets, nodes)):
        if (route["node"], route["dest"], route["prefix"]) not in held and route["via"]:
            held.add((route["node"], route["dest"], route["prefix"]))
            text += table("route", route)
    text += "".join(table("app", app) for app in apps(draw, features, nets, nodes))
    if "loss" in features:
        in_order = [net for net in nets if not net.is_lan] + [net for net in nets if net.is_lan]
        text += "".join(table("loss", loss) for loss in losses(draw, in_order, nodes))
    return text


if __name__ == "__main__":
    sys.stdout.write(scenario(int(sys.argv[1]), frozenset(sys.argv[2:])))
