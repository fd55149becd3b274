#!/usr/bin/env python3
"""Writes scenarios of a size, to measure the simulator on.

    bench/scenarios.py chain --nodes 65 --flows 10 --datagrams 1000
    bench/scenarios.py star --nodes 500 --datagrams 1000
    bench/scenarios.py lan --nodes 10 --datagrams 1000
    bench/scenarios.py lans --nodes 64 --datagrams 100       a ring of LANs of eight
    bench/scenarios.py fat-tree --arity 4 --datagrams 100
    bench/scenarios.py fat-tree --arity 4 --bytes 1000000    the same with TCP
    bench/scenarios.py bulk --bytes 10000000
    bench/scenarios.py dumbbell --nodes 64 --bytes 1000000   pairs over one link
    bench/scenarios.py server --nodes 1000 --bytes 10000     connections to one server

With `--captures` every interface is captured, with `--trace` the text trace is written.
"""
import argparse
import sys


def medium(delay, captures):
    return f"rate_bps = 100000000\ndelay_ns = {delay}\npcap = {'true' if captures else 'false'}\n"


def link(a, b, network, captures):
    return f'\n[[link]]\na = {a}\nb = {b}\na_addr = "{network}.1"\nb_addr = "{network}.2"\n' + medium(1_000_000, captures)


def lan(members, network, captures):
    """A LAN whose k-th member has the k-th address."""
    addresses = ", ".join(f'"{network}.{k + 1}"' for k in range(len(members)))
    return f"\n[[lan]]\nmembers = {members}\naddrs = [{addresses}]\n" + medium(1000, captures)


def route(node, network, via):
    return f'\n[[route]]\nnode = {node}\ndest = "{network}.0"\nprefix = 24\nvia = "{via}"\n'


def sink(node):
    return f'\n[[app]]\nkind = "udp-sink"\nnode = {node}\nport = 9\n'


def sender(node, dst, start, datagrams):
    """A datagram of 500 bytes every millisecond."""
    return (
        f'\n[[app]]\nkind = "udp-send"\nnode = {node}\ndst = "{dst}"\nport = 9\nstart_ns = {start}\n'
        f"count = {datagrams}\ninterval_ns = 1000000\nsize = 500\n"
    )


def tcp_sink(node, port=80):
    return f'\n[[app]]\nkind = "tcp-sink"\nnode = {node}\nport = {port}\n'


def bulk(node, dst, start, size, port=80):
    return f'\n[[app]]\nkind = "tcp-bulk"\nnode = {node}\ndst = "{dst}"\nport = {port}\nstart_ns = {start}\nbytes = {size}\nmss = 1460\n'


def head(nodes, routing="static", groups=()):
    cut = f"groups = {[list(group) for group in groups]}\n" if groups else ""
    return f'format = 1\nnodes = {nodes}\nstop_ns = 1000000000000\nevents_per_node = 1000000000\nrouting = "{routing}"\n{cut}'


# A packet lives so many hops, so no flow is longer.
LONGEST = 64


def chain(nodes, flows, datagrams, captures):
    """Nodes in a row. Each flow goes from end to end, in a longer row as far as a packet lives, and every other one the other way."""
    hops = min(nodes - 1, LONGEST)
    networks = [f"10.{k // 256}.{k % 256}" for k in range(nodes - 1)]
    firsts = [flow * (nodes - 1 - hops) // max(flows - 1, 1) for flow in range(flows)]
    parts = [head(nodes)]
    parts += [link(k, k + 1, network, captures) for k, network in enumerate(networks)]
    # A flow up ends at the far end of its last link, and a flow down at the near end of its first one.
    goals = [(first + hops - 1, 2) if flow % 2 == 0 else (first, 1) for flow, first in enumerate(firsts)]
    for goal in sorted({network for network, _ in goals}):
        for node in range(nodes):
            if node < goal:
                parts.append(route(node, networks[goal], f"{networks[node]}.2"))
            elif node > goal + 1:
                parts.append(route(node, networks[goal], f"{networks[node - 1]}.1"))
    parts += [sink(node) for node in sorted({network + end - 1 for network, end in goals})]
    for flow, (first, (network, end)) in enumerate(zip(firsts, goals)):
        start = first if flow % 2 == 0 else first + hops
        parts.append(sender(start, f"{networks[network]}.{end}", flow * 100_000, datagrams))
    return "".join(parts)


def star(nodes, datagrams, captures):
    """Nodes around a centre, to which each of them sends."""
    networks = [f"10.{k // 256}.{k % 256}" for k in range(nodes)]
    parts = [head(nodes + 1)]
    parts += [link(0, k + 1, network, captures) for k, network in enumerate(networks)]
    parts.append(sink(0))
    parts += [sender(k + 1, f"{network}.1", k * 1000, datagrams) for k, network in enumerate(networks)]
    return "".join(parts)


def one_lan(nodes, datagrams, captures):
    """A LAN on which each node sends to the next one."""
    parts = [head(nodes), lan(list(range(nodes)), "10.0.0", captures)]
    parts += [sink(node) for node in range(nodes)]
    # Few enough that the bus is free most of the time.
    parts += [sender(k, f"10.0.0.{(k + 1) % nodes + 1}", k * 1_000_000 // nodes, datagrams) for k in range(nodes)]
    return "".join(parts)


def ring(nodes, datagrams, captures):
    """Nodes in a ring, with routes of least cost. Node 0 sends as far as a packet lives on either side, and to the opposite node."""
    networks = [f"10.{k // 256}.{k % 256}" for k in range(nodes)]
    parts = [head(nodes, "auto")]
    parts += [link(k, (k + 1) % nodes, network, captures) for k, network in enumerate(networks)]
    goals = sorted({min(LONGEST, nodes // 2), nodes - min(LONGEST, nodes // 2), nodes // 2})
    parts += [sink(goal) for goal in goals]
    parts += [sender(0, f"{networks[goal]}.1", k * 100_000, datagrams) for k, goal in enumerate(goals)]
    return "".join(parts)


MEMBERS = 8


def ring_of_lans(lans, datagrams, captures):
    """LANs in a ring, each joined to the next by a link between their routers, their first members. Each station sends over a link."""
    nodes = lans * MEMBERS
    parts = [head(nodes, "auto")]
    parts += [link(k * MEMBERS, (k + 1) % lans * MEMBERS, f"10.{100 + k // 256}.{k % 256}", captures) for k in range(lans)]
    parts += [lan(list(range(k * MEMBERS, (k + 1) * MEMBERS)), f"10.{k // 256}.{k % 256}", captures) for k in range(lans)]
    stations = [(k, m) for k in range(lans) for m in range(1, MEMBERS)]
    parts += [sink(k * MEMBERS + m) for k, m in stations]
    for k, m in stations:
        there = (k + 1) % lans
        parts.append(sender(k * MEMBERS + m, f"10.{there // 256}.{there % 256}.{m + 1}", (k * MEMBERS + m) * 100_000, datagrams))
    return "".join(parts)


def fat_tree(arity, datagrams, size, captures):
    """A fat-tree: `arity` pods of hosts, edge and aggregation switches, under (arity / 2)^2 cores. Each host sends to its fellow in
    another pod: datagrams, or bytes by TCP. A pod is a group, with its share of the cores."""
    half = arity // 2
    cores, per_pod = half * half, half * half + arity
    networks, parts = [], []

    def joined(a, b):
        networks.append(f"10.{len(networks) // 256}.{len(networks) % 256}")
        parts.append(link(a, b, networks[-1], captures))
        return networks[-1]

    hosts = {}
    for pod in range(arity):
        first = cores + pod * per_pod
        edges, aggregations = range(first, first + half), range(first + half, first + arity)
        for e, edge in enumerate(edges):
            for h in range(half):
                host = first + arity + e * half + h
                hosts[pod, e, h] = host, joined(edge, host)
            for aggregation in aggregations:
                joined(edge, aggregation)
        for a, aggregation in enumerate(aggregations):
            for c in range(half):
                joined(aggregation, a * half + c)
    for host, _ in hosts.values():
        parts.append(tcp_sink(host) if size else sink(host))
    for number, ((pod, e, h), (host, _)) in enumerate(hosts.items()):
        _, network = hosts[(pod + 1) % arity, e, h]
        start = number * 100_000
        parts.append(bulk(host, f"{network}.2", start, size) if size else sender(host, f"{network}.2", start, datagrams))
    pods = [range(cores + pod * per_pod, cores + (pod + 1) * per_pod) for pod in range(arity)]
    groups = [[core for core in range(cores) if core % arity == number] + list(pod) for number, pod in enumerate(pods)]
    return head(cores + arity * per_pod, "auto", groups) + "".join(parts)


def one_bulk(size, captures):
    """One transfer over a router."""
    parts = [head(3, "auto"), link(0, 1, "10.0.0", captures), link(1, 2, "10.0.1", captures), tcp_sink(2)]
    return "".join(parts + [bulk(0, "10.0.1.2", 0, size)])


def dumbbell(pairs, size, captures):
    """Pairs whose transfers share one link between two routers, nodes 0 and 1."""
    parts = [head(2 + 2 * pairs, "auto"), link(0, 1, "10.9.9", captures)]
    for k in range(pairs):
        parts += [link(2 + k, 0, f"10.1.{k}", captures), link(1, 2 + pairs + k, f"10.2.{k}", captures)]
    parts += [tcp_sink(2 + pairs + k) for k in range(pairs)]
    parts += [bulk(2 + k, f"10.2.{k}.2", k * 1_000_000, size) for k in range(pairs)]
    return "".join(parts)


def server(connections, size, captures):
    """Two nodes with so many connections from one to the other."""
    parts = [head(2), link(0, 1, "10.0.0", captures), tcp_sink(1)]
    parts += [bulk(0, "10.0.0.2", k * 100_000, size) for k in range(connections)]
    return "".join(parts)


def traced(scenario):
    return scenario.replace("\nrouting", "\nascii = true\nrouting", 1)


def made(given):
    shapes = {
        "chain": lambda: chain(given.nodes, given.flows, given.datagrams, given.captures),
        "star": lambda: star(given.nodes, given.datagrams, given.captures),
        "lan": lambda: one_lan(given.nodes, given.datagrams, given.captures),
        "ring": lambda: ring(given.nodes, given.datagrams, given.captures),
        "lans": lambda: ring_of_lans(given.nodes, given.datagrams, given.captures),
        "fat-tree": lambda: fat_tree(given.arity, given.datagrams, given.bytes, given.captures),
        "bulk": lambda: one_bulk(given.bytes, given.captures),
        "dumbbell": lambda: dumbbell(given.nodes, given.bytes, given.captures),
        "server": lambda: server(given.nodes, given.bytes, given.captures),
    }
    return shapes[given.shape]()


SHAPES = ["chain", "star", "lan", "ring", "lans", "fat-tree", "bulk", "dumbbell", "server"]


def main():
    parser = argparse.ArgumentParser(description="Writes a scenario to measure the simulator on.")
    parser.add_argument("shape", choices=SHAPES)
    parser.add_argument("--nodes", type=int, default=65)
    parser.add_argument("--flows", type=int, default=10)
    parser.add_argument("--datagrams", type=int, default=1000)
    parser.add_argument("--arity", type=int, default=4)
    parser.add_argument("--bytes", type=int, default=0)
    parser.add_argument("--captures", action="store_true")
    parser.add_argument("--trace", action="store_true")
    given = parser.parse_args()
    sys.stdout.write(traced(made(given)) if given.trace else made(given))


if __name__ == "__main__":
    main()
