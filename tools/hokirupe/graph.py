"""A scenario as a graph in Graphviz's language: nodes with their applications, links with rate and delay, LANs, groups."""
from hokirupe import words

MANY = 60           # nodes, above which edges are drawn straight: curves round the nodes take minutes then
COLOURS = ("#cfe2f3", "#d9ead3", "#fff2cc", "#f4cccc", "#d9d2e9", "#fce5cd", "#d0e0e3", "#ead1dc", "#e6e6e6", "#c9daf8")


def automatic_groups(scenario):
    """The cut at the median delay: links of at least that delay are cut, and what hangs together otherwise is a group."""
    delays = sorted(network.delay_ns for network in scenario.links if network.delay_ns)
    bound = delays[(len(delays) - 1) // 2] if delays else None
    parent = list(range(scenario.nodes))

    def root(node):
        while parent[node] != node:
            parent[node] = node = parent[parent[node]]
        return node

    for network in scenario.networks:
        if network.is_lan or bound is None or network.delay_ns < bound:
            for end in network.ends[1:]:
                low, high = sorted((root(network.ends[0].node), root(end.node)))
                parent[high] = low
    roots = sorted({root(node) for node in range(scenario.nodes)})
    return [[node for node in range(scenario.nodes) if root(node) == one] for one in roots]


def dot(scenario, groups, with_addresses=True):
    """The graph's text."""
    colour = {node: COLOURS[number % len(COLOURS)] for number, group in enumerate(groups or []) for node in group}
    splines = "true" if scenario.nodes <= MANY else "line"
    yield "graph scenario {"
    yield f'  graph [overlap=false, splines={splines}, outputorder=edgesfirst, nodesep=0.5, ranksep=1.0, pad=0.2, fontname="sans-serif"]'
    yield '  node [shape=circle, style=filled, fillcolor=white, fontname="sans-serif", fontsize=11, margin=0.03]'
    yield '  edge [fontname="sans-serif", fontsize=9]'
    for node in range(scenario.nodes):
        apps = [app for app in scenario.apps if app.node == node]
        shape = "circle" if not apps else "box"
        lines = [f"{node}", *(_app(app) for app in apps[:4]), *([".."] if len(apps) > 4 else [])]
        label = "\\n".join(lines)
        rounded = ', style="filled,rounded"' if apps else ""
        yield f'  n{node} [label="{label}", shape={shape}, fillcolor="{colour.get(node, "white")}"{rounded}]'
    for network in scenario.networks:
        yield from _lan(network, with_addresses) if network.is_lan else _link(network, with_addresses)
    yield "}"


def _app(app):
    if not app.is_active:
        return f"{app.kind} {app.port}"
    return f"{app.kind} to {app.dst}" + (f":{app.port}" if app.port else "")


def _about(network):
    lines = [words.rate(network.rate_bps), words.time(network.delay_ns)]
    if network.queue != "fifo" or network.limit != 100:
        lines.append(f"{network.queue} {network.limit}")
    return "\\n".join(lines)


def _link(network, with_addresses):
    a, b = network.ends
    style = ", penwidth=2" if network.pcap else ""
    ends = f', taillabel="{a.address}", headlabel="{b.address}", labeldistance=2.6, labelangle=38, labelfontsize=7' if with_addresses else ""
    yield f'  n{a.node} -- n{b.node} [label="{_about(network)}"{ends}{style}]'


def _lan(network, with_addresses):
    name = f"lan{network.number}"
    yield f'  {name} [label="LAN {network.number}\\n{_about(network)}", shape=box, fontsize=9, fillcolor="#eeeeee", height=0.2]'
    style = "penwidth=2" if network.pcap else ""
    for end in network.ends:
        label = f'headlabel="{end.address}", labeldistance=2.6, labelangle=38, labelfontsize=7' if with_addresses else ""
        yield f'  {name} -- n{end.node} [{", ".join(filter(None, (label, style)))}]'
