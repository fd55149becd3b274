"""A scenario in words: its nodes, interfaces, routes and applications."""
from hokirupe import words


def lines(scenario, routing, most_nodes):
    """A paragraph for the whole and one for each of the first nodes."""
    counts = [words.counted(scenario.nodes, "node"), words.counted(len(scenario.links), "link")]
    if scenario.lans:
        counts.append(words.counted(len(scenario.lans), "LAN"))
    listed = sum(map(len, scenario.routes))
    counts += [words.counted(listed, "listed route") if scenario.routing == "static" else "least-cost routes"]
    counts += [words.counted(len(scenario.apps), "application"), words.counted(len(scenario.captures()), "capture")]
    yield ", ".join(counts) + f"; the run stops at {words.time(scenario.stop_ns)}"
    for node in range(min(scenario.nodes, most_nodes)):
        yield from _node(scenario, routing, node)
    if scenario.nodes > most_nodes:
        yield f"and {scenario.nodes - most_nodes} more nodes (--all shows them)"


def _node(scenario, routing, node):
    yield f"node {node}"
    for end in scenario.interfaces[node]:
        net = end.network
        far = ", ".join(f"node {other.node} ({other.address})" for other in end.others[:4]) + (", .." if len(end.others) > 4 else "")
        queue = net.queue + (f" {words.rate(net.tbf_bps)} {words.size(net.tbf_burst)}" if net.queue == "tbf" else "")
        more = (", captured" if net.pcap else "") + (f", mtu {net.mtu}" if net.mtu != 1500 else "") + (f", cost {net.cost}" if net.cost != 1 else "")
        yield (f"  interface {end.number}  {end.address}/{net.prefix}  {'LAN with' if net.is_lan else 'link to'} {far}: "
               f"{words.rate(net.rate_bps)}, {words.time(net.delay_ns)}, {queue} of {net.limit}{more}")
    for route in scenario.routes[node]:
        yield f"  route        {route.network} via {route.row['via']}" + (f" (node {route.via.node})" if route.via else "")
    for app in scenario.apps:
        if app.node == node:
            yield f"  application {app.number}  " + about(app, routing)


def about(app, routing):
    """An application in a line: what it does, and the way of its packets."""
    if not app.is_active:
        return f"{app.kind} at port {app.port}"
    target = str(app.dst) + (f":{app.port}" if app.port else "")
    way = routing.way(app.node, app.dst)
    how = f"way {way}" if not way.fault else "no way"
    if app.kind == "tcp-bulk":
        what = f"{words.size(app.bytes)}, segments of at most {app.mss}"
    elif app.kind == "on-off":
        what = f"{app.count:_} x {app.size} bytes at {words.rate(app.rate_bps)}, on {words.time(app.on_ns)}, off {words.time(app.off_ns)}"
    else:
        what = f"{app.count:_} x {app.size} bytes" + (f", one every {words.time(app.interval_ns)}" if app.count > 1 else "")
    return f"{app.kind} to {target}: {what}, from {words.time(app.start_ns)} on ({how})"
