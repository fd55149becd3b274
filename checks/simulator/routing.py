"""Least-cost routes: for each network the first hop of a walk of least cost, the least interface and address where walks tie."""
import heapq


def networks(nodes):
    """The members of each network, with its cost."""
    found = {}
    for node in nodes:
        for place, iface in enumerate(node.ifaces):
            shift = 32 - iface.prefix
            key = (iface.address >> shift << shift, iface.prefix)
            found.setdefault(key, (iface.cost, []))[1].append((node, place, iface.address))
    return found


def add_routes(nodes):
    nets = networks(nodes)
    on = {node.number: [] for node in nodes}
    for key, (_, members) in nets.items():
        for node, place, _ in members:
            on[node.number].append((key, place))
    for node in nodes:
        own = {key for key, _ in on[node.number]}
        for key, (place, via) in hops(node, nets, on).items():
            if key not in own:
                node.routes.append((*key, place, via))


def hops(node, nets, on):
    """For each network the place and the neighbour of the first hop."""
    best, reached, waiting = {}, {}, []
    for key, place in on[node.number]:
        cost, members = nets[key]
        for other, _, address in members:
            if other is not node:
                heapq.heappush(waiting, (cost, place, address, other.number))
    while waiting:
        cost, place, address, at = heapq.heappop(waiting)
        if at in best:
            continue
        best[at] = cost
        for key, _ in on[at]:
            if key in reached:
                continue
            reached[key] = (place, address)
            for other, _, _ in nets[key][1]:
                heapq.heappush(waiting, (cost + nets[key][0], place, address, other.number))
    return reached
