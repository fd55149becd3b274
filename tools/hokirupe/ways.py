"""The way of a packet through a network, by listed routes or by least cost, and where it ends."""
import heapq


class Way:
    """The nodes from the sender on, the interfaces that are left by, and why it ends early (None where it arrives)."""

    def __init__(self, nodes, ends, fault=None):
        self.nodes, self.ends, self.fault = nodes, ends, fault

    @property
    def hops(self):
        return len(self.ends)

    def __str__(self):
        return " > ".join(map(str, self.nodes))


class Routing:
    """The next hop at each node of a scenario. Least costs are looked for when they are first asked for."""

    def __init__(self, scenario):
        self.scenario, self.trees, self.hops, self.of_address = scenario, {}, {}, {}

    def hop(self, node, dst):
        """The interface that a packet leaves a node by and the end that it goes to, or a cause why there is none."""
        if (node, dst) not in self.hops:
            self.hops[node, dst] = self._hop(node, dst)
        return self.hops[node, dst]

    def _hop(self, node, dst):
        own = [end for end in self.scenario.interfaces[node] if dst in end.network.address]
        listed = [route for route in self.scenario.routes[node] if dst in route.network]
        best = max(listed, key=lambda route: route.network.prefixlen, default=None)
        connected = max(own, key=lambda end: end.network.address.prefixlen, default=None)
        if connected and (not best or connected.network.address.prefixlen >= best.network.prefixlen):
            target = next((end for end in connected.others if end.address == dst), None)
            if target:
                return connected, target
            if connected.network.is_lan:
                return f"on {connected.network.name} of node {node} no one has the address {dst}"
            return connected, connected.others[0]       # the other end of a link gets it, and sends it on or back
        if best:
            return self._towards(node, best.via) or f"node {node}'s route to {best.network} has no neighbour"
        if self.scenario.routing == "auto":
            return self._least(node, dst) or f"no way leads from node {node} to {dst}"
        return f"node {node} has no route to {dst}"

    def _towards(self, node, via):
        for end in self.scenario.interfaces[node]:
            if via in end.others:
                return end, via
        return None

    def _least(self, node, dst):
        if dst not in self.of_address:
            self.of_address[dst] = next((network for network in self.scenario.networks if dst in network.address), None)
        return self.first_hop(node, self.of_address[dst]) if self.of_address[dst] else None

    def first_hop(self, node, network):
        """The first step of a least-cost walk: the least interface, then the least address; None where there is none."""
        tree = self.distances(network)
        if node not in tree:
            return None
        for end in self.scenario.interfaces[node]:
            near = [other for other in end.others if tree.get(other.node) == tree[node] - end.network.cost]
            if near:
                return end, min(near, key=lambda other: other.address)
        return None

    def distances(self, network):
        """The least cost from each node to a member of a network."""
        if network not in self.trees:
            reached, heap = {}, [(0, end.node) for end in network.ends]
            heapq.heapify(heap)
            while heap:
                cost, node = heapq.heappop(heap)
                if node in reached:
                    continue
                reached[node] = cost
                for end in self.scenario.interfaces[node]:
                    for other in end.others:
                        if other.node not in reached:
                            heapq.heappush(heap, (cost + end.network.cost, other.node))
            self.trees[network] = reached
        return self.trees[network]

    def way(self, node, dst):
        """The way of a packet from a node to an address."""
        nodes, ends = [node], []
        while not any(end.address == dst for end in self.scenario.interfaces[nodes[-1]]):
            hop = self.hop(nodes[-1], dst)
            if isinstance(hop, str):
                return Way(nodes, ends, hop)
            ends.append(hop[0])
            nodes.append(hop[1].node)
            if nodes[-1] in nodes[:-1]:
                return Way(nodes, ends, "the routes lead in a circle")
            if len(nodes) > 65:
                return Way(nodes, ends, "the way is longer than 64 hops, as far as a packet lives")
        return Way(nodes, ends)

    def source(self, node, dst):
        """The address that a packet of a node to an address comes from, or None."""
        hop = self.hop(node, dst)
        return None if isinstance(hop, str) else hop[0].address
