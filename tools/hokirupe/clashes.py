"""What lies behind the refusals over all tables: a function for each code, called with the case of `faults`."""
import ipaddress

from hokirupe import document, scenario, schema, ways, words


def twice(case):
    if case.key == "port":
        _port_twice(case)
    elif case.section == 3:
        _route_twice(case)
    elif case.section == 5:
        first = next(at for at, row in enumerate(case.rows(5)) if (row["node"], row["iface"]) == (case.table["node"], case.table["iface"]))
        case.say(f"{case.row_name(5, first)} is about interface {case.table['iface']} of node {case.table['node']} already")
        case.say("write: one [[loss]] for each interface alone")
    elif case.key == "prefix":
        _network_twice(case)
    else:
        _address_twice(case)


def _held(case):
    """The addresses of the tables up to this one, in the order of the file: address, section, index, network."""
    for section in (1, 2):
        for index, row in enumerate(case.rows(section)):
            texts = row["addrs"] if section == 2 else [row["a_addr"], row["b_addr"]]
            for text in texts:
                yield text, section, index, ipaddress.ip_network(f"{text}/{row.get('prefix', 24)}", strict=False)


def _address_twice(case):
    seen = {}
    for text, section, index, network in _held(case):
        if text in seen and (section, index) == (case.section, case.index):
            if case.section == 2:
                case.at_element(case.value.index(text))
            case.say(f"stands there: {text}, which {case.row_name(*seen[text])} has already")
            used = {held for held, *_ in _held(case)}
            case.say(f'write: "{next((str(host) for host in network.hosts() if str(host) not in used), "another address")}"')
            return
        seen.setdefault(text, (section, index))


def _network_twice(case):
    seen, used = {}, set()
    for _, section, index, network in _held(case):
        used.add(network)
        if network in seen and seen[network] != (section, index) and (section, index) == (case.section, case.index):
            case.place = case.table.value_places.get("prefix", case.table.value_places.get("a_addr", case.table.place))
            case.say(f"its addresses are in {network}, which {case.row_name(*seen[network])} is already")
        seen.setdefault(network, (section, index))
    network = ipaddress.ip_network(f"{(case.table.get('a_addr') or case.table['addrs'][0])}/{case.table.get('prefix', 24)}", strict=False)
    size = network.num_addresses
    behind = (ipaddress.ip_network((int(network.network_address) + step * size, network.prefixlen)) for step in range(1, 5000))
    free = next((net for net in behind if not any(net.overlaps(other) for other in used)), None)
    if free:
        case.say(f"write: addresses of a network of its own, as {free[1]} and {free[2]}")


def _route_twice(case):
    node, network = case.table["node"], ipaddress.ip_network(f"{case.table['dest']}/{case.table['prefix']}")
    case.say(f"stands there: a route of node {node} to {network}")
    for section in (1, 2):
        for index, row in enumerate(case.rows(section)):
            ends = [(row["a"], row["a_addr"]), (row["b"], row["b_addr"])] if section == 1 else list(zip(row["members"], row["addrs"]))
            if node in dict(ends) and ipaddress.ip_network(f"{dict(ends)[node]}/{row.get('prefix', 24)}", strict=False) == network:
                case.say(f"node {node} is on this network by {case.row_name(section, index)}")
                case.say("write: nothing; take the route away")
                return
    for index, row in enumerate(case.rows(3)[:case.index]):
        if (row["node"], row["dest"], row["prefix"]) == (node, case.table["dest"], case.table["prefix"]):
            case.say(f"{case.row_name(3, index)} is a route to it already, via {row['via']}")
            case.say("write: one of the two alone")
            return


def _port_twice(case):
    protocol = schema.LISTENERS.get(case.table["kind"])
    node, port = case.table["node"], case.table["port"]
    for index, row in enumerate(case.rows(4)[:case.index]):
        if schema.LISTENERS.get(row["kind"]) == protocol and (row["node"], row.get("port")) == (node, port):
            used = {other.get("port") for other in case.rows(4) if other["node"] == node}
            case.say(f"{case.row_name(4, index)} listens at {protocol.upper()} port {port} of node {node} already")
            case.say(f"write: port = {next(free for free in _ports_behind(port) if free not in used)}")
            return


def _ports_behind(port):
    while True:
        port = port % 49152 + 1
        yield port


def no_neighbour(case):
    node, via = case.table["node"], case.table["via"]
    near = []
    for row in case.rows(1):
        if node in (row["a"], row["b"]):
            near.append((row["b_addr"], row["b"]) if row["a"] == node else (row["a_addr"], row["a"]))
    for row in case.rows(2):
        near += [(text, member) for member, text in zip(row["members"], row["addrs"]) if node in row["members"] and member != node]
    own = [text for text, section, index, _ in _held(case) if _owner(case, section, index, text) == node]
    if via in own:
        case.say(f"{via} is an address of node {node} itself")
    else:
        owner = next((_owner(case, section, index, text) for text, section, index, _ in _held(case) if text == via), None)
        case.say(f"{via} is an address of node {owner}, which is no neighbour of node {node}" if owner is not None else f"no node has the address {via}")
    case.say(f"accepted: {', '.join(f'{text} (node {other})' for text, other in near) or 'nothing: the node has no link'}")
    if near:
        guess = _towards(case, node, near)
        case.say(f'write: via = "{guess}"' + (f", the way to {case.table['dest']}" if len(near) > 1 else ""))


def _owner(case, section, index, text):
    row = case.rows(section)[index]
    if section == 2:
        return row["members"][row["addrs"].index(text)]
    return row["a"] if row["a_addr"] == text else row["b"]


def _towards(case, node, near):
    """The neighbour by which a shortest way leads to the route's destination, as far as that can be told."""
    bare = {key: value for key, value in case.data.items() if key not in ("route", "app", "loss")}
    network = ipaddress.ip_network(f"{case.table['dest']}/{case.table['prefix']}", strict=False)
    built = scenario.build(bare)
    target = next((net for net in built.networks if net.address.subnet_of(network) or network.subnet_of(net.address)), None)
    hop = ways.Routing(built).first_hop(node, target) if target else None
    return hop[1].address if hop else near[0][0]


def own(case):
    node = case.table["node"]
    case.say(f"stands there: {case.value}, an address of node {node}, on which the application runs")
    others = [text for text, section, index, _ in _held(case) if _owner(case, section, index, text) != node]
    if others:
        case.say(f'write: the address of another node, as "{others[0]}"')


def no_interface(case):
    node = case.table["node"]
    count = sum(node in (row["a"], row["b"]) for row in case.rows(1)) + sum(node in row["members"] for row in case.rows(2))
    case.say(f"node {node} has " + (f"the interfaces 0 to {count - 1}: its links in the file's order, then its LANs" if count else "no interface"))
    if count:
        case.say(f"write: iface = {min(max(case.value, 0), count - 1)}")


# Groups

def group_twice(case):
    node = case.number
    places = [(group, at) for group, nodes in enumerate(case.value) for at, one in enumerate(nodes) if one == node]
    (first, _), (second, at) = places[:2]
    case.place = case.value[second].places[at]
    case.say(f"node {node} stands in group {first} already" if second > first else f"node {node} stands twice in group {first}")
    case.say("write: each node in exactly one group")


def group_missing(case):
    node = case.number
    near = next((group for group, nodes in enumerate(case.value) if node - 1 in nodes), 0)
    case.say(f"node {node} stands in no group")
    case.say(f"write: each node in exactly one group, as {_with(case.value, near, node)}")


def _with(groups, number, node):
    """The groups with a node in one of them."""
    return document.written([[*nodes, node] if at == number else list(nodes) for at, nodes in enumerate(groups)] or [[node]])


def _group(case, node):
    return next(group for group, nodes in enumerate(case.value) if node in nodes)


def lan(case):
    number = case.number
    row = case.rows(2)[number]
    by_group = {}
    for node in row["members"]:
        by_group.setdefault(_group(case, node), []).append(str(node))
    case.say(f"the members of {case.row_name(2, number)} stand in different groups: "
             + "; ".join(f"{words.listed(nodes)} in group {group}" for group, nodes in sorted(by_group.items())))
    case.say("write: all members of a LAN in one group")


def zero_delay(case):
    number = case.number
    row = case.rows(1)[number]
    case.say(f"{case.row_name(1, number)} has no delay, and joins node {row['a']} of group {_group(case, row['a'])} "
             f"and node {row['b']} of group {_group(case, row['b'])}")
    case.say("write: both of its ends in one group, or give it a delay")


CAUSES = {
    "Twice": twice, "NoNeighbour": no_neighbour, "Own": own, "NoInterface": no_interface, "GroupTwice": group_twice,
    "GroupMissing": group_missing, "Lan": lan, "ZeroDelay": zero_delay,
}
# Those of a node, a LAN or a link whose number stands behind the code.
WITH_NUMBER = ("GroupTwice", "GroupMissing", "Lan", "ZeroDelay")
