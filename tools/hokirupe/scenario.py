"""What a scenario means: nodes with interfaces, routes and applications, defaults filled in.

`load` reads a file that the program accepts; `build` does the same for tables that are read already.
"""
import ipaddress
import pathlib

from hokirupe import document, schema


class Network:
    """A link or a LAN: its row in the file, and the ends of the interfaces on it."""

    def __init__(self, row, number, is_lan):
        self.row, self.number, self.is_lan = row, number, is_lan
        for field in schema.FIELDS[2 if is_lan else 1]:
            setattr(self, field.key, row.get(field.key, field.default))
        self.ends = []
        first = row["addrs"][0] if is_lan else row["a_addr"]
        self.address = ipaddress.ip_network(f"{first}/{self.prefix}", strict=False)

    @property
    def name(self):
        return f"[[{'lan' if self.is_lan else 'link'}]] number {self.number}"


class Interface:
    """An interface of a node: its number there, its address, its network."""

    def __init__(self, node, number, address, network):
        self.node, self.number, self.network = node, number, network
        self.address = ipaddress.ip_address(address)

    @property
    def others(self):
        return [end for end in self.network.ends if end is not self]

    @property
    def mac(self):
        """The address on a LAN: 02 00, the LAN's number, the node's number."""
        return b"\x02\x00" + self.network.number.to_bytes(2, "big") + self.node.to_bytes(2, "big")

    def __str__(self):
        return f"n{self.node} i{self.number}"


class Route:
    def __init__(self, row, number, via_end):
        self.row, self.number, self.node = row, number, row["node"]
        self.network = ipaddress.ip_network(f"{row['dest']}/{row['prefix']}")
        self.via = via_end


class App:
    """An application with the keys of its kind; a key that its kind hasn't is None."""

    def __init__(self, row, number):
        self.row, self.number, self.kind, self.node = row, number, row["kind"], row["node"]
        keys = schema.KIND_KEYS[self.kind]
        for field in schema.FIELDS[4][2:]:
            setattr(self, field.key, row.get(field.key, field.default) if field.key in keys else None)
        self.dst = ipaddress.ip_address(self.dst) if self.dst else None
        self.local_port = None              # of an active UDP or TCP application

    @property
    def is_active(self):
        return self.kind not in schema.LISTENERS

    @property
    def protocol(self):
        return "icmp" if self.kind == "ping" else "tcp" if self.kind.startswith("tcp") else "udp"


class Scenario:
    def __init__(self, table, path=None):
        self.table, self.path = table, path
        for field in schema.FIELDS[0][:8]:
            setattr(self, field.key, table.get(field.key, field.default))
        self.interfaces = [[] for _ in range(self.nodes)]
        self.by_address = {}
        self.networks = []
        for is_lan, name in ((False, "link"), (True, "lan")):
            for number, row in enumerate(table.get(name, [])):
                self._join(Network(row, number, is_lan))
        self.routes = [[] for _ in range(self.nodes)]
        for number, row in enumerate(table.get("route", [])):
            via = self.by_address.get(ipaddress.ip_address(row["via"]))
            self.routes[row["node"]].append(Route(row, number, via))
        self.apps = [App(row, number) for number, row in enumerate(table.get("app", []))]
        self._name_ports()
        self.losses = table.get("loss", [])

    def _join(self, network):
        row = network.row
        pairs = zip(row["members"], row["addrs"]) if network.is_lan else ((row["a"], row["a_addr"]), (row["b"], row["b_addr"]))
        for node, address in pairs:
            end = Interface(node, len(self.interfaces[node]), address, network)
            self.interfaces[node].append(end)
            self.by_address[end.address] = end
            network.ends.append(end)
        self.networks.append(network)

    def _name_ports(self):
        """The k-th active UDP or TCP application of a node sends from port 49153 + k."""
        counts = {}
        for app in self.apps:
            if app.is_active and app.kind != "ping":
                app.local_port = 49153 + counts.get(app.node, 0)
                counts[app.node] = counts.get(app.node, 0) + 1

    @property
    def links(self):
        return [network for network in self.networks if not network.is_lan]

    @property
    def lans(self):
        return [network for network in self.networks if network.is_lan]

    def captures(self):
        """The captured interfaces, by node and interface."""
        return [end for ends in self.interfaces for end in ends if end.network.pcap]

    def app_from(self, protocol, address, port):
        """The application that sends from an address and a port, or None."""
        end = self.by_address.get(address)
        if end is None:
            return None
        return next((app for app in self.apps if app.node == end.node and app.protocol == protocol and app.local_port == port), None)


def build(table, path=None):
    return Scenario(table, path)


def load(path):
    """The scenario of a file; raises `ValueError` where it is none, with what is to be said of it."""
    path = pathlib.Path(path)
    try:
        return Scenario(document.read(document.decode(path.read_bytes())), path)
    except OSError as error:
        raise ValueError(f"{path}: {error.strerror}") from None
    except document.Fault as fault:
        raise ValueError(f"{path}:{fault.place.line}:{fault.place.column}: {fault.what}") from None
    except (KeyError, TypeError, ValueError, IndexError, AttributeError):
        raise ValueError(f"{path} is no scenario that the program accepts; tools/explain {path} says why") from None
