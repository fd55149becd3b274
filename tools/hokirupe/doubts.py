"""What is accepted and hardly meant: the warnings of tools/explain."""
from hokirupe import schema, words


class Doubt:
    """A warning about an application: its text, and the table and key that it is about."""

    def __init__(self, app, key, text):
        self.app, self.key, self.text = app, key, text

    def place(self):
        row = self.app.row
        return row.key_places.get(self.key, row.place)


def of(scenario, routing):
    """The doubts about a scenario's applications, in their order."""
    heard = {(app.node, schema.LISTENERS[app.kind], app.port) for app in scenario.apps if app.kind in schema.LISTENERS}
    reached = set()
    for app in scenario.apps:
        if app.is_active:
            yield from _of_app(scenario, routing, app, heard, reached)
    for app in scenario.apps:
        if app.kind in schema.LISTENERS and (app.node, schema.LISTENERS[app.kind], app.port) not in reached:
            yield Doubt(app, "port", f"nothing is sent to {schema.LISTENERS[app.kind].upper()} port {app.port} of node {app.node}")


def _of_app(scenario, routing, app, heard, reached):
    if app.start_ns >= scenario.stop_ns:
        yield Doubt(app, "start_ns", f"it begins at {words.time(app.start_ns)}, and the run stops at {words.time(scenario.stop_ns)}")
    elif app.interval_ns and app.start_ns + (app.count - 1) * app.interval_ns >= scenario.stop_ns:
        sent = (scenario.stop_ns - 1 - app.start_ns) // app.interval_ns + 1
        yield Doubt(app, "count", f"it sends {sent:_} of its {app.count:_}; then the run stops, at {words.time(scenario.stop_ns)}")
    target, way = scenario.by_address.get(app.dst), routing.way(app.node, app.dst)
    if target is None:
        yield Doubt(app, "dst", f"no node has the address {app.dst}; {way.fault} (way {way})")
        return
    if way.fault:
        yield Doubt(app, "dst", f"nothing comes to {app.dst}: {way.fault} (way {way})")
        return
    if app.kind != "ping":
        reached.add((target.node, app.protocol, app.port))
        if (target.node, app.protocol, app.port) not in heard:
            yield Doubt(app, "port", f"no one listens at {app.protocol.upper()} port {app.port} of node {target.node}")
        if app.kind == "udp-echo-client" and (target.node, app.port) in _sinks(scenario):
            yield Doubt(app, "port", f"a udp-sink listens at port {app.port} of node {target.node}, and answers nothing")
    if app.kind in ("ping", "udp-echo-client", "tcp-bulk"):
        source = routing.source(app.node, app.dst)
        back = routing.way(target.node, source)
        if back.fault:
            yield Doubt(app, "dst", f"no answer comes back from node {target.node} to {source}: {back.fault} (way {back})")


def _sinks(scenario):
    return {(app.node, app.port) for app in scenario.apps if app.kind == "udp-sink"}
