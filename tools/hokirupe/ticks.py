"""When applications send: the times at which the datagrams of a node's own applications are made."""
import heapq

from hokirupe.flows import frame_time


def of_app(app, stop):
    """The times of an application's sends below the stop, in order; TCP's depend on the network and aren't here."""
    time, begun = app.start_ns, app.start_ns
    for _ in range(app.count or 0):
        if time >= stop:
            return
        yield time
        if app.kind != "on-off":
            time += app.interval_ns
        elif time + frame_time(app.size, app.rate_bps) < begun + app.on_ns:
            time += frame_time(app.size, app.rate_bps)
        else:
            time = begun = max(begun + app.on_ns + app.off_ns, time + 1)


def of_node(scenario, node):
    """All sends of a node's applications as (time, application), in the order in which they fire."""
    heap, numbered = [], 0
    for app in scenario.apps:
        if app.node == node and app.is_active and app.kind != "tcp-bulk":
            times = of_app(app, scenario.stop_ns)
            first = next(times, None)
            if first is not None:
                heap.append((first, 0, numbered, app, times))
                numbered += 1
    heapq.heapify(heap)
    while heap:
        time, _, _, app, times = heapq.heappop(heap)
        yield time, app
        following = next(times, None)
        if following is not None:
            heapq.heappush(heap, (following, time, numbered, app, times))
            numbered += 1


def count(app, stop):
    """How often an application sends below the stop."""
    if app.start_ns >= stop or app.kind == "tcp-bulk":
        return 0
    if app.kind != "on-off":
        return min(app.count, (stop - 1 - app.start_ns) // app.interval_ns + 1)
    gap = frame_time(app.size, app.rate_bps)
    in_period = max(1, -(-app.on_ns // gap))
    period = max(app.on_ns + app.off_ns, 1)
    return min(app.count, in_period * ((stop - app.start_ns) // period + 1))
