"""What lies behind the refusals of one table: a function for each code, called with the case of `faults`."""
import difflib
import ipaddress
import re

from hokirupe import document, quantities, schema


# Keys and values

def unknown(case):
    known = schema.known_keys(case.section, case.table)
    wrong = [key for key in case.table if key not in known]
    if not wrong:
        case.say("keys that stand there: " + ", ".join(case.table))
        return
    key = wrong[0]
    case.key, case.place = key, case.table.key_places[key]
    if case.section == 4 and schema.field_named(4, key):
        kind = case.table["kind"]
        case.say(f"`{key}` isn't a key of \"{kind}\", which has: {', '.join(known)}")
        case.say("write: nothing there; take the line away")
        return
    case.say(f"accepted: {', '.join(known)}")
    near = difflib.get_close_matches(key, [name for name in known if name not in case.table] or known, 1, 0.5)
    if near:
        case.say(f"write: {near[0]} = {document.written(case.table[key])}")
    others = [schema.TABLES[section] for section in range(1, 6) if schema.field_named(section, key)]
    if case.section == 0 and others:
        case.say(f"`{key}` is a key of {' and '.join(f'[[{name}]]' for name in others)}; does a head stand above it?")


def missing(case):
    field = case.field
    case.say(f"stands there: {', '.join(case.table) or 'nothing'}")
    case.say(f"accepted: `{field.key}`, {field.accepted(case.nodes)}")
    case.say(f"write: {field.key} = {document.written(field.example)}")
    near = difflib.get_close_matches(field.key, [key for key in case.table if not schema.field_named(case.section, key)], 1, 0.6)
    if near:
        case.say(f"is `{near[0]}` meant for it?")


def wrong_type(case):
    number, value = _element(case, lambda value: not _is_of_form(case.field, value))
    _say_found(case, number, value)
    guess = quantities.meant(case.key, value) if case.field.form == "number" else None
    if guess:
        case.say(f"write: {case.key} = {document.written(guess[0])}" + (f"     # if {guess[1]} is meant" if isinstance(value, float) else ""))
    elif case.field.form in ("node", "number", "numbers", "nodes") and isinstance(value, str) and re.fullmatch(r"\d+", value):
        case.say(f"write: {value}, without quotes")
    elif case.field.form in ("address", "text", "addresses"):
        case.say(f"write: {case.key} = {document.written(case.field.example)}, in quotes")
    elif case.field.form == "tables":
        case.say(f"write: [[{case.key}]] on a line of its own, and the keys below it")
    else:
        case.say(f"write: {case.key} = {document.written(case.field.example)}")


def out_of_range(case):
    field = case.field
    if field.form == "tables":
        case.say(f"stands there: {len(case.value)} tables")
        case.say(f"accepted: {field.accepted()}")
        return
    number, value = _element(case, lambda value: not _is_in_range(case, value))
    _say_found(case, number, value)
    if field.form in ("node", "nodes", "groups") and isinstance(value, int) and case.nodes:
        case.say(f"nodes = {case.nodes} in the top table; they are numbered from 0")
        case.say(f"write: one of these, or nodes = {value + 1} in the top table" if value >= 0 else "write: one of these")
    elif field.form == "text":
        near = difflib.get_close_matches(str(value), field.words, 1, 0.3)
        case.say(f"write: {case.key} = {document.written(near[0] if near else field.example)}")
    elif field.form == "number":
        near = min(max(value, field.low), field.high)
        case.say(f"write: {case.key} = {document.written(near)}, the nearest that is accepted")
    elif field.form == "numbers":
        case.say("write: each number once, in rising order")


def address(case):
    number, value = _element(case, lambda value: not _is_address(value))
    _say_found(case, number, value)
    cut = re.fullmatch(r"([\d.]+)/(\d+)", value)
    if cut and _is_address(cut[1]):
        case.say(f'write: {case.key} = "{cut[1]}", and prefix = {cut[2]} on a line of its own')
        return
    parts = value.split(".")
    if len(parts) != 4:
        case.say(f"it has {len(parts)} part{'s' if len(parts) != 1 else ''} between dots, and an address has four")
    for part in parts:
        if part.isdigit() and len(part) > 1 and part[0] == "0":
            case.say(f"`{part}` begins with a zero: write {int(part)}")
        elif not part.isdigit():
            case.say(f"`{part}` is no decimal number")
        elif int(part) > 255:
            case.say(f"`{part}` is above 255")


# Tables

def same(case):
    if case.section == 1:
        case.say(f"a and b are both node {case.table['b']}")
        case.say("write: the number of another node")
        return
    members = case.table["members"]
    twice = next(at for at, node in enumerate(members) if node in members[:at])
    case.at_element(twice)
    case.say(f"node {members[twice]} is a member already")
    case.say("write: each member once")


def length(case):
    members, addresses = case.table["members"], case.table["addrs"]
    case.say(f"there are {len(members)} members, and {len(addresses)} addresses")
    case.say("write: an address for each member, in the same order")


def subnet(case):
    if case.section == 3:
        dest, prefix = case.table["dest"], case.table["prefix"]
        network = ipaddress.ip_network(f"{dest}/{prefix}", strict=False)
        case.at_key("dest")
        case.say(f"stands there: {dest}, which has bits beyond the prefix of {prefix}")
        case.say(f'write: dest = "{network.network_address}"')
        return
    keys = ("a_addr", "b_addr") if case.section == 1 else ("addrs",)
    texts = case.table["addrs"] if case.section == 2 else [case.table["a_addr"], case.table["b_addr"]]
    prefix = case.table.get("prefix", 24)
    networks = [ipaddress.ip_network(f"{text}/{prefix}", strict=False) for text in texts]
    free = (str(host) for host in networks[0].hosts() if str(host) not in texts)
    for at, (text, network) in enumerate(zip(texts, networks)):
        is_edge = ipaddress.ip_address(text) in (network.network_address, network.broadcast_address)
        if not is_edge and network == networks[0]:
            continue
        if len(keys) == 2:
            case.at_key(keys[at])
        else:
            case.at_element(at)
        if is_edge:
            name = "the network itself" if ipaddress.ip_address(text) == network.network_address else "all of the network"
            case.say(f"{text} with prefix {prefix} stands for {name}, and is no node's address")
        else:
            case.say(f"{text} is in {network}, and {texts[0]} in {networks[0]}")
        case.say(f'accepted: addresses of one network, as {networks[0]}')
        case.say(f'write: "{next(free, networks[0])}"')
        return


def conflict(case):
    if case.section == 3:
        case.say('routing = "auto" stands in the top table, so no route may be listed')
        case.say('write: routing = "static", or no [[route]] at all')
    elif case.section == 5:
        case.say("stands there: " + ", ".join(case.table))
        case.say("accepted: exactly one of `frames` (which frames are lost) and `millionths` (how many of a million)")
        case.say("write: frames = [3, 7], or millionths = 10_000")
    else:
        case.say(f'`{case.key}` goes with queue = "tbf" alone, and the queue is "{case.table.get("queue", "fifo")}"')
        case.say('write: queue = "tbf", or take the line away')


def burst(case):
    mtu = case.table.get("mtu", 1500)
    case.say(f"stands there: {case.value}; the longest frame has mtu + 18 = {mtu + 18} bytes")
    case.say(f"write: tbf_burst = {mtu + 18}, or more")


# What stands there

def _element(case, is_wrong):
    """The wrong element of an array and its number, or None and the value itself."""
    if case.field.form not in ("numbers", "nodes", "addresses", "groups") or not isinstance(case.value, list):
        return None, case.value
    for number, value in enumerate(case.value):
        inner = value if case.field.form == "groups" and isinstance(value, list) and value else [value]
        wrong = [one for one in inner if is_wrong(one)]
        if wrong or case.field.form == "numbers" and number and case.value[number - 1] >= value:
            case.at_element(number)
            return number, wrong[0] if wrong else value
    return None, case.value


def _say_found(case, number, value):
    where = f", element {number}" if number is not None else ""
    case.say(f"stands there{where}: {document.written(value)}, {document.kind_of(value)}")
    case.say(f"accepted: {case.field.accepted(case.nodes)}")


def _is_of_form(field, value):
    is_number = isinstance(value, int) and not isinstance(value, bool)
    is_text = isinstance(value, str) and not isinstance(value, document.Moment)
    return {"boolean": isinstance(value, bool), "text": is_text, "address": is_text, "addresses": is_text}.get(field.form, is_number)


def _is_in_range(case, value):
    if case.field.form in ("node", "nodes", "groups"):
        return isinstance(value, int) and 0 <= value < (case.nodes or 0)
    if case.field.form == "text":
        return value in case.field.words
    return isinstance(value, int) and case.field.low <= value <= case.field.high


def _is_address(value):
    return isinstance(value, str) and bool(re.fullmatch(r"(0|[1-9]\d{0,2})(\.(0|[1-9]\d{0,2})){3}", value)) and all(int(part) < 256 for part in value.split("."))


CAUSES = {
    "Unknown": unknown, "Missing": missing, "WrongType": wrong_type, "Range": out_of_range, "Address": address, "Same": same,
    "Length": length, "Subnet": subnet, "Conflict": conflict, "Burst": burst,
}
