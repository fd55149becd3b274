"""A fault line of the program in words: where it stands in the scenario, what stands there, what is accepted, what to write."""
import os
import resource

from hokirupe import causes, clashes, document, schema, words

CODES = {
    "Unknown": "a key that this table doesn't have",
    "Missing": "a key that has to stand here doesn't",
    "WrongType": "the value is of another type",
    "Range": "the value is outside its range",
    "Address": "the text is no address",
    "Same": "one node twice",
    "Length": "not as many addresses as members",
    "Subnet": "an address that doesn't fit its network",
    "Conflict": "two keys that don't go together",
    "Burst": "a token bucket that is too small for the longest packet",
    "Twice": "something that stands already",
    "NoNeighbour": "a next hop that is no neighbour",
    "Own": "an application that sends to its own node",
    "NoInterface": "an interface that the node doesn't have",
    "GroupTwice": "a node that stands in two groups",
    "GroupMissing": "a node that stands in no group",
    "Lan": "a LAN whose members stand in different groups",
    "ZeroDelay": "a link without delay between two groups",
}


def explain(fault, text, name, command=None):
    """The lines that explain a fault line about a scenario's text; `command` has the words of the command line."""
    said = fault.split()
    if said[:1] == ["words"] and len(said) == 3 and said[1].isdigit():
        return _words(said, command or [])
    if said[:1] != ["scenario"]:
        return other(fault, text, name)
    if said[1:] == ["TooLong"]:
        return [f"{name}: TooLong: a scenario has at most 16_777_216 bytes"]
    try:
        data = document.read(text)
    except document.Fault as error:
        return _marked(name, text, error.place, f"NotToml: {error.what}") + ["  the file is no TOML document from here on"]
    if said[1:] == ["NotToml"]:
        return [f"{name}: NotToml: the program finds no TOML document here, and this tool finds no fault in it"]
    try:
        section, index, field = map(int, said[1:4])
        case = Case(data, section, index, field, said[4], said[5:])
        case.look()
    except (ValueError, LookupError, TypeError, AttributeError, StopIteration):
        return [f"{name}: {fault}: this isn't a fault of this file; has it changed since?"]
    lines = _marked(name, text, case.place, f"{case.code}: {CODES.get(case.code, 'refused')}")
    return lines + [f"  in {case.where()}"] + [f"  {line}" for line in case.lines]


class Case:
    """A fault of a table: the table, the key, its place, the number behind the code, and the lines that say more."""

    def __init__(self, data, section, index, field, code, more):
        self.data, self.section, self.index, self.code = data, section, index, code
        self.number = next((int(word) for word in more if word.isdigit()), None)
        self.table = data if section == 0 else data[schema.TABLES[section]][index]
        self.field = schema.field(section, field)
        self.key = self.field.key if self.field else None
        self.nodes = data.get("nodes") if isinstance(data.get("nodes"), int) else None
        self.lines, self.place = [], self.table.place

    def look(self):
        self.at_key(self.key)
        tell = {**causes.CAUSES, **clashes.CAUSES}.get(self.code)
        if tell and (self.number is not None or self.code not in clashes.WITH_NUMBER):
            tell(self)

    # What the causes call

    def say(self, line):
        self.lines.append(line)

    def at_key(self, key):
        """Puts the mark at a key's value, or at the table's head where the key doesn't stand."""
        if key in self.table.value_places:
            self.key, self.place = key, self.table.value_places[key]

    def at_element(self, number):
        array = self.value
        if isinstance(array, document.Array) and number < len(array.places):
            self.place = array.places[number]

    @property
    def value(self):
        return self.table.get(self.key)

    def rows(self, section):
        return self.data.get(schema.TABLES[section], [])

    def where(self):
        if self.section == 0:
            return "the top table" + (f", key `{self.key}`" if self.key else "")
        kind = schema.TABLES[self.section]
        count = len(self.rows(self.section))
        head = f"[[{kind}]] number {self.index} (of {count}, counted from 0; line {self.table.place.line})"
        return head + (f", key `{self.key}`" if self.key else "")

    def row_name(self, section, index):
        row = self.rows(section)[index]
        return f"[[{schema.TABLES[section]}]] number {index} (line {row.place.line})"


def _marked(name, text, place, what):
    """A line as compilers write it, the line of the file, and a mark under the place."""
    rows = text.replace("\r\n", "\n").split("\n")
    row = rows[place.line - 1] if place.line <= len(rows) else ""
    begin = max(0, place.column - 60)
    number = f"{place.line:>5} | "
    shown = "".join(char if char.isprintable() else " " for char in row[begin:begin + 110]).rstrip()
    return [f"{name}:{place.line}:{place.column}: {what}", number + shown, " " * (len(number) + place.column - 1 - begin) + "^"]


def other(fault, text, name):
    """The fault lines that aren't about the scenario's form."""
    said = fault.split()
    if said[:1] == ["limit"]:
        return _limit(said, text, name)
    for line, lines in STOPS.items():
        if fault.strip() == line:
            return lines + (_captures(text) if line == "write fault" else [])
    if said[:1] == ["capture"]:
        return [f"the capture breaks its format at byte {said[1]} (counted from 0)"] if len(said) > 1 else [fault]
    return [f"{fault}: this is no fault line of the program"]


def _words(said, command):
    """A fault of the command line, with the word that stands there."""
    place = int(said[1])
    word = command[place - 1] if place <= len(command) else None
    lines = [f"word {place} of the command line{f', `{word}`' if word else ''}: {WORDS.get(said[2], said[2])}"]
    lines += _accepted(said[2], command, word)
    if word and os.path.isfile(word):
        lines.append(f"a scenario is read from standard input; write: ./simulate {' '.join([*command[:place - 1], '<', word])}")
    return lines


def _accepted(code, command, word):
    """What is accepted in the place of a faulty word."""
    keys = KEYS.get(command[0] if command else None, {})
    if code == "BadValue" and word:
        return [f"accepted: {word.partition('=')[0]}={keys.get(word.partition('=')[0], '..')}"]
    if code in ("NoValue", "UnknownKey"):
        return ["accepted: " + (", ".join(f"{key}={value}" for key, value in keys.items()) or "nothing behind this command")]
    return ["write: ./simulate demo n=40"] if code == "MissingKey" else []


_RUN = {"workers": "1 to 64", "partition": "auto, file or one", "report": "yes or no"}
KEYS = {"run": _RUN, "demo": {"n": "1 to 999", **_RUN}, "check": {}}
WORDS = {
    "NoCommand": "a command has to stand there: `run`, `demo` or `check`",
    "UnknownCommand": "there is no such command; `run` runs the scenario on standard input, `check` reads it alone, `demo` needs none",
    "NoValue": "behind the command stand words of the form key=value",
    "UnknownKey": "the command has no such key",
    "Repeat": "this key stands already",
    "BadValue": "the key takes another value; a number has neither a sign nor leading zeros",
    "MissingKey": "a key has to stand there",
}
STOPS = {
    "read fault": ["standard input couldn't be read: is it a folder, or closed? Write ./simulate run < FILE"],
    "write fault": [
        "a file or standard output couldn't be written: is there room on the disk, and may this folder be written?",
        "each capture stays open to the end, so a run needs as many open files as it has captures, and a few more",
    ],
    "no memory": [
        "memory ran out; what a window writes is kept in memory to its end, and in one group that is the run's end, so groups, fewer",
        "captures or an earlier stop help most",
    ],
}


def _captures(text):
    try:
        data = document.read(text)
        count = sum(2 for row in data.get("link", []) if row.get("pcap"))
        count += sum(len(row["members"]) for row in data.get("lan", []) if row.get("pcap"))
    except (document.Fault, KeyError, TypeError, AttributeError):
        return []
    soft, hard = resource.getrlimit(resource.RLIMIT_NOFILE)
    lines = [f"this scenario asks for {words.counted(count, 'capture')}; here {soft} files may be open (ulimit -n), at most {hard}"]
    if count + 8 > soft:
        lines.append(f"write: ulimit -n {count + 16}, or ask for fewer captures")
    return lines


def _limit(said, text, name):
    try:
        most = document.read(text).get("events_per_node", 1_000_000)
    except document.Fault:
        most = 1_000_000
    where = f"at {words.time(int(said[4]))} node {said[2]}" if len(said) == 5 and said[4].isdigit() else "a node, which the fault line names,"
    return [
        f"{name}: {where} would have scheduled more than {most:_} events, so the run was given up",
        "the captures are whole up to there, and there is no summary",
        f"write: events_per_node = {min(10 * most, 10**9):_} in the top table (at most 1_000_000_000), or an earlier stop_ns",
        "where a packet runs in a circle, tools/explain on the scenario says so",
    ]
