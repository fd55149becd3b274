"""Reads a TOML 1.1 document, and keeps where each key and each value stands in it.

`read` gives a `Table`: a dict that also knows its places. Arrays are `Array`s, which know the places of their elements.
Numbers, texts and booleans are Python's own; dates and times are kept as the words that stand in the file (`Moment`).
"""
import re
from typing import NamedTuple


class Place(NamedTuple):
    """A place in a file; lines and columns are counted from 1."""
    line: int
    column: int

    def __str__(self):
        return f"line {self.line}, column {self.column}"


class Fault(Exception):
    """The text is no TOML document."""

    def __init__(self, what, place):
        super().__init__(f"{what} ({place})")
        self.what, self.place = what, place


class Table(dict):
    """A table: `place` is where it begins, `key_places` and `value_places` are by key."""

    def __init__(self, place):
        super().__init__()
        self.place, self.key_places, self.value_places = place, {}, {}
        self.is_closed = False          # written in one piece, or by its own head: no head may open it again


class Array(list):
    """An array: `places` are those of its elements; `is_of_heads` where it was written by heads `[[name]]`."""

    def __init__(self, is_of_heads=False):
        super().__init__()
        self.places, self.is_of_heads = [], is_of_heads


class Moment(str):
    """A date or a time, as it is written."""


BARE_KEY = re.compile(r"[A-Za-z0-9_-]+")
MOMENT = re.compile(r"\d{4}-\d\d-\d\d([Tt ]\d\d:\d\d(:\d\d(\.\d+)?)?([Zz]|[+-]\d\d:\d\d)?)?|\d\d:\d\d(:\d\d(\.\d+)?)?")
WORD = re.compile(r"[A-Za-z0-9_+.-]+")
INTEGER = re.compile(r"[+-]?(0|[1-9](_?\d)*)$")
BASED = re.compile(r"0x[0-9A-Fa-f](_?[0-9A-Fa-f])*$|0o[0-7](_?[0-7])*$|0b[01](_?[01])*$")
FLOAT = re.compile(r"[+-]?(inf|nan|(0|[1-9](_?\d)*)(\.\d(_?\d)*)?([eE][+-]?\d(_?\d)*)?)$")
ESCAPES = {"b": "\b", "t": "\t", "n": "\n", "f": "\f", "r": "\r", "e": "\x1b", '"': '"', "\\": "\\"}
HEX_ESCAPES = {"x": 2, "u": 4, "U": 8}


def read(text):
    """The document's top table; raises `Fault` at the first word that can't stand where it does."""
    return _Reader(text).document()


def decode(data):
    """The text of a file's bytes; raises `Fault` where they are no UTF-8."""
    try:
        return data.decode()
    except UnicodeDecodeError as error:
        before = data[:error.start]
        column = len(before[before.rfind(b"\n") + 1:].decode(errors="replace")) + 1
        raise Fault("a byte that is no UTF-8", Place(before.count(b"\n") + 1, column)) from None


class _Reader:
    def __init__(self, text):
        self.text, self.at = text.replace("\r\n", "\n"), 0
        self.starts = [0] + [match.end() for match in re.finditer("\n", self.text)]

    # Places and characters

    def place(self, at=None):
        at = self.at if at is None else at
        low, high = 0, len(self.starts)
        while high - low > 1:
            middle = (low + high) // 2
            low, high = (middle, high) if self.starts[middle] <= at else (low, middle)
        return Place(low + 1, at - self.starts[low] + 1)

    def fault(self, what, at=None):
        return Fault(what, self.place(at))

    def next(self, count=1):
        return self.text[self.at:self.at + count]

    def skip_blanks(self):
        while self.next() in (" ", "\t") and self.next():
            self.at += 1

    def skip_comment(self):
        self.skip_blanks()
        if self.next() == "#":
            end = self.text.find("\n", self.at)
            end = len(self.text) if end < 0 else end
            for at in range(self.at, end):
                if _is_control(self.text[at]):
                    raise self.fault("a control character in a comment", at)
            self.at = end

    def skip_lines(self):
        """Blanks, comments and line ends."""
        self.skip_comment()
        while self.next() == "\n":
            self.at += 1
            self.skip_comment()

    def end_line(self):
        self.skip_comment()
        if self.next() not in ("", "\n"):
            raise self.fault(f"{_shown(self.next())} where the line should end")

    # Tables and keys

    def document(self):
        top = here = Table(Place(1, 1))
        self.skip_lines()
        while self.at < len(self.text):
            if self.next() == "[":
                here = self.head(top)
            else:
                self.pair(here)
            self.end_line()
            self.skip_lines()
        return top

    def head(self, top):
        start, is_list = self.at, self.next(2) == "[["
        self.at += 2 if is_list else 1
        keys = self.keys()
        if self.next(2 if is_list else 1) != ("]]" if is_list else "]"):
            raise self.fault("the head of a table isn't closed")
        self.at += 2 if is_list else 1
        table = self.descend(top, keys[:-1])
        name, at = keys[-1]
        if is_list:
            rows = table.setdefault(name, Array(is_of_heads=True))
            if not isinstance(rows, Array) or not rows.is_of_heads:
                raise self.fault(f"`{name}` stands already, and is no array of tables with heads", at)
            row = Table(self.place(start))
            row.is_closed = True
            rows.append(row)
            rows.places.append(self.place(start))
            self.note(table, name, at, start)
            return row
        new = table.setdefault(name, Table(self.place(start)))
        if not isinstance(new, Table) or new.is_closed:
            raise self.fault(f"`{name}` stands already", at)
        new.is_closed = True
        self.note(table, name, at, start)
        return new

    def note(self, table, name, key_at, value_at):
        table.key_places.setdefault(name, self.place(key_at))
        table.value_places.setdefault(name, self.place(value_at))

    def descend(self, table, keys):
        for name, at in keys:
            if name not in table:
                table[name] = Table(self.place(at))
                self.note(table, name, at, at)
            inner = table[name]
            if isinstance(inner, Array) and inner.is_of_heads:
                inner = inner[-1]
            if not isinstance(inner, Table):
                raise self.fault(f"`{name}` stands already, and is no table", at)
            table = inner
        return table

    def pair(self, table):
        keys = self.keys()
        if self.next() != "=":
            raise self.fault(f"a `=` should stand behind the key `{keys[-1][0]}`")
        self.at += 1
        self.skip_blanks()
        table = self.descend(table, keys[:-1])
        name, at = keys[-1]
        if name in table:
            raise self.fault(f"the key `{name}` stands twice in this table", at)
        start = self.at
        value = self.value()
        table[name] = value
        self.note(table, name, at, start)

    def keys(self):
        """A key, or several joined by dots, each with where it begins."""
        keys = []
        while True:
            self.skip_blanks()
            start = self.at
            bare = BARE_KEY.match(self.text, self.at)
            if bare:
                self.at = bare.end()
                keys.append((bare[0], start))
            elif self.next() in ('"', "'") and self.next():
                keys.append((self.string(may_span=False), start))
            else:
                raise self.fault(f"{_shown(self.next())} where a key should stand")
            self.skip_blanks()
            if self.next() != ".":
                return keys
            self.at += 1

    # Values

    def value(self):
        first = self.next()
        if first in ('"', "'") and first:
            return self.string(may_span=True)
        if first == "[":
            return self.array()
        if first == "{":
            return self.inline_table()
        moment = MOMENT.match(self.text, self.at)
        if moment:
            self.at = moment.end()
            return Moment(moment[0])
        word = WORD.match(self.text, self.at)
        if not word:
            raise self.fault(f"{_shown(first)} where a value should stand")
        value = _plain(word[0])
        if value is None:
            raise self.fault(f"`{word[0]}` is no value; a text stands in quotes")
        if isinstance(value, int) and not -2**63 <= value < 2**63:
            raise self.fault(f"`{word[0]}` is beyond the whole numbers of 64 bits")
        self.at = word.end()
        return value

    def array(self):
        array, opened = Array(), self.at
        self.at += 1
        self.skip_lines()
        while self.next() != "]":
            array.places.append(self.place())
            array.append(self.value())
            self.separator("]", "array", opened)
        self.at += 1
        return array

    def inline_table(self):
        table, opened = Table(self.place()), self.at
        self.at += 1
        self.skip_lines()
        while self.next() != "}":
            self.pair(table)
            self.separator("}", "table", opened)
        self.at += 1
        table.is_closed = True
        return table

    def separator(self, end, what, opened):
        self.skip_lines()
        if self.next() == ",":
            self.at += 1
            self.skip_lines()
        elif not self.next():
            raise self.fault(f"the {what} isn't closed by `{end}`", opened)
        elif self.next() != end:
            raise self.fault(f"a `,` or `{end}` should stand here")

    def string(self, may_span):
        start, quote = self.at, self.next()
        spans = may_span and self.next(3) == 3 * quote
        self.at += 3 if spans else 1
        if spans and self.next() == "\n":
            self.at += 1
        end, out = (3 if spans else 1) * quote, []
        while self.next(len(end)) != end:
            char = self.next()
            if not char or char == "\n" and not spans:
                raise self.fault("the text isn't closed by a quote", start)
            if _is_control(char) and char != "\n":
                raise self.fault("a control character in a text")
            if char == "\\" and quote == '"':
                out.append(self.escape(spans))
            else:
                out.append(char)
                self.at += 1
        self.at += len(end)
        while spans and self.next() == quote:       # up to two quotes may stand before the closing three
            out.append(quote)
            self.at += 1
        return "".join(out)

    def escape(self, spans):
        start = self.at
        self.at += 1
        char = self.next()
        if spans and re.match(r"[ \t]*\n", self.text[self.at:]):
            self.at = re.compile(r"[ \t\n]*").match(self.text, self.at).end()
            return ""
        self.at += 1
        if char in ESCAPES:
            return ESCAPES[char]
        size = HEX_ESCAPES.get(char)
        digits = self.next(size or 0)
        if not size or not re.fullmatch(r"[0-9A-Fa-f]{%d}" % size, digits):
            raise self.fault(f"`\\{char}` is no escape", start)
        code = int(digits, 16)
        if code > 0x10FFFF or 0xD800 <= code < 0xE000:
            raise self.fault(f"`\\{char}{digits}` is no character", start)
        self.at += size
        return chr(code)


def _is_control(char):
    return (char < " " or char == "\x7f") and char != "\t"


def _plain(word):
    """The boolean or number that a word is, or None."""
    if word in ("true", "false"):
        return word == "true"
    if INTEGER.match(word) or BASED.match(word):
        return int(word.replace("_", ""), 0 if BASED.match(word) else 10)
    if FLOAT.match(word):
        return float(word.replace("_", ""))
    return None


def _shown(char):
    if char and not char.isprintable() and char != "\n":
        return f"the character {ord(char):#04x}"
    return f"`{char}`" if char.strip() else ("the end of the file" if not char else "the end of the line")


def kind_of(value):
    """What a value is, in words."""
    if isinstance(value, bool):
        return "a boolean"
    if isinstance(value, Moment):
        return "a date or time"
    for kind, word in ((int, "a whole number"), (float, "a float"), (str, "a text"), (list, "an array"), (dict, "a table")):
        if isinstance(value, kind):
            return word
    return "nothing"


def written(value):
    """A value as it is written in a document, numbers in groups of three digits."""
    if isinstance(value, bool):
        return "true" if value else "false"
    if isinstance(value, Moment):
        return str(value)
    if isinstance(value, int):
        return f"{value:_}" if abs(value) >= 10_000 else str(value)
    if isinstance(value, str):
        return '"' + value.replace("\\", "\\\\").replace('"', '\\"').replace("\n", "\\n") + '"'
    if isinstance(value, dict):
        return "{ " + ", ".join(f"{key} = {written(value[key])}" for key in value) + " }" if value else "{}"
    if isinstance(value, list):
        return "[" + ", ".join(map(written, value)) + "]"
    return str(value)


def write(top):
    """The document of a table whose inner tables stand in arrays, one head each."""
    out = [f"{key} = {written(value)}\n" for key, value in top.items() if not _is_rows(value)]
    for name, rows in top.items():
        for row in rows if _is_rows(rows) else []:
            out.append(f"\n[[{name}]]\n" + "".join(f"{key} = {written(value)}\n" for key, value in row.items()))
    return "".join(out)


def _is_rows(value):
    return isinstance(value, list) and bool(value) and all(isinstance(row, dict) for row in value)
