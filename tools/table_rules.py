"""Reads a table of n2kdec with offsets: TOML 1.1 as the program reads it, and the rules of docs/PROFILE.md.

`tree(bytes)` is the document, `faults(bytes)` every fault with its line. tools/table-check prints them,
tests/random/table_faults.py their names (Python 3.9 or newer).

A rule over several values is checked if each value is there and has no fault by itself, `bits` of 0 if each field of the set
has a known `kind`. A field without a known `kind`, an entry that is not a pair, and an `after` with `match` are not checked
further. Whatever else is wrong, a lookup's name counts if it is a text, a string's name if it has no fault.
"""
from __future__ import annotations

import bisect
import dataclasses
import datetime
import difflib
import re

NUMBERS = {name: number for number, name in enumerate(
    ("NotToml", "Format", "Key", "Range", "Text", "Twice", "Lookup", "Mixed", "TooMany"), 1)}

LONGEST_TEXT = 255  # bytes
LONGEST_MESSAGE = 1784  # bits
MOST_DEFINITIONS, MOST_FIELDS, MOST_LOOKUPS, MOST_ENTRIES = 4096, 256, 1024, 4096
GREATEST_PGN, GREATEST_VALUE, GREATEST_MANTISSA = 2**24 - 1, 2**32 - 1, 2**32 - 1
LEAST_OFFSET, GREATEST_OFFSET = -2**32, 2**32 - 1
DEEPEST = 80  # maximum nesting of arrays and inline tables, and maximum parts of a key


# ---- TOML ----

class NotToml(Exception):
    """Why a text is not valid TOML: what was expected, and at which offset."""

    def __init__(self, what, at):
        super().__init__(what)
        self.what, self.at = what, at


class Table(dict):
    """A table with its offsets: its begin (`at`), the offset after a table in braces (`end`), the offset after the item
    before a table with a header (`begin`), and the offsets of its keys (`keys_at`). `origin` says what created it,
    which decides whether a key may be defined again: a header that passed through it, a dotted key, its own header, or
    braces."""

    def __init__(self, at, origin, begin=None):
        super().__init__()
        self.at, self.end, self.begin, self.origin, self.keys_at = at, None, begin, origin, {}

    def put(self, key, at, value):
        self[key], self.keys_at[key] = value, at
        return value


class Array(list):
    """An array with the offsets of its elements. If it was created by headers, each element is a table with its own
    header."""

    def __init__(self, by_headers):
        super().__init__()
        self.by_headers, self.items_at = by_headers, []

    def add(self, at, value):
        self.append(value)
        self.items_at.append(at)
        return value


class Moment(str):
    """A date, a time or both, as written."""


SPACES = re.compile(r"[ \t]*")
BLANK = re.compile(r"(?:[ \t\n]|\r\n|#[^\x00-\x08\x0a-\x1f\x7f]*)*")
LINES = re.compile(r"(?:[ \t\n]|\r\n)*")
LINE_END = re.compile(r"[ \t]*\r?\n")
BARE = re.compile(r"[A-Za-z0-9_-]+")
# A space before a digit joins a date and a time.
WORD = re.compile(r"[A-Za-z0-9_+.:-]*(?: (?=[0-9])[A-Za-z0-9_+.:-]*)?")
PLAIN = {delimiter: re.compile(rf"[^\x00-\x08\x0a-\x1f\x7f{delimiter}]*") for delimiter in ('"\\\\', "'")}
PLAIN_LINES = {delimiter: re.compile(rf"[^\x00-\x08\x0b-\x1f\x7f{delimiter}]*") for delimiter in ('"\\\\', "'")}
ESCAPES = {"b": "\b", "e": "\x1b", "f": "\f", "n": "\n", "r": "\r", "t": "\t", '"': '"', "\\": "\\"}
HEXADECIMAL = {"x": 2, "u": 4, "U": 8}
DECIMAL = re.compile(r"[+-]?(?:(0|[1-9][0-9]*)(\.[0-9]+)?([eE][+-]?[0-9]+)?|inf|nan)")
PREFIXED = {"0x": re.compile("[0-9A-Fa-f]+"), "0o": re.compile("[0-7]+"), "0b": re.compile("[01]+")}
LOOSE_UNDERSCORE = {True: re.compile("(?<![0-9A-Fa-f])_|_(?![0-9A-Fa-f])"), False: re.compile("(?<![0-9])_|_(?![0-9])")}
TIME = r"([01][0-9]|2[0-3]):[0-5][0-9](:([0-5][0-9]|60)(\.[0-9]+)?)?"
DATE_TIME = re.compile(rf"([0-9]{{4}}-[0-9]{{2}}-[0-9]{{2}})([Tt ]{TIME}([Zz]|[+-]([01][0-9]|2[0-3]):[0-5][0-9])?)?")
ONLY_TIME = re.compile(TIME)

A_KEY = "invalid key, expected letters, numbers, `-`, `_` or a quoted key"
A_VALUE = "expected a string, number, boolean, date-time, array or inline table"


def number(word):
    """The number that a word denotes, or why it is not a number."""
    hexadecimal = word[:2] == "0x"
    if LOOSE_UNDERSCORE[hexadecimal].search(word):
        return None, "`_` may only go between digits"
    plain = word.replace("_", "")
    if plain[:2] in PREFIXED:
        digits = plain[2:].lstrip("0") or plain[2:]
        if PREFIXED[plain[:2]].fullmatch(digits) and len(digits) <= 64:
            value = int(digits, {"x": 16, "o": 8, "b": 2}[plain[1]])
            if value < 2**63:
                return value, None
        return None, f"invalid value `{word}`, expected digits of a number of up to 63 bits"
    parts = DECIMAL.fullmatch(plain)
    if parts is None:
        return None, f"invalid value `{word}`, {A_VALUE}"
    if parts[2] or parts[3] or parts[1] is None:
        value = float(plain)
        infinite = abs(value) == float("inf") and parts[1] is not None
        return (None, "number out of range, expected a float of 64 bits") if infinite else (value, None)
    if len(parts[1]) > 19 or not -2**63 <= int(plain) < 2**63:
        return None, "number out of range, expected an integer of 64 bits with its sign"
    return int(plain), None


def is_moment(word):
    if ONLY_TIME.fullmatch(word):
        return True
    parts = DATE_TIME.fullmatch(word)
    if parts is None:
        return False
    year, month, day = map(int, parts[1].split("-"))
    try:
        datetime.date(year or 2000, month, day)  # the year 0 is a leap year, as 2000 is
    except ValueError:
        return False
    return True


class Reader:
    """Reads a text in the same steps as the crate `toml`, and keeps the offsets."""

    def __init__(self, text):
        self.text = text
        self.open = [0]  # the offsets of the open pair or header, and of open brackets, braces and quotes
        self.before = self.behind = 0  # the offset of the previous pair or header, and the offset after it
        self.lines_of_text = 0, 0  # begin and end of the last multi-line text

    def first(self, at):
        return self.text[at:at + 1]

    def line(self, at):
        return self.text.count("\n", 0, at) + 1

    def fail(self, what, at, start=None):
        """Raises a fault at `start`, or at the offset where it was found."""
        line = self.line(at)
        begins = [begin for begin in map(self.line, reversed(self.open)) if begin < line]
        first, last = map(self.line, self.lines_of_text)
        if begins:
            what += f"; within what begins in line {begins[0]}"
        elif first < last >= line - 1:
            what += f"; after the text that begins in line {first}"
        elif self.open[0] in (at, start) and self.first(at) and self.first(at) in "]},":
            what += f"; after what begins in line {self.line(self.before)}"
        raise NotToml(what, at)

    def blank(self, at):
        """Skips spaces, newlines and comments."""
        return BLANK.match(self.text, at).end()

    def spaces(self, at):
        return SPACES.match(self.text, at).end()

    def document(self):
        root = section = Table(0, "header")
        at = self.blank(1 if self.text.startswith("\ufeff") else 0)
        while at < len(self.text):
            start, self.open = at, [at]
            define, at = self.header(at) if self.first(at) == "[" else self.pair(at, DEEPEST)
            end = self.spaces(at)
            if end < len(self.text) and self.first(end) not in "#\n\r":
                self.fail("unexpected key or value, expected newline, `#`", end)
            section = define(root, section, start)
            self.before, self.behind, at = start, at, self.blank(at)
        return root

    def header(self, at):
        """Returns a function that defines the header's table and returns it, and the offset after the header."""
        doubled = self.text.startswith("[[", at)
        path, end = self.key(self.spaces(at + 1 + doubled))
        if self.first(end) != "]":
            self.fail("unclosed table, expected `]`", end)
        if doubled and self.first(end + 1) != "]":
            self.fail("unclosed array table, expected `]]`", end + 1)

        def define(root, _section, start):
            holder = self.along_header(root, path[:-1])
            key, key_at = path[-1]
            there = holder.get(key)
            if doubled and isinstance(there, Array) and there.by_headers:
                return there.add(start, Table(start, "header", self.behind))
            if not doubled and isinstance(there, Table) and there.origin == "passed":
                there.at, there.origin = start, "header"
                return there
            if key in holder:
                self.twice(holder, key, key_at)
            if doubled:
                return holder.put(key, key_at, Array(True)).add(start, Table(start, "header", self.behind))
            return holder.put(key, key_at, Table(start, "header"))

        return define, end + 1 + doubled

    def along_header(self, table, path):
        """The table that a header's path names; missing tables are created."""
        for key, at in path:
            there = table.get(key)
            if isinstance(there, Array) and there.by_headers:
                table = there[-1]
            elif isinstance(there, Table) and there.origin != "braces":
                table = there
            elif key in table:
                self.fail(f"cannot extend the value of {quoted(key)}, expected another key; it is defined in line "
                          f"{self.line(table.keys_at[key])}", at)
            else:
                table = table.put(key, at, Table(at, "passed"))
        return table

    def pair(self, at, depth):
        """Returns a function that defines the key and returns the section, and the offset after key and value."""
        path, end = self.key(at)
        if self.first(end) != "=":
            self.fail("key with no value, expected `=`", end, at)
        value, end = self.value(self.spaces(end + 1), depth)

        def define(_root, section, _start):
            table = section
            for key, key_at in path[:-1]:
                there = table.get(key)
                if isinstance(there, Table) and there.origin in ("passed", "dotted"):
                    there.origin = "dotted"
                    table = there
                elif key in table:
                    self.twice(table, key, key_at)
                else:
                    table = table.put(key, key_at, Table(key_at, "dotted"))
            key, key_at = path[-1]
            if key in table:
                self.twice(table, key, key_at)
            table.put(key, key_at, value)
            return section

        return define, end

    def twice(self, table, key, at):
        self.fail(f"duplicate key {quoted(key)}, expected one that is not there; it is defined in line "
                  f"{self.line(table.keys_at[key])}", at)

    def key(self, at):
        """The parts of a key, each with its offset, and the offset after the key and spaces."""
        path, start = [], at
        for _ in range(DEEPEST):
            if self.first(at) in ('"', "'"):
                part, end = self.one_line(at)
            elif match := BARE.match(self.text, at):
                part, end = match[0], match.end()
            else:
                self.fail(A_KEY, at)
            path.append((part, at))
            end = self.spaces(end)
            if self.first(end) != ".":
                return path, end
            at = self.spaces(end + 1)
        self.fail(f"a key of more than {DEEPEST} parts, expected fewer", start)

    def value(self, at, depth):
        """A value with arrays and inline tables at most `depth` deep, and the offset after it."""
        front = self.first(at)
        if front and front in "[{":
            if depth == 0:
                self.fail(f"more than {DEEPEST} arrays or inline tables in one another, expected fewer", at)
            self.open.append(at)
            read = (self.array if front == "[" else self.inline_table)(at, depth - 1)
            self.open.pop()
            return read
        if front and front in "\"'":
            return self.quoted(at)
        return self.word(at)

    def array(self, at, depth):
        found, at = Array(False), self.blank(at + 1)
        while self.first(at) != "]":
            value, end = self.value(at, depth)
            found.add(at, value)
            at = self.after_element(end, "]", "missing comma between array elements, expected `,` or `]`")
        return found, at + 1

    def inline_table(self, at, depth):
        found, at = Table(at, "braces"), self.blank(at + 1)
        while self.first(at) != "}":
            define, end = self.pair(at, depth)
            define(None, found, at)
            at = self.after_element(end, "}", "missing comma between key-value pairs, expected `,` or `}`")
        found.end = at + 1
        return found, found.end

    def after_element(self, at, closing, missing):
        at = self.blank(at)
        if self.first(at) == ",":
            return self.blank(at + 1)
        if self.first(at) != closing:
            self.fail(missing, at)
        return at

    def word(self, at):
        end = WORD.match(self.text, at).end()
        word = self.text[at:end]
        if not word:
            self.fail(f"invalid value, {A_VALUE}", at)
        if word in ("true", "false"):
            return word == "true", end
        if re.match("[0-9]+[-:]", word):
            if not is_moment(word):
                self.fail(f"invalid date-time `{word}`, expected YYYY-MM-DD, HH:MM:SS or both", at)
            return Moment(word), end
        value, why = number(word)
        if why:
            self.fail(why, at)
        return value, end

    # ---- Texts ----

    def quoted(self, at):
        delimiter = self.first(at)
        if not self.text.startswith(delimiter * 3, at):
            return self.one_line(at)
        self.open.append(at)
        at += 3
        # A newline directly after the quotes is dropped.
        at += 1 if self.first(at) == "\n" else 2 if self.text.startswith("\r\n", at) else 0
        read = self.body(at, delimiter, PLAIN_LINES, self.at_delimiters)
        self.lines_of_text = self.open.pop(), read[1]
        return read

    def one_line(self, at):
        return self.body(at + 1, self.first(at), PLAIN, lambda end, _: (None, end + 1))

    def body(self, at, delimiter, plain, at_delimiter):
        """A text up to its closing quotes, and the offset after them."""
        many = plain is PLAIN_LINES
        pieces, run = [], plain['"\\\\' if delimiter == '"' else delimiter]
        while True:
            end = run.match(self.text, at).end()
            pieces.append(self.text[at:end])
            front = self.first(end)
            if front == delimiter:
                piece, at = at_delimiter(end, delimiter)
                if piece is None:
                    return "".join(pieces), at
            elif front == "\\":
                piece, at = self.escape(end + 1, many)
            elif many and self.text.startswith("\r\n", end):
                piece, at = "\r", end + 1
            else:
                closing = delimiter * 3 if many else delimiter
                ends = not front or front in "\r\n"
                self.fail("invalid string, expected " + (f"its closing `{closing}`" if ends else "no control character"),
                          end)
            pieces.append(piece)

    def at_delimiters(self, at, delimiter):
        """Three quotes end a multi-line text; one or two are text, also before the last three."""
        end = at
        while self.first(end) == delimiter:
            end += 1
        if end - at == 3:
            return None, end
        if end - at > 5:
            self.fail("invalid string, expected three to five quotes at its end", at)
        return delimiter, at + 1

    def escape(self, at, many):
        """The characters that an escape denotes, and the offset after it."""
        if many and LINE_END.match(self.text, at):
            return "", LINES.match(self.text, at).end()
        letter = self.first(at)
        if letter in HEXADECIMAL:
            digits = self.text[at + 1:at + 1 + HEXADECIMAL[letter]]
            if re.fullmatch(f"[0-9A-Fa-f]{{{HEXADECIMAL[letter]}}}", digits):
                code = int(digits, 16)
                if code <= 0x10FFFF and not 0xD800 <= code < 0xE000:
                    return chr(code), at + 1 + len(digits)
        elif letter in ESCAPES:
            return ESCAPES[letter], at + 1
        self.fail("invalid escape sequence, expected b, e, f, n, r, t, `\"` or `\\` after `\\`, or x, u or U and the 2, 4 "
                  "or 8 hexadecimal digits of a character", at)


def text_of(data):
    try:
        return data.decode()
    except UnicodeDecodeError as error:
        before = data[:error.start].decode()
        raise NotToml("invalid UTF-8", len(before)) from None


def tree(data):
    """The document in the bytes as a Table; raises NotToml otherwise."""
    return Reader(text_of(data)).document()


# ---- Rules ----

KIND_NAMES = {bool: "a truth value", int: "an integer", float: "a float", str: "a text", Moment: "a date or time",
              Array: "an array", Table: "a table"}
FIELD_KEYS = {
    "number": (("name", "kind", "at", "bits"), ("signed", "resolution", "match")),
    "lookup": (("name", "kind", "at", "bits", "lookup"), ("match",)),
    "text": (("name", "kind", "at", "bits"), ()),
    "bytes": (("name", "kind", "at", "bits"), ()),
}
FIELD_KEYS_OF_3 = {
    "number": (("name", "kind", "at", "bits"), ("after", "signed", "resolution", "offset", "unit", "match")),
    "lookup": (("name", "kind", "at", "bits", "lookup"), ("after", "match")),
    "text": (("name", "kind", "at", "bits"), ("after", "short")),
    "bytes": (("name", "kind", "at", "bits"), ("after", "short")),
    "flags": (("name", "kind", "at", "bits", "lookup"), ("after",)),
    "digits": (("name", "kind", "at", "bits"), ("after",)),
    "string": (("name", "kind", "at", "form"), ("after", "short")),
}
KEYS_BY_FORMAT = {1: FIELD_KEYS, 2: FIELD_KEYS, 3: FIELD_KEYS_OF_3}
KEYS_NOT_IN_SETS = ("match", "short")
MOST_BITS = {"number": 64, "lookup": 32, "text": LONGEST_MESSAGE, "bytes": LONGEST_MESSAGE, "flags": 64,
             "digits": LONGEST_MESSAGE}
BY_BYTES = ("text", "bytes", "digits", "string")
FORMS = ("lau", "lz")
MOST_NAMES = 5  # names listed in a fault


@dataclasses.dataclass(frozen=True)
class String:
    """A string that other fields may follow: its offset in the text, and its fixed place (None if unknown)."""
    at: int
    place: int | None


@dataclasses.dataclass(frozen=True)
class Fields:
    """The fields of a message or of a set: those that are tables, the first occurrence of each name, the strings by
    name, and the kinds (None if one is unknown)."""
    tables: list
    names: dict
    strings: dict
    kinds: list | None


@dataclasses.dataclass(frozen=True)
class Fault:
    """A fault: its line (and its column if the text is not valid TOML), the name of its class, and its description."""
    line: int
    column: int | None
    name: str
    what: str

    def __str__(self):
        place = self.line if self.column is None else f"{self.line}:{self.column}"
        return f"{place}: {NUMBERS[self.name]} {self.name}: {self.what}"


class Lines:
    """Converts offsets to lines."""

    def __init__(self, text):
        self.starts = [0, *(match.end() for match in re.finditer("\n", text))]

    def line(self, at):
        return bisect.bisect_right(self.starts, at)

    def column(self, at):
        return at - self.starts[self.line(at) - 1] + 1


def quoted(text):
    """A text in quotes on one line; a long text is cut."""
    text = text if len(text) <= 60 else f"{text[:60]}.."
    return '"' + "".join(letter if letter.isprintable() and letter not in '"\\' else
                         letter.encode("unicode_escape").decode() if letter != '"' else '\\"' for letter in text) + '"'


def shown(value):
    """A value in a fault: a text in quotes, a number unchanged, any other value by its kind."""
    if type(value) is str:
        return quoted(value)
    return str(value) if type(value) is int else KIND_NAMES[type(value)]


def of_definition(definition, ordinal):
    """How a fault names a definition."""
    number, description = definition.get("number"), definition.get("description")
    parts = [str(number)] if type(number) is int else []
    parts += [quoted(description)] if type(description) is str else []
    return f"pgn {' '.join(parts)}" if parts else f"the definition {ordinal} of the table"


def of_named(word, holder, ordinal):
    """How a fault names a field or a lookup."""
    name = holder.get("name")
    return f"{word} {quoted(name)}" if type(name) is str and name else f"{word} {ordinal}"


def tables_of(array):
    """The elements of a supposed array that are tables."""
    return [item for item in array if type(item) is Table] if type(array) is Array else []


def all_keys(by_kind):
    """The keys that fields of any kind may have."""
    required, optional = zip(*by_kind.values())
    return tuple(dict.fromkeys(sum(required + optional, ())))


class Rules:
    """Judges a document. A value that has a fault of its own counts as None in later rules. Fields may also name the
    lookups of the tables that it is joined with."""

    def __init__(self, top, lines, joined_lookups=()):
        self.top, self.lines, self.faults, self.joined_lookups = top, lines, [], joined_lookups
        self.version, self.field_keys, self.lookups = None, {}, {}
        self.near = {}  # the existing lookup whose name is closest to an unknown name

    def fault(self, name, at, where, what, *others):
        """Records a fault at an offset, and the lines of other values that it concerns."""
        line = self.lines.line(at)
        others = sorted({self.lines.line(other) for other in others} - {line})
        see = f"; see line{'s' * (len(others) > 1)} {', '.join(map(str, others))}" if others else ""
        self.faults.append(Fault(line, None, name, (f"{where}: {what}" if where else what) + see))

    # ---- One value ----

    def asked(self, table, key, kind, where, others=()):
        """The value of a required key."""
        if key not in table:
            self.fault("Key", table.at, where, f"{key} is missing", *others)
        elif type(table[key]) is not kind:
            self.fault("Key", table.keys_at[key], where,
                       f"{key} is {KIND_NAMES[type(table[key])]}, not {KIND_NAMES[kind]}")
        else:
            return table[key]
        return None

    def text(self, table, key, where, others=()):
        text = self.asked(table, key, str, where, others)
        return None if text is None else self.sized(text, table.keys_at[key], where, key)

    def sized(self, text, at, where, word):
        size = len(text.encode())
        if 1 <= size <= LONGEST_TEXT:
            return text
        self.fault("Text", at, where, f"{word} is empty" if size == 0 else
                   f"{word} has {size} bytes, over {LONGEST_TEXT}")
        return None

    def choice(self, table, key, names, where, newer=(), others=()):
        """One of these names; the fault says if a name belongs to a newer format."""
        text = self.asked(table, key, str, where, others)
        if text is None or text in names:
            return text
        hint, of_format = ("; format 3 has it", [self.top.keys_at["format"]]) if text in newer else ("", [])
        self.fault("Text", table.keys_at[key], where,
                   f"{key} is {quoted(text)}, not {', '.join(names[:-1])} or {names[-1]}{hint}", *of_format)
        return None

    def whole(self, table, key, least, most, where, step=1, others=(), asked_by=()):
        value = self.asked(table, key, int, where, asked_by)
        return None if value is None else self.ranged(value, least, most, table.keys_at[key], where, key, step, others)

    def ranged(self, value, least, most, at, where, word, step=1, others=()):
        if value < least:
            self.fault("Range", at, where, f"{word} is {value}, below {least}", *others)
        elif value > most:
            self.fault("Range", at, where, f"{word} is {value}, over {most}", *others)
        elif value % step:
            self.fault("Range", at, where, f"{word} is {value}, not a multiple of {step}", *others)
        else:
            return value
        return None

    def only_keys(self, table, keys, where, what, others=(), newer=(), elsewhere=()):
        """Checks that a table has only these keys; the fault says if a key belongs to a newer format or to a
        definition."""
        for key in [key for key in table if key not in keys]:
            near = difflib.get_close_matches(key, set(keys) - table.keys(), 1)
            hint = "format 3 has it" if key in newer else "perhaps [[pgn]] is missing before it" if key in elsewhere else \
                f"perhaps {near[0]}" if near else f"its keys are {', '.join(keys)}"
            of_format = [self.top.keys_at["format"]] if key in newer else []
            self.fault("Key", table.keys_at[key], where, f"{what} has no key {quoted(key)}; {hint}", *others, *of_format)

    def elements(self, holder, key, where, most, word):
        """The elements of a required array, each with its offset and ordinal; judges their number."""
        array = self.asked(holder, key, Array, where)
        if array is None:
            return []
        if len(array) > most:
            # If the elements have headers of their own, the fault names the first element too many.
            at = array.items_at[most] if array.by_headers else holder.keys_at[key]
            self.fault("TooMany", at, where, f"{len(array)} {word}, over {most}")
        return list(zip(array, array.items_at, range(1, len(array) + 1)))

    def tables(self, holder, key, where, most, word):
        """The tables of a required array in order, each with its ordinal."""
        for item, at, ordinal in self.elements(holder, key, where, most, word):
            if type(item) is Table:
                yield ordinal, item
            else:
                self.fault("Key", at, where, f"element {ordinal} of {key} is {KIND_NAMES[type(item)]}, not a table")

    def unique(self, values):
        """Maps values that must be unique to their first occurrence. Each is given with its offset, its place and its
        name for a fault."""
        seen = {}
        for value, at, where, what in values:
            if value in seen:
                self.fault("Twice", at, where, f"{what} occurs twice, first in line {self.lines.line(seen[value])}")
            else:
                seen[value] = at
        return seen

    # ---- The top level and lookups ----

    def judge(self):
        version = self.top.get("format")
        if type(version) is not int or version not in KEYS_BY_FORMAT:
            at = self.top.keys_at.get("format", 0)
            is_there = "format" in self.top
            self.fault("Format", at, "", f"format is {shown(version)}, not 1, 2 or 3" if is_there else
                       "format is missing; it is 1, 2 or 3")
            return
        self.version, self.field_keys = version, KEYS_BY_FORMAT[version]
        self.only_keys(self.top, ("format", "lookup", "pgn"), "", "the top level")
        names, kinds = [], []
        if "lookup" in self.top:
            for ordinal, lookup in self.tables(self.top, "lookup", "", MOST_LOOKUPS, "lookups"):
                self.lookup(lookup, of_named("lookup", lookup, ordinal), names)
        self.lookups = self.unique(names)
        if "pgn" in self.top:
            for ordinal, definition in self.tables(self.top, "pgn", "", MOST_DEFINITIONS, "definitions"):
                self.definition(definition, of_definition(definition, ordinal), kinds)
        self.mixed(kinds)

    def lookup(self, lookup, where, names):
        self.only_keys(lookup, ("name", "entries"), where, "a lookup", elsewhere=("number", "kind", "description", "fields", "repeat"))
        name = self.text(lookup, "name", where)
        if name is not None:
            names.append((name, lookup.keys_at["name"], where, f"name {quoted(name)}"))
        values = []
        for entry, at, ordinal in self.elements(lookup, "entries", where, MOST_ENTRIES, "entries"):
            self.entry(entry, at, f"{where}, entry {ordinal}", values)
        self.unique(values)

    def entry(self, entry, at, where, values):
        kinds = [type(part) for part in entry] if type(entry) is Array else None
        if kinds != [int, str]:
            if kinds is not None and len(kinds) == 2:
                at = entry.items_at[kinds[0] is int]
            said = shown(entry) if kinds is None else f"an array of {', '.join(map(shown, entry)) or 'nothing'}"
            self.fault("Key", at, where, f"it is {said}, not an array of an integer and a text")
            return
        value_at, name_at = entry.items_at
        value = self.ranged(entry[0], 0, GREATEST_VALUE, value_at, where, "the value")
        self.sized(entry[1], name_at, where, "the name")
        if value is not None:
            values.append((value, value_at, where, f"value {value}"))

    # ---- Definitions ----

    def definition(self, definition, where, kinds):
        self.only_keys(definition, ("number", "kind", "description", "fields", "repeat"), where, "a definition")
        if self.version == 1 and "repeat" in definition:
            self.fault("Key", definition.keys_at["repeat"], where, "repeat needs format 2 or 3, and this table has format 1", self.top.keys_at["format"])
        number = self.whole(definition, "number", 0, GREATEST_PGN, where)
        kind = self.choice(definition, "kind", ("single", "fast"), where)
        self.text(definition, "description", where)
        own = self.fields(definition, where, LONGEST_MESSAGE, None)
        if self.version > 1 and "repeat" in definition:
            repeat = self.asked(definition, "repeat", Table, where)
            if repeat is not None:
                self.repeat(repeat, f"{where}, the set", own)
                if "list" in own.names:
                    self.fault("Twice", own.names["list"], where, 'a field is named "list", as the sets are in a JSON line',
                               definition.keys_at["repeat"])
        if number is not None and kind is not None:
            kinds.append((definition, where))

    def mixed(self, definitions):
        """Checks that all definitions of a PGN have one kind."""
        firsts = {}
        for definition, where in definitions:
            first, kind = firsts.setdefault(definition["number"], definition), definition["kind"]
            if first["kind"] != kind:
                line = self.lines.line(first.keys_at["kind"])
                self.fault("Mixed", definition.keys_at["kind"], where, f'kind is "{kind}", but "{first["kind"]}" in line {line}',
                           definition.keys_at["number"], first.keys_at["number"])

    def repeat(self, repeat, where, own):
        """The sets that repeat after a message's own fields."""
        has_strings = self.version == 3
        keys = ("at", "bits", "after", "fields") if has_strings else ("at", "bits", "fields")
        self.only_keys(repeat, keys, where, "a repeat", newer=("after",))
        at = self.whole(repeat, "at", 0, LONGEST_MESSAGE - 1, where, 8)
        of_format = () if has_strings or repeat.get("bits") != 0 else (self.top.keys_at["format"],)
        bits = self.whole(repeat, "bits", 0 if has_strings else 8, LONGEST_MESSAGE, where, 8, of_format)
        string, is_behind = None, has_strings and "after" in repeat
        if is_behind:
            string = self.string_of_message(repeat, where, own)
        if not is_behind or string is not None and string.place is not None:
            self.ends(repeat, at, bits, LONGEST_MESSAGE, where, None, string)
        fields = self.fields(repeat, where, bits, repeat)
        if bits == 0 and fields.kinds is not None and "string" not in fields.kinds:
            self.fault("Range", repeat.keys_at["bits"], where, "bits is 0, but no field of the set is a string",
                       repeat.keys_at["fields"])

    def ends(self, table, at, bits, end, where, repeat, string=None):
        """Whether bits end within a message, or within a set of this repeat, as far as the table determines it: after
        this string they count from its fixed place."""
        if None in (at, bits, end):
            return False
        fixed = at if string is None else string.place + at
        if fixed + bits <= end:
            return True
        said = ("at" if string is None else "the fixed place") + (" + bits" if bits else "")
        others = [table.keys_at["at"]] if string is None else [table.keys_at["at"], table.keys_at["after"], string.at]
        what = f"{said} is {fixed + bits}, over {end}" + (", the bits of the set" if repeat is not None else "")
        self.fault("Range", table.keys_at["bits" if "bits" in table else "at"], where, what, *others,
                   *([repeat.keys_at["bits"]] if repeat is not None else []))
        return False

    def fields(self, holder, where, end, repeat):
        """The fields of a message, or of a set of this repeat."""
        names, strings, kinds = [], {}, []
        array = holder.get("fields")
        all_fields = tables_of(array)
        newer = tuple(FIELD_KEYS_OF_3)
        for ordinal, field in self.tables(holder, "fields", where, MOST_FIELDS, "fields"):
            of_field = f"{where}, {of_named('field', field, ordinal)}"
            kind = self.choice(field, "kind", tuple(self.field_keys), of_field, newer)
            kinds.append(kind)
            if kind is None:
                self.only_keys(field, all_keys(self.field_keys), of_field, "a field", (), all_keys(FIELD_KEYS_OF_3))
                continue
            name, place = self.field(field, kind, of_field, end, repeat, strings, all_fields)
            if name is not None:
                names.append((name, field.keys_at["name"], of_field, f"name {quoted(name)}"))
                if kind == "string":
                    strings.setdefault(name, String(field.at, place))
        is_known = type(array) is Array and len(kinds) == len(array) and None not in kinds
        return Fields(all_fields, self.unique(names), strings, kinds if is_known else None)

    def field(self, field, kind, where, end, repeat, strings, fields):
        """A field of a known kind. Returns its name and its fixed place, None if unknown or past the end."""
        required, optional = self.keys_of(self.field_keys, kind, repeat)
        by_kind = (field.keys_at["kind"],)
        what = f"a {kind} field" + (" of a set" if repeat is not None else "")
        self.only_keys(field, required + optional, where, what, by_kind, self.keys_of(FIELD_KEYS_OF_3, kind, repeat)[1])
        name = self.text(field, "name", where)
        step = 8 if kind in BY_BYTES else 1
        at = self.whole(field, "at", 0, LONGEST_MESSAGE - 1, where, step, by_kind)
        bits = self.whole(field, "bits", step, MOST_BITS[kind], where, step, by_kind, by_kind) if "bits" in required else 0
        string, is_behind = None, "after" in field and "after" in optional
        if is_behind:
            string = self.string_before(field, optional, where, strings, fields)
        # A field after a string whose own place has a fault has no place.
        is_placed = not is_behind or string is not None and string.place is not None
        place = None
        if is_placed and self.ends(field, at, bits, end, where, repeat, string):
            place = at if string is None else string.place + at
        signed = False
        if "signed" in field and "signed" in optional:
            signed = self.asked(field, "signed", bool, where)
            if signed and bits == 1:
                self.fault("Range", field.keys_at["signed"], where, "signed is true with 1 bit", field.keys_at["bits"])
        if "resolution" in field and "resolution" in optional:
            self.resolution(field, where)
        if "offset" in field and "offset" in optional:
            if signed:
                self.fault("Key", field.keys_at["offset"], where, "a signed number has no offset", field.keys_at["signed"])
            else:
                self.whole(field, "offset", LEAST_OFFSET, GREATEST_OFFSET, where)
        if "unit" in field and "unit" in optional:
            self.text(field, "unit", where)
        if "lookup" in required:
            self.named_lookup(field, where)
        if "form" in required:
            self.choice(field, "form", FORMS, where, others=by_kind)
        if "short" in field and "short" in optional:
            self.asked(field, "short", bool, where)
        if "match" in field and "match" in optional:
            match = self.asked(field, "match", int, where)
            if match is not None:
                most, others = (2**63 - 1, ()) if bits is None else (2**bits - 1, (field.keys_at["bits"],))
                self.ranged(match, 0, most, field.keys_at["match"], where, "match", others=others)
        return name, place

    def string_before(self, field, optional, where, strings, fields):
        """The string that a field follows, None if it names none of the strings before it."""
        if "match" in field:
            if "match" in optional:
                self.fault("Key", field.keys_at["after"], where, "a field with a match has no after", field.keys_at["match"])
            return None
        named = self.named_by_after(field, fields)
        hint = "" if named is None else "is the field itself" if named is field else \
            "comes after it" if named.get("kind") == "string" else "is not a string"
        return self.named_string(field, where, strings, "string comes before it", "strings before it", named, hint)

    def string_of_message(self, repeat, where, own):
        """The string that the sets follow, None if no field of the message has that name."""
        named, hint = self.named_by_after(repeat, own.tables), "is not a string"
        if named is None:
            named, hint = self.named_by_after(repeat, tables_of(repeat.get("fields"))), "is a field of the set"
        return self.named_string(repeat, where, own.strings, "field of the message is a string", "strings of the message", named,
                                 hint)

    @staticmethod
    def named_by_after(holder, fields):
        """The first of these fields, of any kind, that `after` names."""
        return next((field for field in fields if field.get("name") == holder["after"]), None)

    def named_string(self, holder, where, strings, none, many, named, hint):
        """The string that `after` names. If it names none, the fault says which field has that name, and its kind."""
        name = self.text(holder, "after", where)
        if name is None or name in strings:
            return strings.get(name)
        known = [quoted(string) for string in strings]
        said = f"but no {none}" if not known else f"not {known[0]}" if len(known) == 1 else \
            f"not {', '.join(known[:-1])} or {known[-1]}" if len(known) <= MOST_NAMES else f"but none of the {many}"
        near = difflib.get_close_matches(name, strings, 1) if len(known) > MOST_NAMES else []
        more = f"; {quoted(name)} {hint}" if named is not None else f"; perhaps {quoted(near[0])}" if near else ""
        self.fault("Lookup", holder.keys_at["after"], where, f"after is {quoted(name)}, {said}{more}",
                   *([] if named is None else [named.at]))
        return None

    @staticmethod
    def keys_of(by_kind, kind, repeat):
        """The keys that fields of the kind must and may have, in a message or in a set of this repeat."""
        required, optional = by_kind[kind]
        return required, optional if repeat is None else tuple(key for key in optional if key not in KEYS_NOT_IN_SETS)

    def resolution(self, field, where):
        text = self.asked(field, "resolution", str, where)
        if text is None:
            return
        at, said = field.keys_at["resolution"], f"resolution {quoted(text)}"
        if not re.fullmatch(r"[0-9]{1,10}(\.[0-9]{1,18})?", text):
            self.fault("Text", at, where, f"{said} is not 1 to 10 digits, optionally followed by a dot and 1 to 18 digits")
            return
        self.ranged(int(text.replace(".", "")), 1, GREATEST_MANTISSA, at, where, f"the number of all digits of {said}")

    def named_lookup(self, field, where):
        name = self.text(field, "lookup", where, (field.keys_at["kind"],))
        if name is not None and name not in self.lookups and name not in self.joined_lookups:
            if name not in self.near:
                self.near[name] = difflib.get_close_matches(name, [*self.lookups, *self.joined_lookups], 1)
            hint = "".join(f"; perhaps {quoted(near)}" + (f" of line {self.lines.line(self.lookups[near])}" if near in self.lookups else "")
                           for near in self.near[name])
            self.fault("Lookup", field.keys_at["lookup"], where, f"no lookup is named {quoted(name)}{hint}")


def not_toml(error, data):
    lines = Lines(data.decode(errors="replace"))
    return Fault(lines.line(error.at), lines.column(error.at), "NotToml", error.what)


def judged(data, joined_lookups=()):
    """The document of a table's bytes (None if it is not valid TOML), its lines, and all its faults in the order of the
    rules: the program reports the first."""
    try:
        text = text_of(data)
        top = Reader(text).document()
    except NotToml as error:
        return None, None, [not_toml(error, data)]
    rules = Rules(top, Lines(text), joined_lookups)
    rules.judge()
    return top, rules.lines, rules.faults


def faults(data):
    """All faults of a table's bytes; the program reports the first."""
    return judged(data)[2]


# ---- Of a table without faults ----

# The text allowed between a field and the comment on its line.
COMMENT = re.compile(r"[ \t,\]}]*#([^\n]*)")


def unit_of(field, top, text):
    """The unit of a field, or None: in format 3 from its key, in older formats from the comment after the field."""
    if top["format"] == 3 or field.end is None:
        return field.get("unit")
    comment = COMMENT.match(text, field.end)
    unit = comment[1].strip() if comment else ""
    return unit if 1 <= len(unit.encode()) <= LONGEST_TEXT else None


# The ranges of PGNs for which NMEA 2000 uses only one kind.
RANGES = {range(59392, 65536): "single", range(126208, 126976): "fast", range(130816, 131072): "fast"}


def kind_of_range(definition):
    """A warning if a definition's kind is not the kind of its PGN's range, or None."""
    for numbers, kind in RANGES.items():
        if definition["number"] in numbers and definition["kind"] != kind:
            return f'kind is "{definition["kind"]}", but the PGNs {numbers[0]} to {numbers[-1]} are "{kind}"'
    return None


def sets_of(definition):
    """The fields of the sets that repeat."""
    return definition.get("repeat", {}).get("fields", [])


class Wanted:
    """What the matches of a definition require of the data: bits and their values, and the minimum number of bytes."""

    def __init__(self, definition):
        self.mask = self.values = self.bytes = 0
        self.is_never = False
        for field in definition["fields"]:
            if "match" in field:
                mask, values = ((1 << field["bits"]) - 1) << field["at"], field["match"] << field["at"]
                self.is_never |= self.values & mask != values & self.mask
                self.mask, self.values = self.mask | mask, self.values | values
                self.bytes = max(self.bytes, (field["at"] + field["bits"] + 7) // 8)

    def fits_whenever(self, other):
        """Whether data that satisfy the other also satisfy this."""
        return not self.is_never and self.bytes <= other.bytes and other.mask & self.mask == self.mask and \
            other.values & self.mask == self.values
