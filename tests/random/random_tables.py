#!/usr/bin/env python3
"""Compares tools/table-check with the program, on random tables with changes.

    tests/random/random_tables.py PROGRAM SEED COUNT

Each of COUNT tables is made from the seed and its number: a small one, or some messages of tables/n2k.toml, with one to
four changes (spellings, kinds, ranges, duplicates, missing and extra keys, damaged TOML), in a random spelling. PROGRAM
has to accept it exactly if the check finds nothing, and otherwise report the class of the check's first fault in the
order of the rules. If the line of the only change is known, the check has to report it: as its line, as one that the
fault names, or, for damaged TOML, between the beginning of the item and the place of the error.

For each table there is also a document of any kind: PROGRAM has to accept it as TOML exactly if the check does. For
both, the check has to read what was written, and what tomllib reads, which supports TOML 1.0; and each key, element and
table has to have the line at which it was written. Each failure is shown, then the number of tables accepted and the
faults of the others; the last line ends with `F failures` (Python 3.11 or newer).
"""
import collections
import copy
import datetime
import os
import random
import re
import subprocess
import sys
import tempfile
import tomllib

import toml_writer
from toml_writer import Raw, Writer

sys.path.insert(0, os.path.join(os.path.dirname(os.path.abspath(__file__)), "..", "..", "tools"))
import table_rules

N2K = os.path.join(os.path.dirname(os.path.abspath(__file__)), "..", "..", "tables", "n2k.toml")
NO_MESSAGE = "lines 0 messages 0 bad 0 unknown 0 broken 0 open 0\n"
WORDS = ["SID", "COG", "Value", "list", "Status 2", "é", "日本", "a\"b", "a'b", "a\\b", "two\nlines", "\0", "\x7f", "x" * 255,
         "# no comment", "'''", '"""', "]", "\t", "\u2028", "a.b", "\U0001F600", "\x1b", " "]
KINDS = [Raw("1.5", 1.5), Raw("-0.0", -0.0), Raw("1_0e+2", 1000.0), Raw("inf", float("inf")), True, False, 3, "x", [], {},
         Raw("1979-05-27", "date"), Raw("07:32:00", "time"), [[1, "x"]], [{}], {"at": 0}, Raw("1979-05-27 07:32:00.5Z", "date")]
# Spellings that are not valid TOML, and some that only look invalid.
SPELLINGS = ["9223372036854775807", "9223372036854775808", "-9223372036854775808", "-9223372036854775809", "007", "1_", "_1",
             "1__0", "0x", "0x_1", "0xG", "0b2", "0o8", "+0x1", "1.", ".5", "1e", "1e400", "1.e5", "True", "yes", '"\\q"', '"\\u12"', '"\\uD800"', '"\\x4g"', "1979-13-01", "1979-02-30", "24:00:00", "07:32", "23:59:60",
             "0000-02-29", "[1 2]", "{a 1}", "[1,,2]", "{,}", "[,]", "1 2", '"a" "b"', "\"\x01\"", "nan", "0x8000000000000000",
             "{a = 1, a = 2}", "{a = 1, a.b = 2}", "{a.b = 1, a.c = 2}", "{a =\n1}", "[1\n,\n2\n]", '"\\e\\x41"', "0" * 30 + "1"]
FIELD_KEYS = ["name", "kind", "at", "bits", "signed", "resolution", "match", "lookup", "offset", "unit", "short", "form",
              "after"]
OFFSETS = [0, -40, 1, 2**32 - 1, 2**32, -2**32, -2**32 - 1, 2**63 - 1]
BITS = [0, 1, 2, 7, 8, 9, 24, 32, 33, 64, 65, 72, 1776, 1784, 1785, 1792, -8, 2**32, 2**63 - 1]
PLACES = [0, 1, 8, 20, 56, 64, 1720, 1776, 1783, 1784, -1, -2**63]
RESOLUTIONS = ["1", "0.01", "0.00", "0", ".01", "1.", "1.50", "4294967295", "4294967296", "9999999999", "00000000001", "1e-3",
               "0.000000000000000001", "0.0000000000000000001", "4294.967296", "", " 1", "-1", "１", "0001.5"]


def text(rng):
    return rng.choice(WORDS) if rng.random() < 0.1 else rng.choice("ABCDEFGH") + rng.choice(["", " state", " 2", " 30"])


# ---- Tables ----

def field(rng, names, end, is_own, lookups, version, strings):
    """A field of a message, or of a set of `end` bits; `strings` are the fixed places of the strings before it; its own
    is added if it is a string."""
    newer = ["flags", "flags", "digits"] if version == 3 else []
    kind = rng.choice(["number"] * 5 + ["lookup"] * 2 + ["text", "bytes"] + newer)
    if kind in ("lookup", "flags") and not lookups:
        kind = "number"
    if version == 3 and (end == 0 or rng.random() < 0.3):
        kind = "string"
    name = next(new for new in iter(lambda: text(rng), None) if new not in names and (new != "list" or not is_own))
    names.add(name)
    after = rng.choice([None, *[string for string, place in strings.items() if place < end or kind == "string"]])
    room = end - strings.get(after, 0)
    if kind == "string":
        made = {"name": name, "kind": kind, "at": 8 * rng.randint(0, min(9, room // 8)), "form": rng.choice(["lau", "lz"])}
        strings[name] = strings.get(after, 0) + made["at"]
        made |= {} if after is None else {"after": after}
        return made | ({"short": rng.random() < 0.8} if is_own and rng.random() < 0.5 else {})
    step = 8 if kind in ("text", "bytes", "digits") else 1
    most = min({"number": 64, "lookup": 32}.get(kind, 64), room)
    bits = step * rng.randint(1, most // step)
    made = {"name": name, "kind": kind, "at": step * rng.randint(0, (min(room, 200) - bits) // step), "bits": bits}
    if kind == "number" and rng.random() < 0.4:
        made["resolution"] = rng.choice(["1", "0.01", "1.50", "0.00000003125", "60"])
    if kind == "number" and bits > 1 and rng.random() < 0.4:
        made["signed"] = rng.random() < 0.8
    if kind in ("lookup", "flags"):
        made["lookup"] = rng.choice(lookups)["name"]
    if version == 3 and kind == "number":
        if not made.get("signed") and rng.random() < 0.4:
            made["offset"] = rng.choice([0, -40, 100000, 2**32 - 1, -2**32])
        if rng.random() < 0.4:
            made["unit"] = rng.choice(["m", "°C"])
    if version == 3 and kind in ("text", "bytes") and is_own and rng.random() < 0.5:
        made["short"] = rng.random() < 0.8
    if after is not None:
        made["after"] = after
    elif kind in ("number", "lookup") and is_own and rng.random() < 0.2:
        made["match"] = rng.randrange(1 << min(bits, 63))
    return made


def fields(rng, end, is_own, lookups, version, strings):
    names = set()
    count = rng.choice([0, 1, 1, 2, 2, 3, 5]) if end else rng.choice([1, 1, 2, 3])
    return [field(rng, names, end, is_own, lookups, version, strings) for _ in range(count)]


def repeat(rng, lookups, version, strings):
    """The repeat of a message with these strings."""
    bits = 8 * rng.randint(0 if version == 3 and rng.random() < 0.5 else 1, rng.choice([2, 12]))
    made = {"at": 8 * rng.randint(0, 20), "bits": bits}
    after = rng.choice([None, *strings])
    made |= {} if after is None else {"after": after}
    return made | {"fields": fields(rng, bits, False, lookups, version, {})}


def small_table(rng):
    names = sorted({text(rng) for _ in range(rng.randint(0, 3))})
    lookups = [{"name": name, "entries": [[value, text(rng)] for value in rng.sample([0, 1, 2, 3, 255, 2**32 - 1],
                                                                                    rng.randint(0, 4))]} for name in names]
    made = {"format": rng.choice([1, 2, 2, 3, 3])}
    kinds = {}
    definitions = []
    for _ in range(rng.randint(0, 3)):
        number = rng.choice([*kinds] * 2 + [59392, 126208, 130820, 0, 2**24 - 1, rng.randrange(2**18)])
        strings = {}
        definition = {"number": number, "kind": kinds.setdefault(number, rng.choice(["single", "fast"])),
                      "description": text(rng), "fields": fields(rng, 1784, True, lookups, made["format"], strings)}
        if made["format"] > 1 and rng.random() < 0.5:
            definition["repeat"] = repeat(rng, lookups, made["format"], strings)
        definitions.append(definition)
    if lookups or rng.random() < 0.1:
        made["lookup"] = lookups
    if definitions or rng.random() < 0.1:
        made["pgn"] = definitions
    return made


def part_of_n2k(rng, whole):
    """Some messages of the common table, with their lookups."""
    definitions = copy.deepcopy(rng.sample(whole["pgn"], rng.randint(1, 3)))
    named = {field["lookup"] for definition in definitions
             for field in definition["fields"] + definition.get("repeat", {"fields": []})["fields"] if "lookup" in field}
    lookups = [{"name": lookup["name"], "entries": copy.deepcopy(lookup["entries"][:rng.choice([2, 5, 20])])}
               for lookup in whole["lookup"] if lookup["name"] in named]
    return {"format": whole["format"], "pgn": definitions, "lookup": lookups}


def places(tree, path=()):
    """The paths of all values."""
    parts = tree.items() if isinstance(tree, dict) else enumerate(tree) if isinstance(tree, list) else ()
    for key, value in parts:
        yield (*path, key)
        yield from places(value, (*path, key))


def at(tree, path):
    for key in path:
        tree = tree[key]
    return tree


# ---- Changes ----

class Change:
    """What was changed: `keys`, paths of keys and elements, and `begins`, paths of tables; a fault names one of
    them."""

    def __init__(self, *keys, begins=()):
        self.keys, self.begins = keys, begins


def naming(tree, name):
    """The paths of the fields' keys that name a lookup; a change of the lookup shows at them."""
    return [path for path in places(tree) if path[-1] == "lookup" and len(path) > 1 and at(tree, path) == name]


def of_strings(tree, paths):
    """Where changes of fields, which may be strings, show too: in the fields of their list, and in the repeat; a change
    of a repeat shows in the fields of its set."""
    holders = {path[:len(path) - path[::-1].index("fields") - 1] if "fields" in path else path[:-1]
               for path in paths if "fields" in path or path[-2:-1] == ("repeat",)}
    return [path for path in places(tree) if path[-1] in ("after", "at", "bits") and
            any(path[:len(holder)] == holder for holder in holders)]


def of_lookup(tree, path):
    """Where a change of a lookup, or of its name, shows too."""
    if path[0] != "lookup" or len(path) > 3 or len(path) == 3 and path[2] != "name":
        return []
    names = [at(tree, other) for other in places(tree) if other[:len(path[:2])] == path[:2] and other[2:] == ("name",)]
    return [place for name in names for place in naming(tree, name)]


def another_kind(rng, tree, path):
    shows = of_lookup(tree, path)
    at(tree, path[:-1])[path[-1]] = copy.deepcopy(rng.choice(KINDS))
    return Change(path, *shows)


def another_spelling(rng, tree, path):
    shows = of_lookup(tree, path)
    at(tree, path[:-1])[path[-1]] = Raw(rng.choice(SPELLINGS), None)
    return Change(path, *shows)


def another_value(rng, tree, path):
    """Another value for the key, allowed or out of range."""
    key = path[-1]
    holder = at(tree, path[:-1])
    shows = of_lookup(tree, path)
    if key == "at" or key == "bits":
        holder[key] = rng.choice((BITS if key == "bits" else PLACES) + [rng.randint(0, 100)])
    elif key == "match":
        bits = holder.get("bits", 8)
        bits = bits if type(bits) is int and 0 < bits < 63 else 8
        holder[key] = rng.choice([-1, 0, (1 << bits) - 1, 1 << bits, 2**63 - 1])
    elif key == "number":
        holder[key] = rng.choice([-1, 2**24 - 1, 2**24, *[at(tree, other) for other in places(tree) if other[-1] == key]])
    elif key == "resolution":
        holder[key] = rng.choice(RESOLUTIONS)
    elif key == "kind":
        holder[key] = rng.choice(["single", "fast", "single", "fast", "slow", "", "Single"] if "number" in holder else
                                 ["number", "lookup", "text", "bytes", "flags", "digits", "string", "Number", ""])
    elif key == "form":
        holder[key] = rng.choice(["lau", "lz", "LAU", "", "x"])
    elif key == "after" and rng.random() < 0.8:
        holder[key] = rng.choice([at(tree, other) for other in places(tree) if other[-1] == "name"] + ["Z"])
    elif key == "format":
        holder[key] = rng.choice([0, 1, 2, 3, 4, -1])
    elif key == "offset":
        holder[key] = rng.choice(OFFSETS)
    elif isinstance(holder[key], bool):
        holder[key] = not holder[key]
    elif isinstance(holder[key], int):
        holder[key] = rng.choice([-1, 0, 1, 2**32 - 1, 2**32])
    elif isinstance(holder[key], str):
        same = [at(tree, other) for other in places(tree) if other[-1] == key and type(at(tree, other)) is str]
        holder[key] = rng.choice(["", "x" * 255, "x" * 256, "é" * 128, "list", "list", rng.choice(same), rng.choice(same)])
    else:
        return another_kind(rng, tree, path)
    return Change(path, *shows)


def another_right_value(rng, tree, path):
    """Another value, usually without a fault."""
    values = {"at": [8 * rng.randint(0, 30)], "bits": [8, 16, 32], "number": [rng.randrange(2**24)], "match": [0, 1, 255],
              "name": [f"{text(rng)} {rng.randrange(100)}"], "description": [text(rng)], "signed": [True, False],
              "resolution": ["1", "0.5", "60"], "kind": ["number", "single", "fast", "bytes"], "format": [1, 2, 3],
              "offset": [0, -40], "unit": ["m"], "short": [True, False], "form": ["lau", "lz"]}
    if path[-1] not in values:
        return None
    shows = of_lookup(tree, path)
    at(tree, path[:-1])[path[-1]] = rng.choice(values[path[-1]])
    return Change(path, *shows)


def without(rng, tree, path):
    shows = of_lookup(tree, path)
    holder = at(tree, path[:-1])
    del holder[path[-1]]
    return Change(*shows, begins=(path[:-1],)) if isinstance(holder, dict) else Change(path[:-1], *shows)


def one_more_key(rng, tree, path):
    """A key that is valid at some place, or at none."""
    tables = [(), *[other for other in places(tree) if isinstance(at(tree, other), dict)]]
    place = rng.choice(tables)
    holder = at(tree, place)
    key = rng.choice([*FIELD_KEYS, "match", "list", "repeat", "entries", "number", "pgn", "bit", "name ", "", "é"])
    if key in holder:
        return None
    values = {"match": [0, 1, 300], "signed": [True, False], "resolution": RESOLUTIONS, "lookup": ["A", "B state"],
              "repeat": [{"at": 8, "bits": 16, "fields": []}, {"at": 0}], "offset": OFFSETS, "unit": ["m", "", 1],
              "short": [True, False, 1], "form": ["lau", "lz", "x", 1], "after": [*WORDS[:3], "A", "", 1]}
    holder[key] = copy.deepcopy(rng.choice(values.get(key, [1, "x", "m", [], {}])))
    return Change((*place, key))


def renamed_key(rng, tree, path):
    holder = at(tree, path[:-1])
    if not isinstance(holder, dict):
        return None
    shows = of_lookup(tree, path)
    key = rng.choice([path[-1] + "s", path[-1][:-1], path[-1].upper(), "x"])
    if key in holder:
        return None
    holder[key] = holder.pop(path[-1])
    return Change((*path[:-1], key), *shows, begins=(path[:-1],))


def twice(rng, tree, path):
    """Repeats a part of a list, or the name of another part."""
    lists = [other for other in places(tree) if isinstance(at(tree, other), list) and len(at(tree, other)) > 0]
    if not lists:
        return None
    place = rng.choice(lists)
    parts = at(tree, place)
    parts.insert(rng.randint(0, len(parts)), copy.deepcopy(rng.choice(parts)))
    return Change(*[other for other in places(tree) if other[:len(place)] == place])


def mixed(rng, tree, path):
    """Repeats a definition with the other kind."""
    if not isinstance(tree.get("pgn"), list):
        return None
    definitions = [part for part in tree["pgn"] if isinstance(part, dict) and part.get("kind") in ("single", "fast")]
    if not definitions:
        return None
    new = copy.deepcopy(rng.choice(definitions))
    new["kind"] = "fast" if new["kind"] == "single" else "single"
    place = rng.randint(0, len(tree["pgn"]))
    tree["pgn"].insert(place, new)
    return Change(("pgn", place))


def another_lookup(rng, tree, path):
    named = [other for other in places(tree) if other[-1] == "lookup" and type(at(tree, other)) is str]
    if not named:
        return None
    path = rng.choice(named)
    name = at(tree, path)
    at(tree, path[:-1])["lookup"] = rng.choice([name + "S", name[:-1], name.lower(), text(rng)])
    return Change(path)


def too_many(rng, tree, path):
    lists = [other for other in places(tree) if isinstance(at(tree, other), list) and other[-1] in
             ("fields", "entries", "pgn", "lookup")]
    if not lists:
        return None
    place = rng.choice(lists)
    if rng.random() < (0.5 if place[-1] == "fields" else 0.9):
        return None
    count = {"fields": 256, "entries": 4096, "pgn": 4096, "lookup": 1024}[place[-1]] + rng.randint(0, 1)
    parts = {"fields": lambda n: {"name": f"f{n}", "kind": "number", "at": 0, "bits": 8}, "entries": lambda n: [n, "x"],
             "pgn": lambda n: {"number": n, "kind": "fast", "description": "x", "fields": []},
             "lookup": lambda n: {"name": f"l{n}", "entries": []}}[place[-1]]
    shows = of_lookup(tree, place)
    at(tree, place)[:] = [parts(n) for n in range(count)]
    return Change(place, *[other for other in places(tree) if other[:-1] == place], *shows)


CHANGES = [another_value] * 14 + [another_right_value] * 10 + [another_kind, without, one_more_key, twice] * 2 + \
    [another_spelling, renamed_key, mixed, another_lookup, too_many]


def changed(rng, tree):
    """Makes one change, and describes it."""
    while True:
        by_key = collections.defaultdict(list)
        for path in places(tree):
            by_key[path[-1] if isinstance(path[-1], str) else ""].append(path)
        path = rng.choice(by_key[rng.choice(sorted(by_key))]) if by_key else ()
        change = rng.choice(CHANGES)(rng, tree, path) if by_key else one_more_key(rng, tree, path)
        if change is not None:
            change.keys += tuple(of_strings(tree, [*change.keys, *change.begins]))
            return change


# ---- Documents of any kind ----

def any_value(rng, depth):
    way = rng.random()
    if depth and way < 0.25:
        return [any_value(rng, depth - 1) for _ in range(rng.randint(0, 3))]
    if depth and way < 0.5:
        return any_table(rng, depth - 1)
    if way < 0.55:
        return Raw(rng.choice(SPELLINGS), None)
    plain = [kind for kind in KINDS if not isinstance(kind, (list, dict))]
    return rng.choice([rng.randint(-10, 10), rng.randint(-2**63, 2**63 - 1), text(rng), text(rng), rng.choice(plain)])


def any_table(rng, depth):
    return {rng.choice(["a", "b", "c", "", "é", "a.b", "x y", '"', "1", "-"]): any_value(rng, depth)
            for _ in range(rng.randint(0, 4))}


def any_document(rng):
    tree = any_table(rng, 4)
    if rng.random() < 0.03:
        depth = rng.randint(78, 82)
        tree["deep"] = Raw(rng.choice(["[" * depth + "]" * depth, "{a = " * depth + "1" + "}" * depth,
                                       "[{a = " * (depth // 2) + "1" + "}]" * (depth // 2)]), None)
    if rng.random() < 0.02:
        tree["wide"] = Raw("{" + ".".join("a" * rng.randint(79, 81)) + " = 1}", None)
    return tree


# ---- The results of reading ----

def is_same(written, read):
    if isinstance(written, Raw):
        return isinstance(read, str) if isinstance(written.value, str) else written.value is None or written.value == read
    if isinstance(written, dict):
        return isinstance(read, dict) and written.keys() == read.keys() and \
            all(is_same(part, read[key]) for key, part in written.items())
    if isinstance(written, list):
        return isinstance(read, list) and len(written) == len(read) and all(map(is_same, written, read))
    return type(written) is type(read) and written == read


def is_same_by_tomllib(read, other):
    """Whether tomllib has read the same."""
    if isinstance(read, dict):
        return isinstance(other, dict) and list(read) == list(other) and \
            all(is_same_by_tomllib(part, other[key]) for key, part in read.items())
    if isinstance(read, list):
        return isinstance(other, list) and len(read) == len(other) and all(map(is_same_by_tomllib, read, other))
    if isinstance(read, table_rules.Moment):
        return isinstance(other, (datetime.date, datetime.time))
    if isinstance(read, str):
        return isinstance(other, str) and read.replace("\r\n", "\n") == other  # tomllib turns each CR LF to LF
    return type(read) is type(other) and (read == other or read != read and other != other)


def lines_read(tree, lines, path=()):
    """The lines of keys and elements, and of tables, by path, according to the check."""
    keys, begins = {}, {}
    if isinstance(tree, table_rules.Table):
        begins[path] = lines.line(tree.at)
        parts = [(key, value, tree.keys_at[key]) for key, value in tree.items()]
    else:
        parts = list(zip(range(len(tree)), tree, tree.items_at))
    for key, value, key_at in parts:
        keys[(*path, key)] = lines.line(key_at)
        if isinstance(value, (table_rules.Table, table_rules.Array)):
            of_keys, of_begins = lines_read(value, lines, (*path, key))
            keys |= of_keys
            begins |= of_begins
    return keys, begins


class Judge:
    def __init__(self, program, room):
        self.program, self.path = program, os.path.join(room, "table.toml")
        self.counts = collections.Counter()

    def fail(self, name, what):
        self.counts["failures"] += 1
        print(f"{name}: {what}")

    def fault_of_program(self, data):
        """The class of the program's fault, or None."""
        with open(self.path, "wb") as file:
            file.write(data)
        done = subprocess.run([self.program, "decode", "--table", self.path, "/dev/null"], capture_output=True, text=True)
        if done.returncode == 0 and done.stderr == NO_MESSAGE:
            return ""
        said = re.fullmatch(r"n2kdec: table ([0-9]) ([A-Za-z]+)\n", done.stderr)
        if done.returncode != 2 or said is None or table_rules.NUMBERS.get(said[2]) != int(said[1]):
            return f"status {done.returncode}: {done.stderr}"
        return said[2]

    def table(self, name, data, expected):
        """Judges a table; each fault has to name one of the lines in `expected`, unless it is None."""
        answer = self.fault_of_program(data)
        faults = table_rules.faults(data)
        if answer != (faults[0].name if faults else ""):
            self.fail(name, f"the program says {answer or 'nothing'}, the check {[*map(str, faults)]}")
        self.counts[answer or "read"] += 1
        if expected is None:
            return
        for fault in faults:
            told = {fault.line, *map(int, re.findall("[0-9]+", " ".join(re.findall(
                r"\blines? ([0-9]+(?:, [0-9]+)*)", fault.what.split('"')[-1]))))}
            if fault.name == "NotToml":
                told = set(range(min(told), fault.line + 1))
            if not told & expected:
                self.fail(name, f"changed in {sorted(expected)[:9]}, told {fault}")
        self.counts["of one change"] += bool(faults)

    def document(self, name, data):
        answer = self.fault_of_program(data)
        is_toml = not any(fault.name == "NotToml" for fault in table_rules.faults(data))
        if (answer == "NotToml") == is_toml:
            self.fail(name, f"the program says {answer or 'nothing'}, the check {[*map(str, table_rules.faults(data))]}")

    def places(self, name, tree, writer, written):
        """Checks that a text is read as it was written, and at its lines, and as tomllib reads it."""
        data = written.encode()
        try:
            read = table_rules.tree(data)
        except table_rules.NotToml as why:
            if not any(isinstance(at(tree, path), Raw) for path in places(tree)):
                self.fail(name, f"refused: {why}")
            return
        if not is_same(tree, read):
            self.fail(name, "another tree was read")
            return
        is_known = not any(isinstance(at(tree, path), Raw) and at(tree, path).value is None for path in places(tree))
        self.by_tomllib(name, data, read, is_known and not writer.newest)
        keys, begins = lines_read(read, table_rules.Lines(written))
        of_raw = [path for path in places(tree) if isinstance(at(tree, path), Raw)]
        for ours, theirs in ((keys, writer.keys), (begins, writer.begins)):
            inside = {path for path in ours if any(path[:len(raw)] == raw and path != raw for raw in of_raw)}
            for path in (ours.keys() | theirs.keys()) - inside - set(of_raw if ours is begins else []):
                self.counts["keys"] += 1
                if ours.get(path) != theirs.get(path):
                    self.fail(name, f"{path} is read in line {ours.get(path)}, and was written in {theirs.get(path)}")

    def by_tomllib(self, name, data, read, is_old):
        """Checks that tomllib reads the same, if the text is TOML 1.0."""
        try:
            other = tomllib.loads(data.decode().removeprefix("\ufeff"))
        except ValueError as why:
            if is_old:
                self.fail(name, f"tomllib refuses it: {why}")
            return
        self.counts["by tomllib"] += 1
        if not is_same_by_tomllib(read, other):
            self.fail(name, "tomllib reads another tree")


def expected_lines(writer, change):
    """The lines at which one change may be reported."""
    lines = {line for path, line in writer.keys.items() if any(path[:len(key)] == key for key in change.keys)}
    lines |= {line for path in change.keys if path in writer.ends
              for line in range(writer.keys[path], writer.ends[path] + 1)}
    return lines | {writer.begins[path] for path in change.begins if path in writer.begins}


def one(judge, rng, name, whole):
    tree = part_of_n2k(rng, whole) if rng.random() < 0.3 else small_table(rng)
    count = rng.choice([1, 1, 1, 2, 3, 4])
    damages = rng.random() < 0.2
    changes = [changed(rng, tree) for _ in range(count - damages)]
    writer = Writer(rng, rng.choice([0, 0.1, 0.5]), rng.random() < 0.5)
    written = writer.document(tree)
    judge.places(name, tree, writer, written)
    if not damages:
        judge.table(name, written.encode(), expected_lines(writer, changes[0]) if count == 1 else None)
        return
    data, lines = toml_writer.damaged(rng, written)
    is_one = count == 1 and lines and table_rules.faults(data)[:1] and table_rules.faults(data)[0].name == "NotToml"
    judge.table(name, data, set(range(lines[0], lines[1] + 1)) if is_one else None)


def any_one(judge, rng, name):
    tree = any_document(rng)
    writer = Writer(rng, rng.choice([0.1, 0.5, 0.8]), rng.random() < 0.5)
    written = writer.document(tree)
    judge.places(name, tree, writer, written)
    judge.document(name, toml_writer.damaged(rng, written)[0] if rng.random() < 0.5 else written.encode())


def main(program, seed, count):
    with open(N2K, "rb") as file:
        whole = tomllib.load(file)
    with tempfile.TemporaryDirectory() as room:
        judge = Judge(program, room)
        for number in range(int(count)):
            rng = random.Random(f"{seed} {number}")
            one(judge, rng, f"table {number}", whole)
            any_one(judge, rng, f"document {number}")
    counts = judge.counts
    print(", ".join(f"{name} {counts[name]}" for name in ("read", *table_rules.NUMBERS)))
    print(f"{count} tables, {counts['of one change']} refused for one change, {counts['by tomllib']} texts as tomllib reads "
          f"them, {counts['keys']} lines of keys, {counts['failures']} failures")
    sys.exit(counts["failures"] > 0)


if __name__ == "__main__":
    if len(sys.argv) != 4:
        sys.exit(__doc__)
    main(*sys.argv[1:])
