#!/usr/bin/env python3
"""Makes random tables of formats 1, 2 and 3 with random messages, and compares what a program prints with the rules.

    tests/random/random_messages.py PROGRAM SEED COUNT [FORMATS [fixed-sets]]

Each of the COUNT tables has lookups with gaps, fields of each kind at any place, chains of strings with fields after
them, matches, several definitions of a PGN, and sets that repeat, with or without strings of their own. Its messages
have 0 to 223 bytes, cut anywhere, most with values at a limit. The output of PROGRAM by `decode --whole`, sometimes
with `--empty`, has to equal this script's own result byte for byte. As many more tables have one fault each: the
program has to report its class. As many again have a field and sets with several faults or none: the first fault has to
be reported. FORMATS is one or more formats, such as `12`; a repeated one comes more often. With `fixed-sets` all sets
have one length, and a string in a set, or sets after a string, are a fault, as in a program that does not know them.
The rules were written from the format's pages alone, independent of the program and of tools/table_rules.py. Each
failure is shown; the last line ends with `N failures` (Python 3.9 or newer).
"""
import collections
import json
import os
import random
import subprocess
import sys
import tempfile

MOST = 223  # bytes of a message
ROOM = 8 * MOST  # the end of the last bit of a field
KINDS = {1: ["number", "number", "lookup", "text", "bytes"]}
KINDS[2] = KINDS[1]
KINDS[3] = KINDS[1] + ["number", "flags", "flags", "digits"]
STRINGS = ["string"] * 7  # of format 3, in a definition's own fields
IN_SETS = ["string"] * 6  # of format 3, in the fields of a set
LAST = ROOM - 8  # the greatest first bit of a string
FORMS = ("lau", "lz")
BITS = {"number": 64, "lookup": 32, "flags": 64}  # maximum bits; the other kinds have whole bytes, and a string has no bits
NEEDED = {"number": [], "lookup": ["lookup"], "text": [], "bytes": [], "flags": ["lookup"], "digits": [], "string": ["form"]}
SHORT = ("text", "bytes", "string")


# ---- The output that the program has to give ----

def quoted(text):
    return json.dumps(text, ensure_ascii=False)


def decimal_text(value, decimals):
    digits = str(abs(value)).zfill(decimals + 1)
    if decimals:
        digits = digits[:-decimals] + "." + digits[-decimals:]
    return "-" + digits if value < 0 else digits


def of_bytes(kind, data):
    """A field of bytes, or None if it is absent."""
    if kind == "bytes":
        return quoted(data.hex(" ").upper())
    data = data.rstrip(b"\xff" if kind == "digits" else b"\0\xff@ ")
    if not data or kind == "digits" and max(data) > 99:
        return None
    return quoted("".join(f"{byte:02}" for byte in data) if kind == "digits" else data.decode("latin-1"))


def of_number(field, raw):
    bits, is_signed = field["bits"], field.get("signed", False)
    value = raw - (1 << bits) if is_signed and raw >> bits - 1 else raw
    greatest = (1 << bits - 1 if is_signed else 1 << bits) - 1
    if value == greatest and bits >= 2 or value == greatest - 1 and bits >= 4:
        return None
    whole, _, part = field.get("resolution", "1").partition(".")
    return decimal_text((value + field.get("offset", 0)) * int(whole + part), len(part))


def of_lookup(bits, names, raw):
    if raw in names:
        return quoted(names[raw])
    return None if bits >= 2 and raw == (1 << bits) - 1 else str(raw)


def of_flags(bits, names, raw):
    if bits >= 8 and raw >= (1 << bits) - 2:
        return None
    shown = [quoted(names[bit]) if bit in names else str(bit) for bit in range(bits) if raw >> bit & 1]
    return f"[{','.join(shown)}]"


def utf_16(data):
    """The characters of 16-bit units, low byte first."""
    units = [data[at] | data[at + 1] << 8 for at in range(0, len(data) - 1, 2)]
    while units and units[-1] in (0, 0xffff, 0x40, 0x20):
        units.pop()
    letters = []
    while units:
        unit = units.pop(0)
        if unit >> 10 == 0x36 and units and units[0] >> 10 == 0x37:
            letters.append(chr(0x10000 + ((unit & 0x3ff) << 10 | units.pop(0) & 0x3ff)))
        else:
            letters.append("\ufffd" if unit >> 11 == 0x1b else chr(unit))
    return "".join(letters)


def utf_8(data):
    """The characters of bytes that are valid UTF-8, else each byte as the character of its number."""
    data = data.rstrip(b"\0\xff@ ")
    try:
        return data.decode("utf-8")
    except UnicodeDecodeError:
        return data.decode("latin-1")


def of_string(field, data):
    """A string at the beginning of `data`: its characters, or None if it is absent, and its bytes, or None without an
    end."""
    if not data:
        return None, None
    is_lau = field["form"] == "lau"
    length = data[0] if is_lau else 1 + data[0]
    if is_lau and length < 2 or length > len(data) and not field.get("short"):
        return None, None
    end, part = length if length <= len(data) else None, data[1:length]
    if not is_lau:
        return utf_8(part) or None, end
    encoding, characters = part[:1], part[1:]
    return {b"\0": utf_16, b"\1": utf_8}.get(encoding, lambda _: None)(characters) or None, end


def raw_value(field, data):
    return int.from_bytes(data, "little") >> field["at"] & (1 << field["bits"]) - 1


def shown(field, data, lookups):
    """A field's VALUE, or None if it is absent; its place counts from the beginning of `data`."""
    kind, at, bits = field["kind"], field["at"], field.get("bits")
    if kind == "string":
        characters, _ = of_string(field, data[at // 8:])
        return None if characters is None else quoted(characters)
    if at + bits > 8 * len(data) and not (field.get("short") and at < 8 * len(data)):
        return None
    if kind not in BITS:
        return of_bytes(kind, data[at // 8:(at + bits) // 8])
    raw = raw_value(field, data)
    if kind == "number":
        return of_number(field, raw)
    return (of_lookup if kind == "lookup" else of_flags)(bits, lookups[field["lookup"]], raw)


def ends(fields, data):
    """The byte after each string by its name, and 0 for None: the origins of the fields' places."""
    found = {None: 0}
    for field in fields:
        if field["kind"] == "string":
            begin = found[field.get("after")]
            begin = None if begin is None else begin + field["at"] // 8
            taken = None if begin is None else of_string(field, data[begin:])[1]
            found[field["name"]] = None if taken is None else begin + taken
    return found


def members(fields, data, lookups, empty):
    begins = ends(fields, data)
    values = []
    for field in fields:
        begin = begins[field.get("after")]
        values.append((field["name"], None if begin is None else shown(field, data[begin:], lookups)))
    return [f"{quoted(name)}:{value or 'null'}" for name, value in values if value or empty]


def set_length(repeat, data):
    """The bytes of a set at the beginning of `data`, or None if there is none."""
    found, length = ends(repeat["fields"], data), repeat["bits"] // 8
    for field in repeat["fields"]:
        if field["kind"] == "string":
            end = found[field["name"]]
            if end is None:
                return None
            length += end - (found[field.get("after")] + field["at"] // 8)
    return length if length <= len(data) else None


def first_set(definition, data):
    """The byte at which the first set begins, or None if the string before the sets has no end."""
    begin = ends(definition["fields"], data)[definition["repeat"].get("after")]
    return None if begin is None else begin + definition["repeat"]["at"] // 8


def sets(definition, data):
    """The bytes of each set."""
    begin = first_set(definition, data)
    data = b"" if begin is None else data[begin:]
    while (length := set_length(definition["repeat"], data)) is not None:
        yield data[:length]
        data = data[length:]


def fits(definition, data):
    return all(field["at"] + field["bits"] <= 8 * len(data) and raw_value(field, data) == field["match"]
               for field in definition["fields"] if "match" in field)


def wanted_line(tree, lookups, message, empty):
    """The JSON line of a message, or None."""
    prio, pgn, src, dst, data = message
    definitions = [definition for definition in tree.get("pgn", []) if definition["number"] == pgn]
    if not definitions:
        return ""
    definition = next((one for one in definitions if fits(one, data)), None)
    if definition is None:
        definition = {"description": "Unmatched"}
        parts = [f'"Data":{of_bytes("bytes", data)}']
    else:
        parts = members(definition["fields"], data, lookups, empty)
    if "repeat" in definition:
        repeat = definition["repeat"]
        objects = ["{" + ",".join(members(repeat["fields"], part, lookups, empty)) + "}" for part in sets(definition, data)]
        parts.append(f'"list":[{",".join(objects)}]')
    return (f'{{"timestamp":"t","prio":{prio},"src":{src},"dst":{dst},"pgn":{pgn},'
            f'"description":{quoted(definition["description"])},"fields":{{{",".join(parts)}}}}}\n')


# ---- Tables ----

class Spelled(str):
    """A value as written in TOML."""


def toml(value):
    if isinstance(value, Spelled):
        return value
    if isinstance(value, str):
        return quoted(value).replace("\x7f", "\\u007f")
    if isinstance(value, dict):
        return "{ " + ", ".join(pairs(value)) + " }"
    if isinstance(value, list):
        return "[" + ", ".join(("\n  " if isinstance(part, dict) else "") + toml(part) for part in value) + "]"
    return json.dumps(value)


def pairs(table):
    return [f"{key if key.isalpha() else toml(key)} = {toml(value)}" for key, value in table.items()]


def below_header(key, table):
    """A table of the list `key`; its `repeat` has a header too."""
    own = {name: value for name, value in table.items() if name != "repeat" or not isinstance(value, dict)}
    lines = ["", f"[[{key}]]", *pairs(own)]
    return lines if len(own) == len(table) else lines + [f"[{key}.repeat]", *pairs(table["repeat"])]


def table_text(tree):
    """A table; its lookups and definitions may have headers."""
    below = [key for key in tree if key in ("lookup", "pgn") and isinstance(tree[key], list) and tree[key]
             and all(isinstance(part, dict) for part in tree[key])]
    lines = pairs({key: value for key, value in tree.items() if key not in below})
    for key in below:
        for part in tree[key]:
            lines += below_header(key, part)
    return "\n".join(lines) + "\n"


LETTERS = list("ABCXYZabc0189") + list(" -_.#'[]{}=,/") + ['"', "\\", "\n", "\t", "\r", "\0", "\x1b", "\x7f", "\x85", "é",
                                                          "ß", "\u2028", "\ufeff", "\uffff", "日", "😀"]


def text(rng, most=255):
    """A text of 1 to `most` bytes."""
    if rng.random() < 0.7:
        return "".join(rng.choices("ABCDEFxyz 12", k=rng.randint(1, min(6, most))))
    if rng.random() < 0.1:
        letter = rng.choice(["x", "é", "日", "😀"])
        return letter * (most // len(letter.encode())) + "x" * (most % len(letter.encode()))
    return cut("".join(rng.choices(LETTERS, k=rng.randint(1, 12))), most) or "x"


def cut(text, most):
    return text.encode()[:most].decode(errors="ignore")


def new_name(rng, used, barred=()):
    while True:
        name = rng.choice(["list", "Data", "null", "SID"]) if rng.random() < 0.05 else text(rng)
        if name not in used and name not in barred:
            used.add(name)
            return name


def lookup(rng, name):
    values = {rng.choice([rng.randint(0, 9), rng.randint(0, 64), rng.randint(0, 300), rng.randrange(2**32),
                          (1 << rng.randint(1, 32)) - rng.randint(1, 2)]) for _ in range(rng.randint(0, 12))}
    if rng.random() < 0.01:
        values = set(range(rng.choice([63, 64, 65, 256, 4096])))
    values = rng.sample(sorted(values), len(values))
    return {"name": name, "entries": [[value, text(rng)] for value in values]}


def resolution(rng):
    mantissa = rng.choice([1, 1, 1, 5, 3125, 4294967295, rng.randint(1, 100), rng.randint(1, 2**rng.randint(1, 32) - 1)])
    decimals = rng.choice([0, 0, 1, 2, 4, 11, 18, rng.randint(0, 18)])
    digits = str(mantissa).zfill(decimals + 1)
    whole, part = digits[:len(digits) - decimals], digits[len(digits) - decimals:]
    if rng.random() < 0.1:
        whole = whole.zfill(rng.randint(1, 10))
    return f"{whole}.{part}" if part else whole


def offset(rng):
    return rng.choice([-4294967296, -4294967295, 4294967295, 4294967294, 0, 1, -1, -40, -32768, rng.randint(-300, 300),
                       rng.randint(-2**32, 2**32 - 1)])


def place(rng, kind, room, behind):
    """The first bit and the bits of a field within this room; often it directly follows another field."""
    unit = 1 if kind in BITS else 8
    most = min(BITS.get(kind, ROOM), room) // unit
    usual = [1, 2, 3, 4, 6, 7, 8, 9, 12, 16, 24, 31, 32, 33, 48, 62, 63, 64] if unit == 1 else [1, 1, 2, 3, 4, 8, 16]
    bits = unit * (rng.randint(1, most) if rng.random() < 0.1 else min(most, rng.choice(usual)))
    last = (room - bits) // unit * unit
    way = rng.random()
    if way < 0.6 and behind <= last:
        return -(-behind // unit) * unit, bits
    if way < 0.9:
        return min(last, rng.randint(0, 64 // unit) * unit), bits
    return rng.choice([last, rng.randint(0, last // unit) * unit]), bits


def fixed(fields, name):
    """The fixed place of a string in the list; 0 for None."""
    if name is None:
        return 0
    string = next(field for field in fields if field["name"] == name and field["kind"] == "string")
    return string["at"] + fixed(fields, string.get("after"))


def match(rng, bits):
    return min(2**63 - 1, rng.choice([0, 1, (1 << bits) - 1, 1 << bits - 1, rng.randrange(1 << bits)]) & (1 << bits) - 1)


def strings_of(format, in_set):
    """The kind `string`, as often as it is to be chosen; empty if the format has none."""
    return [] if format < 3 else IN_SETS if in_set else STRINGS


def string_place(rng, room, behind):
    last, usual = min(room, LAST), -(-behind // 8) * 8
    if rng.random() < 0.08:
        return rng.choice([last, last - last % 16])
    return min(last, rng.choice([0, 0, 0, 8, usual, usual, usual, 8 * rng.randint(0, 12)]))


def new_field(rng, format, lookups, room, behind, in_set, after=None):
    """A field without its name; `room` and `behind` count from the end of `after`."""
    more = strings_of(format, in_set) + ["text", "bytes"] * 2 * (after is not None)
    kind = rng.choice(KINDS[format] + more)
    if "lookup" in NEEDED[kind] and not lookups:
        kind = "number"
    if kind == "string" or room == 0:
        field = {"name": "", "kind": "string", "at": string_place(rng, room, behind), "form": rng.choice(FORMS)}
        bits = 0
    else:
        at, bits = place(rng, kind, room, behind)
        field = {"name": "", "kind": kind, "at": at, "bits": bits}
    kind = field["kind"]
    if after is not None:
        field["after"] = after
    if "lookup" in NEEDED[kind]:
        field["lookup"] = rng.choice(lookups)["name"]
    if kind == "number":
        if rng.random() < 0.4:
            field["signed"] = bits >= 2 and rng.random() < 0.8
        if rng.random() < 0.6:
            field["resolution"] = resolution(rng)
        if format == 3 and rng.random() < 0.4 and not field.get("signed"):
            field["offset"] = offset(rng)
        if format == 3 and rng.random() < 0.2:
            field["unit"] = text(rng)
    if kind in ("number", "lookup") and not in_set and after is None and rng.random() < 0.08:
        field["match"] = match(rng, bits)
    if kind in SHORT and format == 3 and not in_set and rng.random() < 0.6:
        field["short"] = rng.random() < 0.8
    return dict(rng.sample([*field.items()], len(field)))


def new_fields(rng, format, lookups, room, in_set, barred=(), first=(), others=()):
    """The fields of a definition or of a set; `first` are fields that it contains, and `others` names that it may also
    contain."""
    fields, used = [dict(field) for field in first], {field["name"] for field in first}
    count = rng.choice([0, 1, 2, 3, 4, *([2, 3] if in_set else [6, 9])]) if rng.random() < 0.995 else 256 - len(fields)
    behind = {None: 0}  # the last used bit after each string
    for _ in range(count):
        names = [*behind]
        after = names[-1] if rng.random() < 0.6 else rng.choice(names) if rng.random() < 0.7 else None
        field = new_field(rng, format, lookups, room - fixed(fields, after), behind[after], in_set, after)
        free = [name for name in others if name not in used]
        if free and rng.random() < 0.3:
            field["name"] = rng.choice(free)
            used.add(field["name"])
        else:
            field["name"] = new_name(rng, used, barred)
        earliest = len(first) if after is None else 1 + [field["name"] for field in fields].index(after)
        fields.insert(rng.randint(earliest, len(fields)), field) if rng.random() < 0.1 else fields.append(field)
        behind[after] = field["at"] + field.get("bits", 0) + rng.choice([0, 0, 0, 1, 5, 8])
        if field["kind"] == "string":
            behind[field["name"]] = rng.choice([0, 0, 0, 8])
    return fields


def new_repeat(rng, format, lookups, fields):
    """Sets of a definition; often they begin at the end of its own fields."""
    strings = [field["name"] for field in fields if field["kind"] == "string"] if strings_of(format, True) else []
    after = rng.choice([strings[-1], rng.choice(strings)]) if strings and rng.random() < 0.75 else None
    room = ROOM - fixed(fields, after)
    behind = max((field["at"] + field.get("bits", 0) for field in fields if field.get("after") == after), default=0)
    usual = -(-behind // 8)
    at = min(LAST, room, 8 * rng.choice([usual, usual, usual, 0, 1, 2, rng.randint(0, 12), rng.randint(0, MOST - 1)]))
    most = (room - at) // 8
    bits = 8 * min(most, rng.choice([1, 2, 3, 4, 8, 9, rng.randint(1, 30), rng.randint(0, most), most]))
    if strings_of(format, True):
        bits = rng.choice([bits, bits, bits, 0])
    else:
        bits = max(bits, 8)
    names = [field["name"] for field in fields]
    while True:
        repeat = {"at": at, "bits": bits, "fields": new_fields(rng, format, lookups, bits, True, others=names)}
        if bits or has_string(repeat):
            break
    if after is not None:
        repeat["after"] = after
    return dict(rng.sample([*repeat.items()], len(repeat)))


def has_string(holder):
    """Whether a definition's own fields, or those of a `repeat`, include a string."""
    return any(field["kind"] == "string" for field in holder["fields"])


def varies(definition):
    """Whether the place of a field or a set of a definition depends on a string."""
    return has_string(definition) or "repeat" in definition and has_string(definition["repeat"])


def new_definition(rng, format, lookups, number, kind, first):
    repeats = format >= 2 and rng.random() < (0.6 if format == 3 else 0.4)
    fields = new_fields(rng, format, lookups, ROOM, False, ("list",) if repeats else (), first)
    definition = {"number": number, "kind": kind, "description": text(rng), "fields": fields}
    if repeats:
        definition["repeat"] = new_repeat(rng, format, lookups, fields)
    return definition


def again(rng, definition):
    """The match fields of a definition with other values, for a second definition of its PGN."""
    fields = [dict(field) for field in definition["fields"] if "match" in field and field["name"] != "list"]
    for field in fields:
        field["match"] = match(rng, field["bits"])
    return fields


def new_table(rng, format):
    """A table without a fault."""
    used = set()
    lookups = [lookup(rng, new_name(rng, used)) for _ in range(rng.choice([0, 1, 1, 2, 4]))]
    definitions = []
    numbers = {rng.choice([0, 59392, 129026, 130820, 16777215, rng.randrange(2**24)]) for _ in range(rng.choice([0, 1, 2, 3, 4]))}
    for number in numbers:
        kind = rng.choice(["single", "fast"])
        first = []
        for _ in range(rng.choice([1, 1, 2, 3])):
            definition = new_definition(rng, format, lookups, number, kind, first if rng.random() < 0.7 else [])
            definitions.append(definition)
            first = again(rng, definition)
    if rng.random() < 0.5:
        rng.shuffle(definitions)
    tree = {"format": format}
    parts = {"lookup": lookups, "pgn": definitions}
    for key in rng.sample(sorted(parts), 2):
        if parts[key] or rng.random() < 0.5:
            tree[key] = parts[key]
    return tree


# ---- Messages ----

def length_of(rng, definition):
    """The length of a message: often it ends inside a field, or after some sets and a part of one."""
    fields, repeat = definition["fields"], definition.get("repeat")
    way = rng.random()
    if repeat and way < 0.4:
        bits = repeat["at"] + repeat["bits"] * rng.randint(0, 4) + rng.choice([0, 0, rng.randrange(repeat["bits"] or 64)])
    elif fields and way < 0.6:
        field = rng.choice(fields)
        bits = field.get("bits", 0)
        bits = field["at"] + rng.choice([0, bits, bits, rng.randint(0, bits)]) + rng.choice([0, 0, 7])
    elif fields and way < 0.9:
        bits = max(field["at"] + field.get("bits", 0) for field in fields) + 7
    else:
        bits = 8 * rng.choice([MOST, rng.randint(0, 20), rng.randint(0, MOST)])
    return min(MOST, bits // 8)


def filled(rng, count):
    way = rng.random()
    if way < 0.3:
        return rng.randbytes(count)
    if way < 0.6:
        return rng.choice([b"\xff", b"\0", b"\xfe", b"@", b" "]) * count
    if way < 0.7:
        return bytes(rng.choices(range(100), k=count))
    if way < 0.8:
        return bytes(rng.choices(b"ABCabc 019@\xe9", k=count))
    front = rng.randint(0, count)
    return filled(rng, front) + filled(rng, count - front)


def value(rng, field, lookups):
    """A raw value of a field."""
    kind, bits = field["kind"], field["bits"]
    if kind not in BITS:
        some = rng.choices(range(100) if kind == "digits" else b"ABC xyz", k=rng.randint(0, bits // 8))
        some = bytes(some) + rng.choice([b"", b"", b"\x63", b"\x64", b"\xff\0", b"@"])
        end = rng.choice([b"\xff", b"\xff", b"\0", b" ", b"@", b"\xff \0@"]) * (bits // 8)
        return int.from_bytes((some + end)[:bits // 8], "little")
    half, all_ones = 1 << bits - 1, (1 << bits) - 1
    choices = [0, 1, 2, half, half - 1, half - 2, half - 3, all_ones, all_ones - 1, all_ones - 2, rng.randrange(1 << bits)]
    if kind == "lookup":
        choices += [rng.choice([*lookups[field["lookup"]], 0]) for _ in range(10)]
    if kind == "flags":
        choices += [1 << rng.randrange(bits) | 1 << rng.randrange(bits) for _ in range(4)]
    return rng.choice(choices) & all_ones


# Parts of characters: bytes, and units of 16 bits.
PIECES = [b"A", b"Hi", b"buoy 9", b" ", b"@", b"\0", b"\xff", b'"', b"\\", b"/", b"\n", b"\t", b"\x1b", b"\x1f", b"\x7f",
          *map(str.encode, "äß\x80\x9f\u07ff\u0800\u2028\ud7ff\ue000\ufffd\ufffe\uffff\U00010000\U0001f600\U0010ffff")]
BROKEN = [b"\x80", b"\x85", b"\x9f", b"\xa0", b"\xc4", b"\xe9", b"\xfe", b"\xc0\x80", b"\xc1\xbf", b"\xe0\x80\x80", b"\xe0\x9f\xbf",
          b"\xf0\x80\x80\x80", b"\xf0\x8f\xbf\xbf", b"\xed\xa0\x80", b"\xed\xbf\xbf", b"\xed\xa0\xbd\xed\xb8\x80", b"\xf4\x90\x80\x80",
          b"\xf5\x80\x80\x80", b"\xe2\x80", b"\xf0\x9f\x98", b"\xc3A", b"\xc3\xff", b"\xe2\x80@"]
UNITS = [0x41, 0x62, 0xe4, 0x20, 0x40, 0, 0xffff, 0x22, 0x5c, 0x1f, 0x7f, 0x85, 0xff, 0x100, 0x2000, 0x4000, 0x2028, 0xd7ff, 0xe000,
         0xfffd, 0xfffe, 0xfeff, 0xd800, 0xdbff, 0xdc00, 0xdfff, 0xd83d, 0xde00]
FILLS = [0, 0xffff, 0x40, 0x20]


def characters(rng, encoding):
    """The bytes of a string's characters, often with padding after them."""
    if encoding == 0:
        units = [rng.choice(UNITS) if rng.random() < 0.7 else rng.randrange(2**16) for _ in range(rng.choice([0, 1, 1, 2, 3, 6]))]
        if rng.random() < 0.3:
            units.insert(rng.randint(0, len(units)), rng.choice([0xd800, 0xdc00]) | rng.randrange(0x400))
        if rng.random() < 0.3:
            units += [0xd800 | rng.randrange(0x400), 0xdc00 | rng.randrange(0x400)]
        if rng.random() < 0.5:
            units += rng.choices(FILLS, k=rng.randint(1, 3)) if rng.random() < 0.6 else [rng.choice(FILLS)] * rng.randint(1, 9)
        return b"".join(unit.to_bytes(2, "little") for unit in units) + rng.choice([b"", b"", b"\0", b"\xff", b"@", b"A", b"\xd8"])
    pieces = rng.choices(PIECES, k=rng.choice([0, 0, 1, 1, 2, 3, 6]))
    if rng.random() < 0.3:
        pieces.insert(rng.randint(0, len(pieces)), rng.choice(BROKEN))
    if rng.random() < 0.1:
        pieces.append(rng.randbytes(rng.randint(1, 3)))
    if rng.random() < 0.5:
        pieces += rng.choices([b"\0", b"\xff", b"@", b" "], k=rng.randint(1, 3))
    return b"".join(pieces)


def string(rng, form, strange):
    """The bytes of a string, valid or not; with the probability `strange` its length is changed."""
    encoding = rng.choice([0, 0, 0, 0, 1, 1, 1, 1, 1, 1, 2, 255, rng.randint(2, 255)])
    some = characters(rng, encoding if form == "lau" else 1)
    if rng.random() < 0.04:
        some = (some * 200 or b"x" * 200)[:rng.randint(100, 253)]
    some = (bytes([encoding]) if form == "lau" else b"") + some
    count = len(some) + (form == "lau")
    if rng.random() < strange:
        count = rng.choice([0, 1, 2, 255, min(255, count + 1), max(0, count - 1), rng.randint(0, 255)])
    return bytes([count]) + some


def put(whole, at, bits, raw):
    """Writes a raw value into a message."""
    number = int.from_bytes(whole, "little") & ~((1 << bits) - 1 << at) | raw << at
    whole[:] = number.to_bytes(len(whole), "little")


def put_strings(rng, fields, front, whole, strange):
    """Writes the strings of a list that begins at byte `front` into a message; returns their length."""
    found, taken = {None: front}, set()
    for field in fields:
        begin = found.get(field.get("after"))
        if field["kind"] == "string" and begin is not None:
            begin += field["at"] // 8
            if rng.random() >= strange / 2:
                some = string(rng, field["form"], strange)
                whole[begin:begin + len(some)] = some
                del whole[MOST:]
            _, length = of_string(field, bytes(whole[begin:]))
            if length is not None:
                found[field["name"]] = begin + length
                taken |= {*range(begin, begin + length)}
    return taken


def put_fields(rng, fields, front, whole, lookups, some, strange):
    """Writes the fields of a list that begins at byte `front` into a message; returns the bytes at which it may be
    cut."""
    taken = put_strings(rng, fields, front, whole, strange)
    begins, cuts = ends(fields, bytes(whole[front:])), []
    for field in fields:
        begin = begins[field.get("after")]
        if begin is None:
            continue
        begin += front + field["at"] // 8
        if field["kind"] == "string":
            length = whole[begin] + (field["form"] == "lz") if begin < MOST else 0
            cuts += [begin, begin + 1, begin + 2, begin + rng.randint(0, length), begin + length - 1, begin + length, begin + length + 1]
            continue
        end = begin + (field["at"] % 8 + field["bits"] + 7) // 8
        cuts += [end - 1, end, end, rng.randint(begin, end)]
        free = not taken & {*range(begin, end)} or rng.random() < strange / 2
        if ("match" in field or rng.random() < some) and end <= MOST and free:
            raw = field["match"] if "match" in field and rng.random() < 0.9 else value(rng, field, lookups)
            put(whole, 8 * begin + field["at"] % 8, field["bits"], raw)
    return cuts


def put_sets(rng, definition, whole, lookups, some):
    """Writes sets into a message; returns the bytes at which it may be cut."""
    repeat, begin, cuts = definition["repeat"], first_set(definition, bytes(whole)), []
    strange = rng.choice([0, 0, 0.02, 0.1])
    for _ in range(rng.choice([0, 1, 2, 3, 4, 6, 9, MOST, MOST])):
        if begin is None or begin >= MOST:
            break
        cuts += put_fields(rng, repeat["fields"], begin, whole, lookups, some, strange)
        length = set_length(repeat, bytes(whole[begin:]))
        begin = None if length is None else begin + length
        if length is not None:
            cuts += [begin - 1, begin, begin, begin, begin + 1]
    return cuts


def data_with_strings(rng, definition, lookups):
    """A message with strings, often cut at or inside one of them or a set."""
    fields, whole = definition["fields"], bytearray(filled(rng, MOST))
    some = rng.choice([0, 0.3, 0.9])
    cuts = put_fields(rng, fields, 0, whole, lookups, some, rng.choice([0, 0, 0.2]) if "repeat" in definition else 0.2)
    if "repeat" in definition:
        of_sets = put_sets(rng, definition, whole, lookups, some)
        cuts = of_sets if of_sets and rng.random() < 0.8 else cuts + of_sets
        for field in fields:
            if "match" in field and rng.random() < 0.9:
                put(whole, field["at"], field["bits"], field["match"])
    way = rng.random()
    count = max(cuts, default=MOST) if way < 0.3 else rng.choice(cuts + [MOST]) if way < 0.9 else length_of(rng, definition)
    return bytes(whole[:max(0, min(MOST, count))])


def data_of(rng, definition, lookups):
    if varies(definition):
        return data_with_strings(rng, definition, lookups)
    count = length_of(rng, definition)
    whole = bytearray(filled(rng, count)) + bytes(MOST - count)
    some = rng.choice([0, 0.3, 0.9])
    for field in definition["fields"]:
        if rng.random() < some:
            put(whole, field["at"], field["bits"], value(rng, field, lookups))
    if "repeat" in definition:
        repeat = definition["repeat"]
        for begin in range(repeat["at"], 8 * count - repeat["bits"] + 1, repeat["bits"]):
            for field in repeat["fields"]:
                if rng.random() < some:
                    put(whole, begin + field["at"], field["bits"], value(rng, field, lookups))
    for field in definition["fields"]:
        if "match" in field and rng.random() < 0.9:
            put(whole, field["at"], field["bits"], field["match"])
    return bytes(whole[:count])


def messages(rng, tree, lookups):
    """Messages as prio, PGN, src, dst and bytes."""
    definitions, seen, some = tree.get("pgn", []), set(), []
    for definition in definitions:
        some += [definition] * (2 if definition["number"] in seen else 10 if varies(definition) else 4)
        if not any("match" in field for field in definition["fields"]):
            seen.add(definition["number"])  # later definitions of the PGN are never chosen
    for definition in some:
        data = data_of(rng, definition, lookups)
        yield rng.randint(0, 7), definition["number"], rng.randint(0, 255), rng.randint(0, 255), data
    for _ in range(rng.randint(0, 2)):
        yield 7, rng.choice([0, 60928, rng.randrange(2**24)]), 255, 0, rng.randbytes(rng.randint(0, 9))


def log_line(message):
    prio, pgn, src, dst, data = message
    return ",".join(["t", *map(str, (prio, pgn, src, dst, len(data))), *([data.hex(",")] if data else [])]) + "\n"


# ---- Faults: each function makes one in a table, or returns False if the table has no place for it ----

def places(tree):
    """All fields of a table, each with the `repeat` that contains it, or None."""
    for definition in tree.get("pgn", []):
        for field in definition["fields"]:
            yield field, None
        for field in definition.get("repeat", {}).get("fields", []):
            yield field, definition["repeat"]


def repeats(tree):
    return [definition["repeat"] for definition in tree.get("pgn", []) if "repeat" in definition]


def named(tree):
    """The fields that name a lookup."""
    return [field for field, _ in places(tree) if "lookup" in field]


def spare_lookup(rng, tree):
    """A lookup that no field names."""
    spare = {"name": new_name(rng, {one["name"] for one in tree.get("lookup", [])}), "entries": [[1, "One"], [2, "Two"]]}
    tree.setdefault("lookup", []).append(spare)
    return spare


def spare_definition(rng, tree):
    """The only definition of its PGN, with a `repeat` if the format allows it."""
    numbers = {one["number"] for one in tree.get("pgn", [])}
    number = next(number for number in range(60000, 60009) if number not in numbers)
    fields = [{"name": "A", "kind": "number", "at": 0, "bits": 8}]
    spare = {"number": number, "kind": "fast", "description": "x", "fields": fields}
    if tree["format"] >= 2:
        spare["repeat"] = {"at": 8, "bits": 8, "fields": [dict(fields[0])]}
    tree.setdefault("pgn", []).append(spare)
    return spare


def a_holder(rng, tree):
    """A definition or a set with the single field A."""
    definition = spare_definition(rng, tree)
    return rng.choice([definition, definition.get("repeat", definition)])


def string_and_more(rng):
    """A string S and fields after it."""
    return [
        {"name": "S", "kind": "string", "at": 8 * rng.randint(0, 3), "form": rng.choice(FORMS)},
        {"name": "T", "kind": "string", "at": 0, "form": rng.choice(FORMS), **({"after": "S"} if rng.random() < 0.5 else {})},
        {"name": "B", "kind": rng.choice(["number", "bytes", "digits", "text"]), "at": 0, "bits": 8, "after": rng.choice("ST")}]


def stringed(rng, tree):
    """A definition with a string S and fields after it, also in its sets, in a table of format 3; or None."""
    if tree["format"] < 3:
        return None
    definition = spare_definition(rng, tree)
    definition["fields"] += string_and_more(rng)
    if IN_SETS:
        repeat = definition["repeat"]
        repeat["fields"] += string_and_more(rng)
        repeat["bits"] = 8 + 8 * rng.randint(3, 5)
        if rng.random() < 0.5:
            repeat["after"] = rng.choice("ST")
    return definition


def lists(tree):
    """The lists of fields, each with its available bits."""
    for definition in tree.get("pgn", []):
        yield definition["fields"], ROOM
        if "repeat" in definition:
            yield definition["repeat"]["fields"], definition["repeat"]["bits"]


def list_of(tree, field):
    return next(fields for fields, _ in lists(tree) if any(part is field for part in fields))


def followers(tree):
    """The fields that follow a string."""
    return [field for field, _ in places(tree) if "after" in field]


def keys_of(format, field, in_set):
    """The keys that a field must have, and those that it may have."""
    kind, more = field["kind"], []
    if strings_of(format, in_set) and "match" not in field:
        more += ["after"]
    if kind == "number":
        more += ["signed", "resolution"] + ["unit"] * (format == 3) + ["offset"] * (format == 3 and not field.get("signed"))
    if kind in ("number", "lookup") and not in_set and "after" not in field:
        more += ["match"]
    if kind in SHORT and format == 3 and not in_set:
        more += ["short"]
    return ["name", "kind", "at"] + ["bits"] * (kind != "string") + NEEDED[kind], more


def some_part(rng, tree):
    """A part of a table with the keys that it must and may have; each kind of part is equally likely."""
    format = tree["format"]
    found = {"lookup": [(spare_lookup(rng, tree), ["name", "entries"], [])],
             "pgn": [(spare_definition(rng, tree), ["number", "kind", "description", "fields"], ["repeat"] * (format >= 2))]}
    for repeat in repeats(tree):
        found.setdefault("repeat", []).append((repeat, ["at", "bits", "fields"], ["after"] * bool(strings_of(format, True))))
    for field, repeat in places(tree):
        kind = field["kind"], repeat is not None, field.get("signed")
        found.setdefault(kind, []).append((field, *keys_of(format, field, repeat is not None)))
    return rng.choice(found[rng.choice([*found])])


MOMENT = Spelled("1979-05-27")
STRANGE = {"signed": [False, True], "resolution": ["1", "0.1"], "match": [0], "unit": ["m"], "offset": [0, -1],
           "short": [False, True], "after": ["x", "S", "A"], "form": ["lau", "lz"], "format": [1], "x": [1], "": ["x"], "Name": ["x"],
           "name ": ["x"], "lookup": ["x", []], "pgn": [[]], "entries": [[]], "number": [1], "description": ["x"],
           "fields": [[]], "repeat": [{"at": 0, "bits": 8, "fields": []}], "at": [0], "bits": [8], "kind": ["text"]}
LIKELY = ["match", "unit", "offset", "short", "signed", "lookup", "repeat", "after", "form", "bits"]
OTHERS = {int: ["1", 1.0, True, [1], {}, MOMENT], str: [1, True, ["x"], {}, MOMENT, 0.1], bool: [0, 1, "true", [], {}],
          list: [0, "x", {}, True], dict: [0, "x", [], True, [{"at": 0, "bits": 8, "fields": []}]]}
ENTRIES = [[], [1], ["x"], [1, "x", 1], ["x", 1], [1.0, "x"], [1, 1], 1, "x", {}, [[1, "x"]], [True, "x"]]


def without_key(rng, tree):
    part, needed, _ = some_part(rng, tree)
    del part[rng.choice(needed)]


def strange_key(rng, tree):
    part, needed, more = some_part(rng, tree)
    key = rng.choice([key for key in [*STRANGE] + 5 * LIKELY if key not in needed + more])
    part[key] = rng.choice(STRANGE[key])


def strange_key_at_the_top(rng, tree):
    key = rng.choice([key for key in STRANGE if key not in ("format", "lookup", "pgn")])
    tree[key] = rng.choice(STRANGE[key])


def another_kind(rng, tree):
    part, _, _ = some_part(rng, tree)
    key = rng.choice(sorted(part))
    part[key] = rng.choice(OTHERS[type(part[key])])


def no_list_at_the_top(rng, tree):
    if named(tree):
        return False
    tree[rng.choice(["lookup", "pgn"])] = rng.choice([0, "x", {}, [0], [[]], [{}], True])


def no_entry(rng, tree):
    spare_lookup(rng, tree)["entries"].insert(rng.randint(0, 2), rng.choice(ENTRIES))


def no_field(rng, tree):
    a_holder(rng, tree)["fields"].insert(rng.randint(0, 1), rng.choice([0, "x", [], [{}], {}]))


def value_out_of_range(rng, tree):
    spare_lookup(rng, tree)["entries"][rng.randint(0, 1)][0] = rng.choice([-1, 2**32, 2**32 + 1, -2**63])


def number_out_of_range(rng, tree):
    spare_definition(rng, tree)["number"] = rng.choice([-1, 2**24, 2**24 + 60000, 2**32 + 1, -2**63])


def repeat_out_of_range(rng, tree):
    stringed(rng, tree)
    if not repeats(tree):
        return False
    definition = rng.choice([one for one in tree["pgn"] if "repeat" in one])
    repeat = definition["repeat"]
    at, bits, room = repeat["at"], repeat["bits"], ROOM - fixed(definition["fields"], repeat.get("after"))
    needed = max([fixed(repeat["fields"], field.get("after")) + field["at"] + field.get("bits", 0) for field in repeat["fields"]] + [0])
    changes = [{"at": -8}, {"at": 1784}, {"at": 2**62}, {"at": at + rng.randint(1, 7)}, {"at": room - bits + 8},
               {"bits": -8}, {"bits": 1792}, {"bits": 2**62}, {"bits": bits - rng.randint(1, 7)},
               {"bits": bits + rng.randint(1, 7)}, {"bits": room - at + 8}]
    if needed or not has_string(repeat):
        changes += [{"bits": 0}] * 2
    if needed > 8:
        changes += [{"bits": 8 * rng.randint(1, (needed - 1) // 8)}] * 2
    repeat.update(rng.choice(changes))


def set_of_no_bits(rng, tree):
    """Sets that take no byte."""
    if stringed(rng, tree) is None:
        return False
    repeat = rng.choice(repeats(tree))
    repeat["bits"] = 0
    if has_string(repeat) and rng.random() < 0.5:
        repeat["fields"] = [field for field in repeat["fields"] if field["kind"] != "string" and "after" not in field]
    else:
        repeat["fields"] = []


def place_out_of_range(rng, tree):
    spare_definition(rng, tree)
    stringed(rng, tree)
    field, repeat = rng.choice([*places(tree)])
    kind, at, bits = field["kind"], field["at"], field.get("bits")
    most, room = BITS.get(kind, ROOM), repeat["bits"] if repeat else ROOM
    if "after" in field:
        room -= fixed(list_of(tree, field), field["after"])
    if kind == "string":
        changes = [{"at": wrong} for wrong in (-1, -8, ROOM, 2**62, -2**63, at + rng.randint(1, 7), 8 * rng.randint(223, 300))]
        if room < LAST:
            changes += [{"at": room + 8}, {"at": 8 * rng.randint(room // 8 + 1, LAST // 8)}] * 3
        field.update(rng.choice(changes))
        return
    changes = [{"at": -1}, {"at": -8}, {"at": 1784}, {"at": 2**63 - 1}, {"at": -2**63}, {"bits": 0}, {"bits": -8},
               {"bits": most + 1}, {"bits": most + 8}, {"bits": 2**32 + 8}]
    unit = 1 if kind in BITS else 8
    if room - bits + unit < ROOM:
        changes += [{"at": room - bits + unit}, {"at": rng.randint(room - bits + 1, ROOM - 1)}]
    if room - at + unit <= most:
        changes += [{"bits": room - at + unit}] * 2
    if kind not in BITS:
        changes += [{"at": at + rng.randint(1, 7)}, {"bits": bits - rng.randint(1, 7)}] * 2
        if at:
            changes += [{"at": at - rng.randint(1, 7)}] * 2
    field.update(rng.choice(changes))


def fixed_place_out_of_range(rng, tree):
    """A chain of strings up to the limit, followed by one more field or a set."""
    definition = stringed(rng, tree)
    if definition is None:
        return False
    repeat, in_set = definition["repeat"], bool(IN_SETS) and rng.random() < 0.4
    most = ROOM
    if in_set:
        most = repeat["bits"] = 8 * rng.choice([0, 1, 2, 9, MOST - 8, rng.randint(0, MOST - 8)])
        repeat.update(at=0, after="S")
    fields, place, last = [], 0, rng.random() < 0.3
    while len(fields) < 6 and (len(fields) < 2 or rng.random() < 0.5):
        room = (most - place) // 8
        at = 8 * min(room, rng.choice([0, 1, rng.randint(0, room)]))
        fields.append({"name": f"S{len(fields)}", "kind": "string", "at": min(at, LAST), "form": rng.choice(FORMS)})
        if len(fields) > 1:
            fields[-1]["after"] = fields[-2]["name"]
        place += fields[-1]["at"]
    after = fields[-1]["name"]
    kind = rng.choice(["number", "number", "bytes", "digits", "text"]) if place > 0 else "bytes"
    bits, unit = (rng.randint(1, 64), 1) if kind == "number" else (8 * rng.randint(1, 8), 8)
    at = most - place - bits + unit
    if IN_SETS and not in_set and rng.random() < 0.4:
        fixed_bits = 8 * rng.randint(0, 3)
        repeat.update(at=ROOM - place - fixed_bits + 8, bits=fixed_bits, after=after, fields=[fields[0] | {"at": 0}])
        if not 0 <= repeat["at"] <= LAST:
            return False
    elif last:
        fields.append({"name": "L", "kind": "string", "at": most - place + 8, "after": after, "form": "lz"})
        if fields[-1]["at"] > LAST:
            return False
    elif not 0 <= at < ROOM:
        return False
    else:
        fields.append({"name": "L", "kind": kind, "at": at, "bits": bits, "after": after})
    (repeat if in_set else definition)["fields"] = fields


def match_out_of_range(rng, tree):
    fields = [field for field, repeat in places(tree)
              if field["kind"] in ("number", "lookup") and repeat is None and "after" not in field]
    if not fields:
        return False
    field = rng.choice(fields)
    field["match"] = rng.choice([-1, -2**63] + ([1 << field["bits"], 2**63 - 1] if field["bits"] < 63 else []))


def a_number(rng, tree):
    spare_definition(rng, tree)
    return rng.choice([field for field, _ in places(tree) if field["kind"] == "number"])


def signed_bit(rng, tree):
    field = a_number(rng, tree)
    field.update(bits=1, signed=True)
    field.pop("offset", None)


def mantissa_out_of_range(rng, tree):
    a_number(rng, tree)["resolution"] = rng.choice([
        "0", "0.00", "0000000000." + "0" * 18, "4294967296", "42949672.96", "0.004294967296", "9999999999",
        "4294967295." + "0" * 18])


def offset_out_of_range(rng, tree):
    field = a_number(rng, tree)
    if tree["format"] < 3 or field.get("signed"):
        return False
    field["offset"] = rng.choice([-4294967297, 4294967296, 2**63 - 1, -2**63, 2**40])


LENGTHS = ["", "x" * 256, "é" * 128, "日" * 86, "x" * 1000]


def text_of_another_length(rng, tree):
    part, needed, more = some_part(rng, tree)
    keys = [key for key in ("name", "description", "lookup", "unit", "after") if key in needed + more]
    if "entries" in needed and rng.random() < 0.5:
        part["entries"][rng.randint(0, 1)][1] = rng.choice(LENGTHS)
    elif keys:
        part[rng.choice(keys)] = rng.choice(LENGTHS)
    else:
        return False


def unknown_kind(rng, tree):
    part, needed, _ = some_part(rng, tree)
    if "kind" not in needed:
        return False
    kinds = ["", "Number", "numbers", "String", "text ", "Fast", "slow"] + ["flags", "digits"] * 4 * (tree["format"] < 3)
    if not strings_of(tree["format"], any(part is field and repeat for field, repeat in places(tree))):
        kinds += ["string"] * 4
    part["kind"] = rng.choice(kinds + ["number" if "number" in needed else "single"])


def unknown_form(rng, tree):
    if stringed(rng, tree) is None:
        return False
    string = rng.choice([field for field, _ in places(tree) if field["kind"] == "string"])
    string["form"] = rng.choice(["", "x", "Lau", "LZ", "lz ", " lau", "la", "laulz", "string", "l" * 255, "l" * 256])


def no_resolution(rng, tree):
    a_number(rng, tree)["resolution"] = rng.choice([
        "", ".", ".1", "1.", "-1", "+1", "1e3", "1,5", " 1", "1 ", "12345678901", "0." + "1" * 19, "1.0.0", "0x1", "١", "1.x",
        "00000000001", "1_0", "inf"])


def lookup_twice(rng, tree):
    name = spare_lookup(rng, tree)["name"]
    tree["lookup"].insert(rng.randint(0, len(tree["lookup"])), {"name": name, "entries": []})


def value_twice(rng, tree):
    spare_lookup(rng, tree)["entries"].insert(rng.randint(0, 2), [2, "Again"])


def string_twice(rng, tree):
    definition = stringed(rng, tree)
    if definition is None:
        return False
    in_set = bool(IN_SETS) and rng.random() < 0.5
    name = rng.choice(["A", "S", "T", "B"] + ["list"] * (not in_set))
    holder = definition["repeat"] if in_set else definition
    holder["fields"].append({"name": name, "kind": "string", "at": 0, "form": "lau"})


def field_twice(rng, tree):
    kind = rng.choice([kind for kind in KINDS[tree["format"]] if not NEEDED[kind]])
    a_holder(rng, tree)["fields"].append({"name": "A", "kind": kind, "at": 0, "bits": 8})


def field_named_list(rng, tree):
    if tree["format"] == 1:
        return False
    spare_definition(rng, tree)["fields"].append({"name": "list", "kind": "number", "at": 0, "bits": 8})


def unknown_lookup(rng, tree):
    if not named(tree):
        return False
    names = {one["name"] for one in tree.get("lookup", [])}
    field = rng.choice(named(tree))
    field["lookup"] = new_name(rng, {*names}) if rng.random() < 0.5 else cut(field["lookup"] + "S", 255)
    return field["lookup"] not in names


def no_string(rng, tree):
    """A field names something other than an earlier string."""
    if stringed(rng, tree) is None:
        return False
    field = rng.choice(followers(tree) if rng.random() < 0.8 else
                       [field for field, repeat in places(tree) if "match" not in field and strings_of(3, repeat is not None)])
    fields, room = next((fields, room) for fields, room in lists(tree) if any(part is field for part in fields))
    at = next(at for at, part in enumerate(fields) if part is field)
    before = {part["name"] for part in fields[:at] if part["kind"] == "string"}
    others = {part["name"] for part, _ in places(tree)} - before | {field["name"], "list"} - before
    way = rng.random()
    if way < 0.4:
        field["after"] = rng.choice(sorted(others))
    elif way < 0.6:
        field["after"] = cut((field["after"] if "after" in field else "S") + "S", 255)
        return field["after"] not in before
    elif "after" not in field:
        return False
    else:
        string = next(part for part in fields if part["name"] == field["after"])
        if way < 0.7:
            fields.remove(string)
        elif way < 0.8:
            fields.append(fields.pop(next(at for at, part in enumerate(fields) if part is string)))
        elif way < 0.9:
            string["name"] = new_name(rng, {part["name"] for part in fields} | {"list"})
        else:
            name, after = string["name"], {key: string[key] for key in ("after",) if key in string}
            string.clear()
            string.update(name=name, kind="bytes", at=0, bits=8, **after)
            return fixed(fields, after.get("after")) + 8 <= room


def no_string_of_sets(rng, tree):
    """Sets name something other than a string of the definition's own fields."""
    if stringed(rng, tree) is None or not IN_SETS:
        return False
    definition = rng.choice([one for one in tree["pgn"] if "repeat" in one])
    repeat, strings = definition["repeat"], {field["name"] for field in definition["fields"] if field["kind"] == "string"}
    others = [field["name"] for field, _ in places(tree)] + [field["name"] for field in repeat["fields"]] * 3 + ["list", "Z"]
    repeat["after"] = rng.choice(others + [cut(rng.choice([*strings, "S"]) + "S", 255)])
    return repeat["after"] not in strings


def mixed(rng, tree):
    definition = spare_definition(rng, tree)
    other = {"number": definition["number"], "kind": "single", "description": "x", "fields": []}
    tree["pgn"].insert(rng.randint(0, len(tree["pgn"])), other)


def too_many_fields(rng, tree):
    a_holder(rng, tree)["fields"] = [{"name": f"f{n}", "kind": "number", "at": 0, "bits": 8} for n in range(257)]


def too_many_others(rng, tree):
    spare, definition = spare_lookup(rng, tree), spare_definition(rng, tree)
    spare["entries"] = [[n, "x"] for n in range(rng.choice([4096, 4097]))]
    if len(spare["entries"]) == 4096:
        key, part = rng.choice([("lookup", lambda n: {"name": f"many {n}", "entries": []}),
                                ("pgn", lambda n: {"number": n, "kind": "fast", "description": "x", "fields": []})])
        tree[key] += [part(n + 2**20) for n in range((4097 if key == "pgn" else 1025) - len(tree[key]))]


def another_format(rng, tree):
    tree["format"] = rng.choice([0, 4, 5, -1, 10, 2**32 + 1, 2**63 - 1, "1", "3", 1.0, 3.0, True, [1], {}, MOMENT])


def without_format(rng, tree):
    del tree["format"]


FAULTS = {
    "Format": [another_format, without_format],
    "Key": [strange_key] * 6 + [without_key, another_kind] * 2 + [strange_key_at_the_top, no_list_at_the_top, no_entry, no_field],
    "Range": [place_out_of_range] * 6 + [repeat_out_of_range, fixed_place_out_of_range] * 2 +
             [match_out_of_range, value_out_of_range, number_out_of_range, signed_bit, mantissa_out_of_range, offset_out_of_range,
              set_of_no_bits],
    "Text": [text_of_another_length, text_of_another_length, unknown_kind, unknown_kind, no_resolution, unknown_form],
    "Twice": [lookup_twice, value_twice, field_twice, field_named_list, string_twice],
    "Lookup": [unknown_lookup, no_string, no_string_of_sets],
    "Mixed": [mixed],
    "TooMany": [too_many_fields] * 4 + [too_many_others],
}
CLASSES = ["NotToml", *FAULTS]
FREQUENT = ["Key"] * 6 + ["Range"] * 8 + ["Text"] * 4 + ["Lookup"] * 2 + ["NotToml", "Format", "Twice", "Mixed", "TooMany"]


def spoiled(rng, written):
    """The bytes of a table, made invalid as TOML."""
    data = written.encode()
    at = rng.randint(0, len(data))
    return rng.choice([
        data[:at] + b"\xff" + data[at:], data[:data.rindex(b"=")] + b"= [",
        *(data + end for end in [b"\nx", b"= 1\n", b"\n[[pgn]\n", b"\nx = 1 x = 2\n", b"\ny = 08\n", b"\ny = 'x\n", b"\n\0\n",
                                 b"\ny = 9223372036854775808\n", b"\ny = 1\ny = 2\n", b'\ny = "\\q"\n',
                                 b"\ny = \xed\xa0\x80\n"])])


def faulty(rng, format):
    """The class of a fault, and the bytes of a table that has it."""
    name = rng.choice(FREQUENT)
    while True:
        tree = new_table(rng, format)
        if name == "NotToml":
            return name, spoiled(rng, table_text(tree))
        if rng.choice(FAULTS[name])(rng, tree) is not False:
            return name, table_text(tree).encode()


# ---- A field and sets with several faults: the first is reported ----

OWN = {"number": ["signed", "resolution", "offset", "unit", "match"], "lookup": ["lookup", "match"], "text": ["short"],
       "bytes": ["short"], "flags": ["lookup"], "digits": [], "string": ["form", "short"]}
OF_3 = ("offset", "unit", "short", "after", "form")
VALUES = {"name": ["X", "X", "A", "list", "", "x" * 256, 5], "kind": [*OWN, "Number", "", 5, "x" * 256], "x": [1],
          "at": [0, 8, 16, 1, 4, -8, 1752, 1760, 1768, 1776, 1783, 1784, "8", True],
          "bits": [1, 2, 8, 16, 12, 24, 32, 33, 64, 65, 0, -8, 1784, 1785, 1792, "8", 8.0], "signed": [True, True, False, 1],
          "resolution": ["1", "0.01", "0.00", ".1", "", 5], "offset": [0, -40, 2**32, -2**32 - 1, "1"], "unit": ["m", "", "x" * 256, 5],
          "match": [0, 1, 255, 256, -1, "0", 2**63 - 1], "lookup": ["L", "L", "Zz", "", "x" * 256, 5], "short": [True, False, 1],
          "form": ["lau", "lz", "x", "", 5], "after": ["S", "T", "S", "T", "A", "X", "Z", "", "x" * 256, 5, True]}


def text_fault(value):
    return "Key" if type(value) is not str else None if 1 <= len(value.encode()) <= 255 else "Text"


def whole_fault(value, least, greatest, step=1):
    return "Key" if type(value) is not int else None if least <= value <= greatest and value % step == 0 else "Range"


def resolution_fault(text):
    if type(text) is not str:
        return "Key"
    whole, dot, part = text.partition(".")
    if not whole.isdecimal() or not text.isascii() or len(whole) > 10 or dot and not (part.isdecimal() and len(part) <= 18):
        return "Text"
    return whole_fault(int(whole + part), 1, 2**32 - 1)


def field_faults(field, format, in_set, strings, room):
    """The faults of a field, in the order of the rules; `strings` are the fixed places of the strings before it."""
    kind = field.get("kind")
    if type(kind) is not str:
        yield "Key"
        return
    if kind not in KINDS[format] + strings_of(format, in_set):
        yield "Text"
        return
    own = ["name", "kind", "at", "after", *OWN[kind]] + ["bits"] * (kind != "string")
    barred = [*OF_3 * (format < 3), *["match", "short"] * in_set, *["after"] * (not strings_of(format, in_set))]
    if any(key not in own or key in barred for key in field):
        yield "Key"
    step = 1 if kind in BITS else 8
    yield text_fault(field.get("name"))
    yield whole_fault(field.get("at"), 0, LAST if kind == "string" else ROOM - 1, step)
    if kind != "string":
        yield whole_fault(field.get("bits"), 1, BITS.get(kind, ROOM), step)
    if "after" in field:
        yield "Key" if "match" in field else text_fault(field["after"])
        if field["after"] not in strings:
            yield "Lookup"
            return
        room -= strings[field["after"]]
    if field["at"] + field.get("bits", 0) > room:
        yield "Range"
    for key in OWN[kind]:
        yield key_fault(field, key)


def key_fault(field, key):
    """The fault of one of the keys of a field's kind."""
    if key not in field:
        return "Key" if key in NEEDED[field["kind"]] else None
    value, is_signed = field[key], field.get("signed") is True
    if key in ("signed", "short"):
        return "Key" if type(value) is not bool else "Range" if key == "signed" and value and field["bits"] < 2 else None
    if key == "resolution":
        return resolution_fault(value)
    if key == "offset":
        return "Key" if is_signed else whole_fault(value, -2**32, 2**32 - 1)
    if key == "match":
        return whole_fault(value, 0, (1 << field["bits"]) - 1)
    fault = text_fault(value)
    if key == "form" and fault is None and value not in FORMS:
        return "Text"
    return "Lookup" if key == "lookup" and fault is None and value != "L" else fault


def list_faults(fields, format, in_set, room, strings):
    """The faults of a list of fields, in order; the fixed places of its strings are added to `strings`."""
    if type(fields) is not list:
        yield "Key"
    if len(fields) > 256:
        yield "TooMany"
    for field in fields:
        if type(field) is not dict:
            yield "Key"
        yield from field_faults(field, format, in_set, strings, room)
        if field["kind"] == "string":
            strings[field["name"]] = strings.get(field.get("after"), 0) + field["at"]
    if len({field["name"] for field in fields}) < len(fields):
        yield "Twice"


def repeat_faults(repeat, format, strings):
    """The faults of a `repeat`, in order; `strings` are the fixed places of the definition's own strings."""
    if type(repeat) is not dict:
        yield "Key"
    may_vary, room, inner = bool(strings_of(format, True)), ROOM, {}
    if any(key not in ("at", "bits", "fields") and (key != "after" or not may_vary) for key in repeat):
        yield "Key"
    yield whole_fault(repeat.get("at"), 0, ROOM - 1, 8)
    yield whole_fault(repeat.get("bits"), 0 if may_vary else 8, ROOM, 8)
    if "after" in repeat:
        yield text_fault(repeat["after"])
        if repeat["after"] not in strings:
            yield "Lookup"
        room -= strings[repeat["after"]]
    if repeat["at"] + repeat["bits"] > room:
        yield "Range"
    yield from list_faults(repeat.get("fields"), format, True, repeat["bits"], inner)
    if repeat["bits"] == 0 and not inner:
        yield "Range"


def definition_faults(definition, format):
    """The faults of a definition's fields and of its sets, in order."""
    strings = {}
    if format == 1 and "repeat" in definition:
        yield "Key"
    yield from list_faults(definition["fields"], format, False, ROOM, strings)
    if "repeat" in definition:
        yield from repeat_faults(definition["repeat"], format, strings)
        if any(field["name"] == "list" for field in definition["fields"]):
            yield "Twice"


def a_field(rng, format, in_set):
    """A field X, with some changes."""
    kind = rng.choice(KINDS[format] + strings_of(format, in_set))
    field = {"name": "X", "kind": kind, "at": 0, "bits": 8}
    if kind == "string":
        del field["bits"]
    for key in NEEDED[kind]:
        field[key] = VALUES[key][0]
    if strings_of(format, in_set) and rng.random() < 0.5:
        field.update(after=rng.choice(["S", "T", "T"]), at=8 * rng.choice([0, *(range(4, 9) if in_set else range(217, 223))]))
    for _ in range(rng.choice([1, 2, 2, 3, 4] if not in_set else [0, 0, 1, 1, 2, 3])):
        key = rng.choice([rng.choice([*VALUES]), *OWN[kind], *field, "at", "bits", "after"])
        if rng.random() < 0.05 and key in field:
            del field[key]
        elif key in [*field, "after", *OWN[kind]] or rng.random() < 0.2:
            field[key] = rng.choice(VALUES[key])
    return field


A = {"name": "A", "kind": "number", "at": 0, "bits": 8}
OF_REPEAT = {"at": [0, 8, 16, 4, -8, 1760, 1768, 1776, 1784, "8"], "after": VALUES["after"], "x": [1], "short": [True],
             "bits": [0, 0, 0, 0, 8, 16, 24, 4, -8, 1760, 1768, 1776, 1784, 1792, "8"]}


def two_strings(at):
    """A string S and a second one after it."""
    return [{"name": "S", "kind": "string", "at": at, "form": "lau"}, {"name": "T", "kind": "string", "at": at, "form": "lz", "after": "S"}]


def changed_repeat(rng, repeat, strings):
    """Changes sets; `strings` may be chosen for them if the format lets sets vary."""
    if strings and rng.random() < 0.6:
        repeat.update(after=rng.choice("ST"), at=8 * rng.choice([0, 1, *range(211, 217), *range(219, 224)]))
    if rng.random() < 0.4:
        repeat["bits"] = 0
    if rng.random() < 0.5:
        repeat["fields"] = rng.choice([[], [], strings[:1], strings, [dict(A)], [dict(A), dict(A)], [5], 5, [dict(A)] * 257])
    for _ in range(rng.choice([0, 0, 1, 2, 3])):
        key = rng.choice([*OF_REPEAT, "at", "at", "bits", "bits", "after", "after"])
        if rng.random() < 0.1:
            repeat.pop(rng.choice([*repeat]), None)
        elif key in ("at", "bits", "after") or rng.random() < 0.3:
            repeat[key] = rng.choice(OF_REPEAT[key])


def several(rng, format):
    """The class of the first fault, or None, and the bytes of a table with a field and sets that may have several
    faults."""
    of_sets = two_strings(rng.choice([0, 8, 8])) if strings_of(format, True) else []
    fields = [dict(A)] + two_strings(8) * bool(strings_of(format, False))
    repeat = {"at": 8, "bits": 64, "fields": [dict(A)] + of_sets}
    definition = {"number": 130823, "kind": "fast", "description": "x", "fields": fields}
    if format > 1 or rng.random() < 0.02:
        definition["repeat"] = repeat
    holder = fields if format == 1 or rng.random() < 0.4 else None
    if holder is None:
        if rng.random() < 0.7:
            changed_repeat(rng, repeat, of_sets)
        if rng.random() < 0.3:
            fields.append({"name": "list", "kind": "number", "at": 0, "bits": 8})
        if type(repeat.get("fields")) is list and rng.random() < 0.4:
            holder = repeat["fields"]
        if rng.random() < 0.03:
            definition["repeat"] = rng.choice([5, [], [repeat], {}, "x"])
    if holder is not None:
        holder.insert(rng.randint(0, len(holder)), a_field(rng, format, holder is not fields))
    wanted = next(filter(None, definition_faults(definition, format)), None)
    tree = {"format": format, "lookup": [{"name": "L", "entries": [[1, "One"]]}], "pgn": [definition]}
    return wanted, table_text(tree).encode()


# ---- Judging ----

class Judge:
    def __init__(self, program, room):
        self.program = program
        self.table, self.log = os.path.join(room, "table.toml"), os.path.join(room, "log")
        self.lines = self.failures = 0
        self.faults = collections.Counter()

    def run(self, table, log, *words):
        for path, data in ((self.table, table), (self.log, log)):
            with open(path, "wb") as file:
                file.write(data)
        done = subprocess.run([self.program, "decode", "--whole", *words, "--table", self.table, self.log],
                              stdin=subprocess.DEVNULL, capture_output=True, close_fds=False)
        return done.returncode, done.stdout, done.stderr.decode(errors="replace")

    def fail(self, name, table, *what):
        self.failures += 1
        print(f"{name}:", *what, "the table:", table[:20000].decode(errors="replace"), sep="\n")

    def messages(self, name, rng, tree):
        """A table without a fault, and its messages."""
        table = table_text(tree).encode()
        lookups = {one["name"]: dict(one["entries"]) for one in tree.get("lookup", [])}
        log = [*messages(rng, tree, lookups)]
        empty = rng.random() < 0.4
        status, output, errors = self.run(table, "".join(map(log_line, log)).encode(), *["--empty"] * empty)
        wanted = [wanted_line(tree, lookups, message, empty) for message in log]
        unknown = wanted.count("")
        self.lines += len(log)
        summary = f"lines {len(log)} messages {len(log) - unknown} bad 0 unknown {unknown} broken 0 open 0\n"
        if (status, errors) != (0, summary):
            self.fail(name, table, f"wanted: {summary}got: status {status}, {errors}")
        elif output != "".join(wanted).encode():
            self.of_lines(name, table, log, wanted, output, empty)

    def of_lines(self, name, table, log, wanted, output, empty):
        """Shows each line that differs, and the table once."""
        before, got = self.failures, iter(output.split(b"\n"))
        for message, line in zip(log, wanted):
            of_it = next(got, b"") + b"\n" if line else b""
            if of_it != line.encode():
                what = [log_line(message) + "--empty\n" * empty, "wanted: " + line,
                        "got:    " + of_it.decode(errors="backslashreplace")]
                self.fail(name, b"as above" if self.failures > before else table, *(part.rstrip("\n") for part in what))
        if self.failures == before:
            self.fail(name, table, f"behind the lines: {b''.join(got)}")

    def fault(self, name, rng, format):
        """A table with one fault."""
        wanted, table = faulty(rng, format)
        self.faults[wanted] += 1
        self.class_of(name, wanted, table)

    def first_fault(self, name, rng, format):
        """A field and sets that may have several faults."""
        self.class_of(name, *several(rng, format))

    def class_of(self, name, wanted, table):
        said = 0, b"", "lines 0 messages 0 bad 0 unknown 0 broken 0 open 0\n"
        if wanted is not None:
            said = 2, b"", f"n2kdec: table {CLASSES.index(wanted) + 1} {wanted}\n"
        status, output, errors = self.run(table, b"")
        if (status, output, errors) != said:
            self.fail(name, table, f"wanted: {wanted}", f"got: status {status}, {errors}")


def main(program, seed, count, formats="12333", sets="all"):
    if sets == "fixed-sets":
        IN_SETS.clear()
    with tempfile.TemporaryDirectory() as room:
        judge = Judge(program, room)
        for number in range(int(count)):
            rng = random.Random(f"{seed} {number}")
            format = int(rng.choice(formats))
            judge.messages(f"table {number}", rng, new_table(rng, format))
            judge.fault(f"table {number} with a fault", rng, format)
            judge.first_fault(f"table {number} with several faults", rng, format)
    print(", ".join(f"{name} {judge.faults[name]}" for name in CLASSES))
    print(f"{count} tables, {judge.lines} lines, {count} tables with a fault, {count} that may have several, "
          f"{judge.failures} failures")
    sys.exit(judge.failures > 0)


if __name__ == "__main__":
    if len(sys.argv) not in (4, 5, 6) or sys.argv[5:] not in ([], ["fixed-sets"]):
        sys.exit(__doc__)
    main(*sys.argv[1:])
