#!/usr/bin/env python3
"""Makes random files of the form of canboat.json, converts them with tools/from_canboat.py, and judges the tables.

    tests/random/random_canboat.py PROGRAM FIRST LAST

One file for each seed from FIRST to LAST. Each table has to be without a fault for table_rules.py and for PROGRAM, and
its text has to read back as the table that it was made from. Two damaged copies of each file are converted too: each
gives a table without a fault, and an error message only if the file's own members are missing. The last line is `N
tables, M of damaged files, K faults` (Python 3.9 or newer).
"""
import copy
import json
import os
import random
import subprocess
import sys
import tempfile

sys.path.insert(0, os.path.join(os.path.dirname(os.path.abspath(__file__)), "..", "..", "tools"))
import from_canboat
import table_rules

KINDS = ["NUMBER"] * 40 + ["LOOKUP"] * 16 + ["RESERVED"] * 8 + sorted(from_canboat.KNOWN)
SIZES = [1, 2, 3, 4, 5, 6, 7, 11, 12, 19, 21, 30, 33, 40, 63, 65, 72, 288, 800, 1784, 1785, 5000]
WORDS = ["SID", "Value", "Value 2", "list", "Status", "Zone", "", "é", "日本", "a\"b", "a\\b", "two\nlines", "\0", "\x7f",
         "x" * 255, "x" * 256, "é" * 127, "# not a comment", "'''", '"""', "]", "\t", "\u2028", "a" * 254]
UNITS = ["m", "m/s", "deg", "%", "two\nlines", "\x1b", "\\", '"', "µ", "# x", "\r", "\x85"]
NUMBERS = [1] * 20 + [0.1] * 10 + [0.01] * 10 + [
    1e-07, 3.125e-08, 2.0**-21, 2.0**-32, 100, 1e-18, 1e-19, 1e300, 1e-300, 0, 0.0, -1, -0.5, 4294967295, 4294967296,
    4294967295e-18, 4294967296e-18, 10**10, 9999999999, 1e9, 42949672.95, 12.5, 1e22]


def text(rng):
    return rng.choice(WORDS) if rng.random() < 0.1 else rng.choice("ABCDEF") + rng.choice(["", " state", " 2", " 3"])


def size(rng, kind):
    if rng.random() < 0.05:
        return rng.choice(SIZES)
    if kind in ("STRING_FIX", "BINARY"):
        return 8 * rng.randint(1, 20)
    return rng.choice([8, 8, 16, 32] if rng.random() < 0.8 else [1, 2, 3, 4, 11, 24, 33, 64])


def match(rng, bits):
    if rng.random() < 0.8:
        return rng.randrange(1 << min(bits, 62))
    return rng.choice([0, -1, -2**bits // 2, 2**bits - 1, 2**bits, 2**63 - 1, 2**63])


def field(rng, at, lookups):
    """A field and the place of the next one, or None after a field of variable length."""
    kind = rng.choice(KINDS)
    bits = size(rng, kind)
    made = {"Name": text(rng), "FieldType": kind, "Signed": rng.random() < 0.3}
    varies = rng.random() < 0.01 or kind in from_canboat.VARYING or kind in from_canboat.STRINGS
    if varies:
        made["BitLengthVariable"] = True
    if not varies or rng.random() < 0.2:
        made["BitLength"] = bits
    if at is not None:
        made |= {"BitOffset": at, "BitStart": at % 8}
    if rng.random() < 0.7:
        made["Resolution"] = rng.choice(NUMBERS)
    if rng.random() < 0.02:
        made["Offset"] = rng.choice([*NUMBERS, -2000000000, 500, 2**32, -2**32 - 1, 0.5])
    if rng.random() < 0.3:
        made["Unit"] = rng.choice(UNITS)
    if rng.random() < 0.005:
        made["Condition"] = "PGNIsProprietary"
    if kind in from_canboat.NAMED:
        made[from_canboat.NAMED[kind]] = rng.choice(lookups)["Name"]
    if rng.random() < 0.08:
        made["Match"] = match(rng, bits)
    return made, None if at is None or varies else at + bits


def message(rng, lookups):
    number = rng.choice([59392, 126208, 130820, 130821, rng.randrange(2**18), 2**24 - rng.randrange(2)])
    packet = "Fast" if number % 2 else "Single"
    made = {"PGN": number, "Id": "x", "Description": text(rng),
            "Type": packet if rng.random() < 0.8 else rng.choice(["Single", "Fast", "ISO", "Mixed"])}
    if rng.random() < 0.05:
        made["Fallback"] = rng.random() < 0.8
    fields, at = [], 0
    for _ in range(rng.choice([0, 1, 2, 3, 5, 8, 13])):
        new, at = field(rng, at, lookups)
        fields.append(new)
    if rng.random() < 0.01:
        fields = [{"Name": f"f{at}", "FieldType": "NUMBER", "BitOffset": at, "BitLength": 1}
                  for at in range(rng.randint(255, 300))]
    if fields and rng.random() < 0.4:
        start = rng.randint(1, len(fields))
        made["RepeatingFieldSet1StartField"] = start
        rest = len(fields) - start + 1
        made["RepeatingFieldSet1Size"] = rng.choice([rest, 1, 0, rng.randint(1, rest)])
        if rng.random() < 0.1:
            made["RepeatingFieldSet2Size"] = rng.randint(0, 1)
    if fields or rng.random() < 0.5:
        made["Fields"] = fields
    return made


def lookup(rng, name):
    values = [rng.choice([0, 1, 2, 3, 7, 15, 255, 65535, 2**32 - 1, 2**32, rng.randrange(5000)])
              for _ in range(rng.randint(0, 9))]
    if rng.random() < 0.01:
        values = range(rng.choice([4096, 4097]))
    names = ["Unavailable", "Not available", "Unknown", "Null", "On", "Off"]
    entries = [{"Name": rng.choice(names) if rng.random() < 0.7 else text(rng), "Value": value, "Bit": value, "Value1": value,
                "Value2": 1} for value in values]
    return {"Name": name, "MaxValue": 3, "EnumValues": entries, "EnumBitValues": entries}


def database(rng):
    """The contents of a file of canboat's form."""
    names = sorted({text(rng) for _ in range(rng.randint(1, 12))})
    lookups = [lookup(rng, name) for name in names]
    return {"Version": "5.0.0", "License": text(rng), "LookupEnumerations": lookups, "LookupBitEnumerations": lookups[1:],
            "LookupIndirectEnumerations": lookups[2:], "PGNs": [message(rng, lookups) for _ in range(rng.randint(0, 20))]}


def damage(rng, value):
    """Another kind of value, or nothing, at one position of the file."""
    value = copy.deepcopy(value)
    holder, key = None, None
    at = value
    while isinstance(at, (dict, list)) and at and (holder is None or rng.random() < 0.9):
        holder, key = at, rng.choice(sorted(at)) if isinstance(at, dict) else rng.randrange(len(at))
        at = holder[key]
    if rng.random() < 0.3:
        del holder[key]
    else:
        holder[key] = rng.choice([None, True, -1, 10**30, 0.5, 1e-400, "", "\ud800", "x", [], [1], {}, {"Name": 1}])
    return value


class Judge:
    def __init__(self, program, room):
        self.program, self.path = program, os.path.join(room, "table.toml")
        self.faults = 0

    def program_fault(self):
        """The fault that the program reports for the table, or None."""
        words = [self.program, "decode", "--table", self.path, "/dev/null"]
        done = subprocess.run(words, capture_output=True, text=True)
        if done.returncode == 0 and done.stderr == "lines 0 messages 0 bad 0 unknown 0 broken 0 open 0\n":
            return ""
        return f"status {done.returncode}: {done.stderr}"

    def table(self, name, made):
        """Prints each fault of a table, and returns its contents."""
        read, _, faults = table_rules.judged(made.encode())
        with open(self.path, "w", encoding="utf-8", newline="") as file:
            file.write(made)
        for fault in [*faults, *filter(None, [self.program_fault()])]:
            self.fault(name, fault)
        return read

    def fault(self, name, fault):
        self.faults += 1
        print(f"{name}: {fault}")


def convert(text):
    value = from_canboat.parse(text)
    table = from_canboat.table_of(value)
    return table, from_canboat.table_as_text(value, table)


def is_same(table, read):
    """Whether the text was read back as the table that it was made from."""
    lookups = {lookup["name"]: dict(lookup["entries"]) for lookup in read.get("lookup", [])}
    return lookups == table.lookups and [message.definition for message in table.messages()] == read.get("pgn", [])


def main(program, first, last):
    tables = damaged = 0
    with tempfile.TemporaryDirectory() as room:
        judge = Judge(program, room)
        for seed in range(int(first), int(last) + 1):
            rng = random.Random(seed)
            value = database(rng)
            table, made = convert(json.dumps(value))
            tables += 1
            if not is_same(table, judge.table(f"seed {seed}", made)):
                judge.fault(f"seed {seed}", "the text is another table")
            for part in range(2):
                copied = damage(rng, value)
                try:
                    _, made = convert(json.dumps(copied))
                except from_canboat.BadInput as error:
                    if isinstance(copied.get("PGNs"), list) and "LookupEnumerations" in copied and "hold" not in str(error):
                        judge.fault(f"seed {seed}, damaged {part}", error)
                    continue
                damaged += 1
                judge.table(f"seed {seed}, damaged {part}", made)
    print(f"{tables} tables, {damaged} of damaged files, {judge.faults} faults")
    sys.exit(judge.faults > 0)


if __name__ == "__main__":
    if len(sys.argv) != 4:
        sys.exit(__doc__)
    main(*sys.argv[1:])
