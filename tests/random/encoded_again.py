#!/usr/bin/env python3
"""Encodes lines that a program prints, and compares what the result shows with these lines.

    tests/random/encoded_again.py PROGRAM TABLE SEED COUNT
    tests/random/encoded_again.py PROGRAM tables SEED COUNT

makes COUNT random messages of the definitions in TABLE, or those of COUNT random tables of formats 1 to 3
(random_messages.py), all as fast packets to all. `PROGRAM decode --whole` prints their lines, `PROGRAM encode` makes
plain lines from these, and `decode --whole` has to print the same lines again. Refusals of `encode` are counted by
code: with the shipped table there may be none; in a random table fields may share bits, and no data show two values of
one bit (B18). A report without a field's name is a failure, and so is a refused value (B17), except of flags with a name
twice. The last line ends with `N failures` (Python 3.11 or newer).
"""
import collections
import json
import os
import random
import re
import subprocess
import sys
import tempfile
import tomllib

import random_messages

LETTERS = b"ABC xyz-09@"
FILLING = [0, 32, 64, 255]


def put(data, at, bits, raw):
    for j in range(bits):
        i = at + j
        if i // 8 < len(data):
            data[i // 8] = data[i // 8] & ~(1 << i % 8) | (raw >> j & 1) << i % 8


def put_bytes(data, at, bs):
    for i, b in enumerate(bs, at):
        if i < len(data):
            data[i] = b


def text(rng, width):
    bs = bytes(rng.choice(LETTERS) for _ in range(rng.randrange(width + 1)))
    return bs + bytes([rng.choice(FILLING)]) * (width - len(bs))


def string(rng):
    if rng.random() < 0.2:
        bs = "".join(rng.choice("aé\u03a9\U0001f600z") for _ in range(4)).encode("utf-16-le")
        return bytes([len(bs) + 2, 0]) + bs
    bs = bytes(rng.choice(LETTERS) for _ in range(rng.randrange(12)))
    return bytes([len(bs) + 2, 1]) + bs


def data_of(rng, definition):
    """Random bytes, or bytes at the limits of fields, with texts, strings and the values that the definition
    requires."""
    fields = definition["fields"]
    most = min(223, (max((f["at"] + f.get("bits", 16) for f in fields), default=0) + 7) // 8)
    count = 8 if definition["kind"] == "single" else rng.choice([most, min(223, most + rng.randrange(40)), rng.randrange(224)])
    style = rng.randrange(4)
    data = bytearray(rng.randrange(256) if style else 255 for _ in range(count))
    if style == 2:
        data = bytearray(rng.choice([0, 255, 0x7F, 0xFE, 0x20, 0x40, b]) for b in data)
    for f in fields:
        if f["kind"] == "text" and rng.random() < 0.8:
            put_bytes(data, f["at"] // 8, text(rng, f["bits"] // 8))
        if f["kind"] == "string" and rng.random() < 0.9:
            put_bytes(data, f["at"] // 8, string(rng))
        if "match" in f:
            put(data, f["at"], f["bits"], f["match"])
    return data


def plain(rng, pgn, dst, data):
    stamp = f"2024-05-01T12:00:00.{rng.randrange(1000):03d}Z"
    return ",".join([stamp, str(rng.randrange(8)), str(pgn), str(rng.randrange(256)), str(dst), str(len(data)), *(f"{b:02x}" for b in data)])


def with_rare_parts(rng, tree):
    """Changes parts of a random table: names of several values, own fields inside sets, no own fields, and a definition
    that is described like data which none matches."""
    for lookup in tree.get("lookup", []):
        if rng.random() < 0.5:
            for entry in lookup["entries"]:
                entry[1] = rng.choice([entry[1], lookup["entries"][0][1]])
    for d in tree.get("pgn", []):
        if rng.random() < 0.1:
            d["description"] = "Unmatched"
        if "repeat" in d and rng.random() < 0.3:
            d["repeat"]["at"] = 0
        if "repeat" in d and "after" not in d["repeat"] and rng.random() < 0.1:
            d["fields"] = []


def has_twice(value):
    """Whether an array in a line has a text twice."""
    if isinstance(value, dict):
        return any(map(has_twice, value.values()))
    if isinstance(value, list):
        texts = [one for one in value if isinstance(one, str)]
        return len(texts) > len({*texts}) or any(map(has_twice, value))
    return False


def without_order(value):
    """A line's value with flags in a fixed order: the first bit of a name may not be the one that was set."""
    if isinstance(value, dict):
        return {key: without_order(one) for key, one in value.items()}
    if isinstance(value, list):
        return sorted((without_order(one) for one in value), key=str) if value and isinstance(value[0], str) else [*map(without_order, value)]
    return value


def is_same(line, other):
    return line == other or without_order(read(line)) == without_order(read(other))


def read(line):
    """The line's JSON; numbers stay text."""
    return json.loads(line, parse_float=str, parse_int=str)


class Judge:
    def __init__(self, program):
        self.program, self.refused = program, collections.Counter()
        self.lines = self.accepted = self.failures = 0

    def run(self, *words, given):
        done = subprocess.run([self.program, *words], input="".join(line + "\n" for line in given).encode(), capture_output=True)
        return done.stdout.decode().split("\n")[:-1], done.stderr.decode(errors="replace")

    def judge(self, table, messages):
        shown = [line for line in self.run("decode", "--whole", "--table", table, given=messages)[0] if line.startswith("{")]
        plain_lines, reports = self.run("encode", "--table", table, given=shown)
        bad = {int(n) - 1: code for n, code in re.findall(r"^line (\d+) bad (B\d+) ", reports, re.M)}
        self.failures += len(re.findall(r"^line \d+ bad B1[678] \w+( \"\")?$", reports, re.M))
        self.failures += sum(code == "B17" and not has_twice(json.loads(shown[n])) for n, code in bad.items())
        self.refused.update(bad.values())
        kept = [line for n, line in enumerate(shown) if n not in bad]
        again = self.run("decode", "--whole", "--table", table, given=plain_lines)[0] if plain_lines else []
        self.lines += len(shown)
        self.accepted += len(kept)
        self.failures += sum(not is_same(a, b) for a, b in zip(kept, again)) + abs(len(kept) - len(again))


def main(program, table, seed, count):
    judge = Judge(program)
    if table != "tables":
        with open(table, "rb") as file:
            definitions = tomllib.load(file)["pgn"]
        for first in range(0, int(count), 5000):
            rng = random.Random(f"{seed} {first}")
            some = [rng.choice(definitions) for _ in range(min(5000, int(count) - first))]
            judge.judge(table, [plain(rng, d["number"], 255 if d["number"] >> 8 & 255 >= 240 else rng.randrange(256), data_of(rng, d)) for d in some])
        judge.failures += sum(judge.refused.values())
    else:
        for number in range(int(count)):
            rng = random.Random(f"{seed} {number}")
            tree = random_messages.new_table(rng, int(rng.choice("123333")))
            with_rare_parts(rng, tree)
            numbers = {}
            for d in tree.get("pgn", []):
                d["number"], d["kind"] = numbers.setdefault(d["number"], 130816 + len(numbers)), "fast"
            lookups = {one["name"]: dict(one["entries"]) for one in tree.get("lookup", [])}
            messages = [plain(rng, m[1], 255, m[4]) for m in random_messages.messages(rng, tree, lookups)]
            with tempfile.TemporaryDirectory() as room:
                name = os.path.join(room, "table.toml")
                with open(name, "w") as file:
                    file.write(random_messages.table_text(tree))
                judge.judge(name, messages)
    print(f"{judge.lines} lines, {judge.accepted} encoded, refused {dict(judge.refused)}, {judge.failures} failures")
    sys.exit(judge.failures > 0)


if __name__ == "__main__":
    if len(sys.argv) != 5:
        sys.exit(__doc__)
    main(*sys.argv[1:])
