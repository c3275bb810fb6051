#!/usr/bin/env python3
"""Prints a table that joins an owner's files with the shipped table, as n2k --also and n2k-logger --also use it.

    tools/table_join.py TABLE FILE..

Each FILE is a complete table, of any format; its fields may name lookups of the others. Its definitions come before those of
TABLE, which are unchanged, and the first that matches is chosen. Lookups of one name are merged; if they name one value
differently, the first file counts. The same files give the same bytes.

A fault is reported on standard error with file and line, and nothing is printed: status 2, or 3 if a file can't be read.
Definitions that hide those of another file are reported too, and so are definitions whose kind differs from that of their
PGN's range, or from that of the PGN in another file, which are left out; then the table is printed (Python 3.9 or newer).
"""
from __future__ import annotations

import collections
import dataclasses
import itertools
import os
import sys

# Python's compiled modules would remain after n2kdec is removed.
sys.dont_write_bytecode = True
import table_rules
import table_text
from table_rules import Fault, quoted


LONGEST_FILE = 16777216  # bytes
MOST_NOTES = 5


@dataclasses.dataclass(eq=False)
class Part:
    """A file: its name, its text, the document, its lines, and its faults."""
    name: str
    text: str
    top: table_rules.Table
    lines: table_rules.Lines
    faults: list
    kinds: dict = dataclasses.field(default_factory=dict)  # kinds of PGNs in earlier files

    def definitions(self):
        """The definitions that are joined."""
        return [it for it in self.top.get("pgn", []) if it["kind"] == self.kinds.get(it["number"], it["kind"])]

    def other_kinds(self):
        """The definitions whose kind is not that of their PGN's range, by line."""
        for definition in self.definitions():
            if what := table_rules.kind_of_range(definition):
                yield self.of_kind(definition, what)

    def of_kind(self, definition, what):
        return self.lines.line(definition.keys_at["kind"]), f"{table_rules.of_definition(definition, 0)}: {what}"

    def in_file(self, what):
        return f"{self.name}:{what}"


def lookup_names(top):
    """The names of the lookups of a file with any faults; None stands for invalid TOML."""
    lookups = table_rules.tables_of(top.get("lookup")) if top is not None else []
    return {lookup["name"] for lookup in lookups if type(lookup.get("name")) is str}


def tree(data):
    try:
        return table_rules.tree(data)
    except table_rules.NotToml:
        return None


def part(name, data, joined_lookups=()):
    top, lines, faults = table_rules.judged(data, joined_lookups)
    return Part(name, data.decode(errors="replace"), top, lines, faults)


class Joined:
    """The owner's files and the shipped table, which comes last. If a file has a fault, there is no table."""

    def __init__(self, standard, files):
        datas = [read(name) for name in files]
        last = part(standard, read(standard))
        joined = sorted(set().union(lookup_names(last.top), *(lookup_names(tree(data)) for data in datas)))
        self.own = [part(name, data, joined) for name, data in zip(files, datas)]
        self.parts = [*self.own, last]
        self.lookups = {}
        if not self.has_faults():
            for one, other in zip(self.parts, self.parts[1:]):
                other.kinds = {**{it["number"]: it["kind"] for it in one.definitions()}, **one.kinds}
            self.join_lookups()
            self.count(sum(len(one.definitions()) for one in self.parts), table_rules.MOST_DEFINITIONS, "definitions")
            self.count(len(self.lookups), table_rules.MOST_LOOKUPS, "lookups")

    def has_faults(self):
        return any(one.faults for one in self.parts)

    def join_lookups(self):
        for one in reversed(self.parts):
            for lookup in one.top.get("lookup", []):
                names = self.lookups.setdefault(lookup["name"], {})
                names.update(map(tuple, lookup["entries"]))
                self.count(len(names), table_rules.MOST_ENTRIES, f"entries of {quoted(lookup['name'])}")

    def count(self, count, most, what):
        if count > most:
            self.own[0].faults.append(Fault(1, None, "TooMany", f"joined {count} {what}, over {most}"))

    def hides(self, one):
        """The definitions of a file that match whenever one of a later file matches, or have another kind, by line."""
        later, kinds = collections.defaultdict(list), {}
        for other in self.parts[self.parts.index(one) + 1:]:
            for definition in other.top.get("pgn", []):
                later[definition["number"]].append((definition, table_rules.Wanted(definition), other))
                kinds.setdefault((definition["number"], definition["kind"]), other)
        for definition in one.definitions():
            number, kind = definition["number"], "single" if definition["kind"] == "fast" else "fast"
            if other := kinds.get((number, kind)):
                yield one.of_kind(definition, f'kind is "{definition["kind"]}", and "{kind}" in {os.path.basename(other.name)}, '
                                  'whose definitions of this PGN are left out')
                continue
            wanted = table_rules.Wanted(definition)
            hidden = [(other, its) for other, others, its in later[definition["number"]] if wanted.fits_whenever(others)]
            if hidden:
                other, its = hidden[0]
                more = f" and {len(hidden) - 1} more" if hidden[1:] else ""
                yield one.lines.line(definition.at), f"{table_rules.of_definition(definition, 0)}: it hides " \
                    f"{quoted(other['description'])} of {os.path.basename(its.name)}{more}"

    def faults(self):
        return [one.in_file(fault) for one in self.parts for fault in sorted(one.faults, key=lambda fault: fault.line)]

    def notes(self):
        """Notes that are printed on each run, at most a few lines for each file."""
        for one in self.own:
            found = sorted([*self.hides(one), *one.other_kinds()])
            yield from (one.in_file(f"{line}: {what}") for line, what in found[:MOST_NOTES])
            if found[MOST_NOTES:]:
                yield f"{one.name}: {len(found) - MOST_NOTES} more such definitions, which n2kdec-table-check --also names"

    def table(self):
        """The text of the joined table."""
        paragraphs = [["# Joined by n2k --also: the definitions of one's own stand before the others, and the first that matches is chosen.",
                       "format = 3"]]
        for one in self.parts:
            paragraphs += unchanged(one) or [table_text.definition_lines(with_units(definition, one)) for definition in one.definitions()]
        paragraphs += [table_text.lookup_lines(name, names) for name, names in self.lookups.items()]
        return table_text.text_of(paragraphs)


def with_units(definition, one):
    """A definition with its units as keys."""
    def fields(fields):
        units = [table_rules.unit_of(field, one.top, one.text) if field["kind"] == "number" else None for field in fields]
        return [{**field, "unit": unit} if unit else field for field, unit in zip(fields, units)]

    sets = {"repeat": {**definition["repeat"], "fields": fields(definition["repeat"]["fields"])}} if "repeat" in definition else {}
    return {**definition, "fields": fields(definition["fields"]), **sets}


def unchanged(one):
    """The unchanged definitions of a table in format 3, with their comments; None unless each is a header with its
    lines."""
    arrays = [one.top[key] for key in ("pgn", "lookup") if key in one.top]
    if one.top["format"] != 3 or not all(array.by_headers for array in arrays):
        return None
    tables = sorted((table for array in arrays for table in array), key=lambda table: table.at)
    begins = [with_comments(one.text, table) for table in tables]
    stretches = {table.at: (begin, end) for table, begin, end in zip(tables, begins, [*begins[1:], len(one.text)])}
    if any(inner.at > stretches[definition.at][1] for definition in one.definitions() for inner in inner_tables(definition)):
        return None
    return [one.text[slice(*stretches[definition.at])].rstrip().split("\n") for definition in one.definitions()]


def with_comments(text, table):
    """Where the comments directly above a header begin."""
    line = text.rfind("\n", 0, table.at) + 1
    above = text[table.begin:line].split("\n")[1:-1]
    return line - sum(len(it) + 1 for it in itertools.takewhile(lambda it: it.lstrip().startswith("#"), reversed(above)))


def inner_tables(definition):
    repeat = definition.get("repeat", {})
    return [*definition["fields"], *repeat.get("fields", []), *([repeat] if repeat else [])]


def read(name):
    with open(name, "rb") as file:
        data = file.read(LONGEST_FILE + 1)
    if len(data) > LONGEST_FILE:
        raise OSError(f"more than {LONGEST_FILE} bytes: {name!r}")
    return data


def main(words):
    if len(words) < 2:
        sys.exit("usage: table_join.py TABLE FILE..")
    try:
        joined = Joined(words[0], words[1:])
    except OSError as error:
        print(f"{error.filename}: {error.strerror}" if error.filename else error, file=sys.stderr)
        sys.exit(3)
    if joined.has_faults():
        print("\n".join(joined.faults()), file=sys.stderr)
        sys.exit(2)
    sys.stdout.buffer.write(joined.table().encode())
    for note in joined.notes():
        print(note, file=sys.stderr)


if __name__ == "__main__":
    main(sys.argv[1:])
