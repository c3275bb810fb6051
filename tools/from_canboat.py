#!/usr/bin/env python3
"""Prints canboat's PGN database, the file canboat.json of its versions 4 to 6, as a table.

    tools/from_canboat.py canboat.json > canboat.toml
    tools/from_canboat.py --compare tables/n2k.toml canboat.json

The first command prints a table of format 3, and on standard error what the table contains and what was left out, by cause.
The second prints how that table differs from another, message by message. tables/README.md says what is left out (Python 3.9
or newer). In the table

- a LOOKUP of over 32 bits, or with names that a table can't have, is a number; so are BINARY bits not on whole bytes, or with a match
- BITLOOKUP is flags, STRING_LAU and STRING_LZ are strings, DECIMAL is digits; a field with an Offset has no sign
- DATE and TIME have the units that the recipes print as text
- a text or bytes that end a message are short; so is Data, the bytes after the last field with a known place
- INDIRECT_LOOKUP and FIELDTYPE_LOOKUP are the raw number; a comment at the end has the names of the first
- a Match is the raw value: -1 in 8 bits is 255
- the first repeating set is repeat, if it ends the message, is on whole bytes and has only strings and fields of fixed length
- a repeated name, or "list" beside a set, is "Name 2"
- messages of one PGN with more matches come first
- the greatest value of a lookup has no name that means "no value", such as Unavailable: the field is then absent
- a message of Type ISO is single: n2kdec reads it in a plain line, and does not put its packets (PGN 60160) together
"""
from __future__ import annotations

import argparse
import collections
import dataclasses
import decimal
import itertools
import json
import sys
import textwrap

# Python's compiled modules would remain after n2kdec is removed.
sys.dont_write_bytecode = True
import differences
import table_text
from table_rules import (GREATEST_MANTISSA, GREATEST_OFFSET, GREATEST_PGN, GREATEST_VALUE, LEAST_OFFSET, LONGEST_MESSAGE,
                         LONGEST_TEXT, MOST_DEFINITIONS, MOST_ENTRIES, MOST_FIELDS, MOST_LOOKUPS)
from table_text import quoted

FRAME = 64  # bits
MOST_DECIMALS = 18
GREATEST_MATCH = 2**63 - 1
LONGEST_FILE = 16777216  # bytes

# An ISO message uses the transport protocol of ISO 11783, so it is not a fast packet.
PACKETS = {"Single": "single", "ISO": "single", "Fast": "fast", "Mixed": None}
NUMBERS = {"NUMBER", "MMSI", "TIME", "DATE", "DURATION", "PGN", "FIELD_INDEX", "ISO_NAME"}
RAW = {
    "INDIRECT_LOOKUP": "since the names depend on another field",
    "FIELDTYPE_LOOKUP": "since the names are those of kinds of fields",
}
# The lists of names, and the member by which a field of that kind refers to a list.
NAMED = {"LOOKUP": "LookupEnumeration", "BITLOOKUP": "LookupBitEnumeration", "INDIRECT_LOOKUP": "LookupIndirectEnumeration"}
STRINGS = {"STRING_LZ": "lz", "STRING_LAU": "lau"}
VARYING = {"STRING_VAR", "VARIABLE"}
KEYED = {"KEY_VALUE", "DYNAMIC_FIELD_KEY", "DYNAMIC_FIELD_LENGTH", "DYNAMIC_FIELD_VALUE"}
WHOLE = {"STRING_FIX": "text", "DECIMAL": "digits"}
UNNAMED = {"RESERVED", "SPARE"}
KNOWN = NUMBERS | RAW.keys() | NAMED.keys() | STRINGS.keys() | VARYING | KEYED | WHOLE.keys() | UNNAMED | {"BINARY", "FLOAT"}
# Units as the recipes know them.
UNITS = {"DATE": "days since 1970-01-01", "TIME": "s since midnight"}

# Names of a lookup's greatest value that only mean "not available".
NONE = {"unavailable", "not available", "data not available", "not defined", "not defined (default)", "undefined",
        "unknown", "null", "no data", "n/a"}
NO_MATCH = "with a match that a table can't express"


class BadInput(Exception):
    """What is wrong with the file."""


class Odd(Exception):
    """What is wrong with one object of the file."""


class LeftOut(Exception):
    """Why a field, a set or a message is left out of the table, and of a message the field that is the cause."""


KINDS = {"a whole number": (int,), "a number": (int, decimal.Decimal), "a text": (str,), "true or false": (bool,),
         "a list": (list,)}
REQUIRED = object()


class Object:
    """An object of the file; its members are read by name and kind."""

    def __init__(self, value):
        if not isinstance(value, dict):
            raise Odd("it is no object")
        self.members = value

    def ask(self, name, kind, default=REQUIRED):
        if name not in self.members:
            if default is REQUIRED:
                raise Odd(f"it has no {name}")
            return default
        value = self.members[name]
        if type(value) not in KINDS[kind]:  # a bool is an int to isinstance
            raise Odd(f"{name} is not {kind}")
        if kind == "a text" and not is_unicode(value):
            raise Odd(f"{name} is no Unicode text")
        return value

    def count(self, name, default=REQUIRED):
        value = self.ask(name, "a whole number", default)
        if value is not default and value < 0:
            raise Odd(f"{name} is below 0")
        return value

    def called(self, otherwise, name="Name"):
        """How a comment names it, valid or not."""
        try:
            return quoted(self.ask(name, "a text"))
        except Odd:
            return otherwise


@dataclasses.dataclass
class Given:
    """A field as in the file; `bits` is None if its length varies or is unknown. For an odd field it contains what is
    wrong, and the parts that are right."""
    called: str
    at: int | None = None
    bits: int | None = None
    varies: bool = False
    name: str = ""
    kind: str = ""
    sometimes: bool = False
    signed: bool = False
    resolution: decimal.Decimal = decimal.Decimal(1)
    offset: decimal.Decimal = decimal.Decimal(0)
    unit: str = ""
    names: str | None = None
    has_match: bool = False
    match: int | None = None
    odd: str | None = None


@dataclasses.dataclass
class Message:
    """A definition of the table, and its comments."""
    definition: dict
    notes: dict  # from a text to the names of the fields that it describes

    def matches(self):
        return sum("match" in field for field in self.definition["fields"])

    def all_fields(self):
        return self.definition["fields"] + self.definition.get("repeat", {"fields": []})["fields"]


@dataclasses.dataclass
class Table:
    parts: list  # messages, and comments in place of messages
    lookups: dict  # from a name to names by value
    comments: list  # comments after the lookups
    counts: collections.Counter  # what was left out, by cause

    def messages(self):
        return [part for part in self.parts if isinstance(part, Message)]


# ---- The file ----

def parse(text):
    """Parses the file's bytes; numbers with a dot become decimals, so that none is rounded."""
    def refuse(name):
        raise BadInput(f"this is not JSON: it has the number {name}")

    try:
        return json.loads(text, parse_float=decimal.Decimal, parse_constant=refuse)
    except (ValueError, RecursionError, decimal.InvalidOperation) as error:
        why = "a number is out of range" if isinstance(error, decimal.InvalidOperation) else error
        raise BadInput(f"this is not JSON: {why}") from None


def read_field(value, ordinal):
    try:
        field = Object(value)
    except Odd as why:
        return Given(f"field {ordinal}", odd=str(why))
    called = field.called(f"field {ordinal}")
    try:
        kind = field.ask("FieldType", "a text")
        varies = field.ask("BitLengthVariable", "true or false", False) or kind in VARYING or kind in STRINGS
        bits = field.count("BitLength", 0 if varies or kind in KEYED else REQUIRED)
        varies |= bits == 0
        if kind not in KNOWN:
            raise Odd(f"FieldType {quoted(kind)} is unknown")
        return Given(
            called, field.count("BitOffset", None), None if varies else bits, varies, field.ask("Name", "a text"), kind,
            sometimes=field.ask("Condition", "a text", None) is not None,
            signed=field.ask("Signed", "true or false", False),
            resolution=decimal.Decimal(field.ask("Resolution", "a number", 1)),
            offset=decimal.Decimal(field.ask("Offset", "a number", 0)),
            unit=field.ask("Unit", "a text", ""),
            names=field.ask(NAMED[kind], "a text", None) if kind in NAMED else None,
            has_match="Match" in value, match=field.ask("Match", "a whole number", None))
    except Odd as why:
        places = [value.get(name) if type(value.get(name)) is int and value[name] >= 0 else None
                  for name in ("BitOffset", "BitLength")]
        varies = value.get("BitLengthVariable", False) is not False or value.get("FieldType") in (*VARYING, *STRINGS)
        return Given(called, places[0], None if varies else places[1] or None, varies, has_match="Match" in value, odd=str(why))


def read_names(top, entries_name, value_names, left_out):
    """The lists of names of one kind, each a map from values to a name; odd lists go into `left_out`."""
    found = {}
    for ordinal, value in enumerate(list_of(top, f"Lookup{entries_name}Enumerations", left_out), 1):
        called = f"number {ordinal}"
        try:
            lookup = Object(value)
            called = lookup.called(called)
            name, names = lookup.ask("Name", "a text"), {}
            for entry in lookup.ask(f"Enum{entries_name if entries_name == 'Bit' else ''}Values", "a list"):
                values, said = read_name(entry, value_names)
                if values is None or values in names:
                    left_out.append((None, "names of values left out, since a table can't say them"))
                else:
                    names[values] = said
            if name in found:
                raise Odd("the name is there twice")
            if not is_text(name) or len(names) > MOST_ENTRIES:
                raise Odd("a table can't say it")
            found[name] = names
        except Odd as why:
            left_out.append((f"Left out, odd: the list {called} of Lookup{entries_name}Enumerations ({why}).", "lookups left out, as odd ones"))
    return found


def list_of(top, name, left_out):
    try:
        return top.ask(name, "a list", [])
    except Odd as why:
        left_out.append((f"Left out, odd: all lists of {name} ({why}).", "lookups left out, as odd ones"))
        return []


def read_name(entry, value_names):
    """The values of a name, or None if a table cannot express it."""
    try:
        entry = Object(entry)
        values = tuple(entry.count(name) for name in value_names)
        said = entry.ask("Name", "a text")
    except Odd:
        return None, None
    return (values, said) if is_text(said) and max(values) <= GREATEST_VALUE else (None, None)


def set_of(pgn, length):
    """The positions of the first repeating set among the fields, and whether it ends the message."""
    size = pgn.count("RepeatingFieldSet1Size", 0)
    if size == 0:
        return None, True
    start = pgn.count("RepeatingFieldSet1StartField") - 1
    if start < 0 or start + size > length:
        raise Odd("its repeating set has fields that are not there")
    second = pgn.count("RepeatingFieldSet2Size", 0) > 0
    return range(start, start + size), start + size == length and not second


# ---- What a table can express ----

def is_unicode(text):
    return not any("\ud800" <= letter <= "\udfff" for letter in text)


def is_text(text):
    return 1 <= len(text.encode()) <= LONGEST_TEXT


def resolution_text(number):
    """The exact decimals of a resolution, without trailing zeros."""
    if 0 < number < 10**10 and number.adjusted() >= -MOST_DECIMALS:
        whole, _, decimals = f"{number:f}".partition(".")
        decimals = decimals.rstrip("0")
        if len(decimals) <= MOST_DECIMALS and int(whole + decimals) <= GREATEST_MANTISSA:
            return f"{whole}.{decimals}" if decimals else whole
    raise LeftOut("with a resolution that a table can't express")


def offset_of(number):
    if number == number.to_integral_value() and LEAST_OFFSET <= number <= GREATEST_OFFSET:
        return int(number)
    raise LeftOut("with an offset that a table can't express")


def match_of(given):
    """The raw value of a match: unsigned, also of a signed field."""
    count = 1 << given.bits
    least = -(count >> 1) if given.signed else 0
    if not least <= given.match < least + count or given.match % count > GREATEST_MATCH:
        raise LeftOut(NO_MATCH)
    return given.match % count


def unit_of(given):
    """The unit of a field. A time below 0 is not a time of day."""
    unit = given.unit if given.kind == "TIME" and given.signed else UNITS.get(given.kind, given.unit)
    return {"unit": unit} if is_text(unit) else {}


class Layout:
    """The fields of a message or of a set in order, as far as a table can express them. Each has a place in bits,
    counted from the beginning or from the end of the string before it."""

    def __init__(self, lookups, front, end, used, names):
        self.lookups, self.front, self.end, self.used, self.names = lookups, front, end, used, names
        self.fields, self.notes = [], collections.defaultdict(list)
        # The place of the next field (None if unknown), the string before it, and that string's fixed place.
        self.at, self.after, self.fixed = 0, None, 0
        self.reach = 0  # the greatest fixed place after a field
        self.behind = None  # why later fields have no place
        self.rest = None  # the place of the first field without one

    def place(self, given):
        """Where a field begins. The file's own place counts from the beginning of the message."""
        counts = self.after is None and self.front is not None and given.at is not None
        at = given.at - self.front if counts else self.at
        return None if at is not None and at < 0 else at

    def add(self, given, is_last=False):
        at = self.place(given)
        cause = self.behind or self.no_place(given, at, is_last)
        if cause is None:
            try:
                self.add_to_table(given, at, is_last)
            except LeftOut as why:
                cause = why.args[0]
        if cause and given.kind in STRINGS:
            self.ends_at(at, "after a text that is left out")
        if cause and given.has_match:
            raise LeftOut(NO_MATCH, given.called)
        if cause:
            self.leave_out(given, cause)
        if given.kind not in STRINGS:
            self.at = None if None in (at, given.bits) else at + given.bits
        if self.at is not None:
            self.reach = max(self.reach, self.fixed + self.at)

    def no_place(self, given, at, is_last):
        """Why a field cannot have its place, or what it leaves without one."""
        if given.sometimes:
            self.ends_at(at, f"after a field {(cause := 'only in some messages')}")
            return cause
        if at is None:
            return "of no fixed place"
        is_bytes = given.kind == "BINARY" and is_last and at % 8 == 0 and self.end - self.fixed - at >= 8 and not given.has_match
        if given.varies and given.kind not in STRINGS and not is_bytes:
            self.ends_at(at, f"after a field {(cause := 'of variable length')}")
            return None if given.odd else cause
        # If the length is unknown, later fields may still have a place.
        self.rest = (at, self.after, self.fixed) if given.bits is None and given.odd else None
        return None

    def ends_at(self, at, behind):
        """Records that later fields have no place: the rest begins here, unless it has begun before."""
        if self.behind is None:
            self.behind = behind
            self.rest = self.rest if at is None else (at, self.after, self.fixed)

    def leave_out(self, given, cause):
        if given.kind not in UNNAMED or given.has_match:
            self.notes[f"Left out, {cause}"].append(given.called + (f" ({given.odd})" if given.odd else ""))

    def add_to_table(self, given, at, is_last):
        """Adds the field to those of the table."""
        if given.kind in UNNAMED and not given.has_match:
            return
        if given.odd is not None:
            raise LeftOut("as odd ones")
        field, note = self.field(given, at, is_last)
        if self.after is not None:
            field["after"] = self.after
            if given.has_match:
                raise LeftOut(NO_MATCH)
        if len(self.fields) == MOST_FIELDS:
            raise LeftOut(f"past {MOST_FIELDS} fields")
        if not is_text(field["name"]):
            raise LeftOut("with a name that a table can't express")
        self.used.add(field["name"])
        self.fields.append(field)
        if note:
            self.notes[f"Printed as raw numbers, {note}"].append(quoted(field["name"]))
        if given.kind in STRINGS:
            self.at, self.after, self.fixed = 0, field["name"], self.fixed + at

    def field(self, given, at, is_last):
        """The field for the table, and why it contains less than the file's."""
        field = {"name": self.free_name(given.name), "kind": "number", "at": at}
        if given.kind in KEYED:
            raise LeftOut("as part of a key and its value")
        if given.kind == "FLOAT":
            raise LeftOut("as a floating-point number")
        if given.kind in STRINGS:
            if at % 8:
                raise LeftOut("as a text that is not on whole bytes")
            if self.fixed + at > LONGEST_MESSAGE - 8:
                raise LeftOut("past the longest message")
            return field | {"kind": "string", "form": STRINGS[given.kind]}, None
        bits = given.bits or self.end - self.fixed - at
        is_whole, room = at % 8 == 0 and bits % 8 == 0, LONGEST_MESSAGE - self.fixed - at
        if given.kind in WHOLE:
            if not is_whole:
                raise LeftOut("as a text that is not on whole bytes" if given.kind == "STRING_FIX" else "as digits that are not on whole bytes")
            field["kind"] = WHOLE[given.kind]
        elif given.kind == "BINARY" and is_whole and not given.has_match:
            field["kind"] = "bytes"
        # The last field shows as many bytes as there are.
        if is_last and field["kind"] in ("text", "bytes") and room >= 8:
            field["short"], bits = True, min(bits, room - room % 8)
        if bits > room:
            raise LeftOut("past the longest message")
        field["bits"] = bits
        if given.has_match and field["kind"] != "number":
            raise LeftOut(NO_MATCH)
        if field["kind"] != "number":
            return field, None
        note = self.number(field, given)
        if given.has_match:
            field["match"] = match_of(given)
        return field, note

    def number(self, field, given):
        """Makes the field a number, flags or a lookup field; returns why it contains less than the file's."""
        note = RAW.get(given.kind)
        if given.kind in ("LOOKUP", "BITLOOKUP"):
            named = self.lookups.get((given.kind, given.names))
            if named is not None and given.bits <= (32 if given.kind == "LOOKUP" else 64) and not (given.has_match and given.kind == "BITLOOKUP"):
                field |= {"kind": "lookup" if given.kind == "LOOKUP" else "flags", "lookup": named}
                return None
            note = "since a table can't say the lookup"
        if given.bits > 64:
            raise LeftOut("of more than 64 bits")
        if given.kind in NUMBERS:
            if given.signed and given.bits < 2:
                raise LeftOut("with one bit and a sign")
            # A value with an offset is unsigned.
            if given.offset:
                field["offset"] = offset_of(given.offset)
            elif given.signed:
                field["signed"] = True
            if (resolution := resolution_text(given.resolution)) != "1":
                field["resolution"] = resolution
            field |= unit_of(given)
        return note

    def free_name(self, name):
        """The name; if it is in use, the name with the lowest free number."""
        if name not in self.used:
            return name
        return next(new for at in itertools.count(2) if (new := f"{name} {at}") not in self.used and new not in self.names)

    def add_rest(self):
        """Adds the bytes of the fields without a place, as far as the data contain them."""
        if self.rest is None or len(self.fields) == MOST_FIELDS:
            return
        at, after, fixed = self.rest
        at += -at % 8
        if self.end - fixed - at >= 8:
            self.fields.append({"name": self.free_name("Data"), "kind": "bytes", "at": at, "bits": self.end - fixed - at,
                                **({"after": after} if after else {}), "short": True})


# ---- From messages of the file to messages of the table ----

class Maker:
    """Makes the messages of a table, and keeps what they share."""

    def __init__(self, lookups, counts):
        self.lookups, self.counts = lookups, counts
        self.packets = {}  # the kind of each PGN
        self.indirect = collections.defaultdict(dict)  # the fields whose names depend on other fields, by their list

    def definition(self, packet, given, repeat, is_last):
        """The fields and the sets of a message, and the notes on them."""
        end = FRAME if packet == "Single" else LONGEST_MESSAGE
        own = given[:repeat.start] if repeat else given
        # The member `list` of the JSON line contains the sets.
        layout = Layout(self.lookups, 0, end, {"list"} if repeat else set(), {field.name for field in own})
        for field in own:
            layout.add(field, is_last=field is given[-1])
        sets = {}
        if repeat:
            repeated, rest = given[repeat.start:repeat.stop], given[repeat.stop:]
            if any(field.has_match for field in (*repeated, *rest)):
                raise LeftOut(NO_MATCH, next(field.called for field in (*repeated, *rest) if field.has_match))
            try:
                sets = {"repeat": self.set(layout, repeated, is_last)}
            except LeftOut as why:
                if layout.behind is None:
                    layout.ends_at(layout.place(repeated[0]), "after a set that repeats")
                for field in repeated:
                    layout.leave_out(field, why.args[0])
            for field in rest:
                layout.leave_out(field, layout.behind)
        layout.add_rest()
        return {"fields": layout.fields, **sets}, layout.notes

    def set(self, layout, repeated, is_last):
        """The sets after the fields of this layout, or why a table cannot express them."""
        at = layout.place(repeated[0])
        if layout.behind or at is None:
            raise LeftOut(layout.behind or "of no fixed place")
        within = Layout(self.lookups, at if layout.after is None else None, LONGEST_MESSAGE, set(), {field.name for field in repeated})
        for field in repeated:
            within.add(field)
        strings = any(field["kind"] == "string" for field in within.fields)
        if within.behind or within.at is None or within.reach == 0 and not strings:
            raise LeftOut("in a set that repeats and has no fixed length")
        if not is_last:
            raise LeftOut("in a set that repeats and does not end the message")
        if at % 8 or within.reach % 8:
            raise LeftOut("in a set that repeats and is not on whole bytes")
        if layout.fixed + at + within.reach > LONGEST_MESSAGE or at == LONGEST_MESSAGE:
            raise LeftOut("past the longest message")
        for note, fields in within.notes.items():
            layout.notes[note] += fields
        return {"at": at, **({"after": layout.after} if layout.after else {}), "bits": within.reach, "fields": within.fields}

    def message(self, number, description, packet, given, repeat, is_last):
        if number > GREATEST_PGN or not is_text(description):
            raise LeftOut("with a number or description that a table can't express")
        kind = PACKETS[packet]
        if kind is None:
            raise LeftOut("sent as single frames and as fast packets")
        if self.packets.get(number, kind) != kind:
            raise LeftOut("sent otherwise than the PGN's first message")
        definition, notes = self.definition(packet, given, repeat, is_last)
        self.packets[number] = kind
        for field in given:
            if field.kind == "INDIRECT_LOOKUP" and field.names:
                self.indirect[field.names][field.called] = None
        return Message({"number": number, "kind": kind, "description": description, **definition}, notes)

    def part(self, value, ordinal):
        """The PGN of a message of the file, and its part of the table: a message, a comment, or nothing for a range of
        PGNs."""
        number, called = None, f"PGNs {ordinal}"
        try:
            pgn = Object(value)
            called = pgn.called(called, "Description")
            number = pgn.count("PGN")
            description = pgn.ask("Description", "a text")
            called = f"{number} {quoted(description)}"
            packet = pgn.ask("Type", "a text")
            if packet not in PACKETS:
                raise Odd(f"Type {quoted(packet)} is unknown")
            given = [read_field(field, at) for at, field in enumerate(pgn.ask("Fields", "a list", []), 1)]
            repeat, is_last = set_of(pgn, len(given))
            if pgn.ask("Fallback", "true or false", False):
                self.counts["messages left out, as they stand for a range (Fallback)"] += 1
                return number, None
            message = self.message(number, description, packet, given, repeat, is_last)
        except Odd as why:
            self.counts["messages left out, as odd ones"] += 1
            return number, f"Left out, odd: {called} ({why})."
        except LeftOut as why:
            self.counts[f"messages left out, {why.args[0]}"] += 1
            field = f" (its field {why.args[1]})" if why.args[1:] else ""
            return number, f"Left out, {why.args[0]}: {called}{field}."
        for note, names in message.notes.items():
            self.counts[f"fields {note[0].lower()}{note[1:]}"] += len(names)
        return number, message


def named_lookups(lookups, messages, counts):
    """The lookups that fields name, without greatest values that only mean "not available"."""
    lengths = collections.defaultdict(set)
    for message in messages:
        for field in message.all_fields():
            if "lookup" in field:
                lengths[field["lookup"]].add(field["bits"] if field["kind"] == "lookup" else 0)
    named = {}
    for name, entries in lookups.items():
        if name in lengths:
            # The greatest value of one bit is never absent.
            greatest = {(1 << bits) - 1 for bits in lengths[name] if bits >= 2}
            none = {value for value in greatest if entries.get(value, "").lower() in NONE}
            counts["names of values left out, since they say that there is none"] += len(none)
            named[name] = {value: said for value, said in entries.items() if value not in none}
    return named


def indirect_comment(name, fields, names):
    """The names of a list that depend on two fields."""
    said = ", ".join(f"{first} {second} {quoted(said)}" for (first, second), said in sorted(names.items()))
    return f"Names of {', '.join(fields)}, by the field on which they depend and by its own value ({quoted(name)}): {said or 'none'}."


def table_of(value):
    """The table made of the file."""
    if not isinstance(value, dict) or not {"PGNs", "LookupEnumerations"} <= value.keys():
        raise BadInput("this is not canboat.json of version 4 to 6: it has no PGNs or no LookupEnumerations")
    top, left_out, counts = Object(value), [], collections.Counter()
    by_value = read_names(top, "", ["Value"], left_out)
    by_bit = read_names(top, "Bit", ["Bit"], left_out)
    indirect = read_names(top, "Indirect", ["Value1", "Value2"], left_out)
    lookups = {name: {value: said for (value,), said in names.items()} for name, names in by_value.items()}
    named = {("LOOKUP", name): name for name in by_value}
    for name, names in by_bit.items():
        named["BITLOOKUP", name] = own = next(new for new in itertools.chain([name], (f"{name[:200]} {at}" for at in itertools.count(2)))
                                              if new not in lookups)
        lookups[own] = {bit: said for (bit,), said in names.items()}
    counts.update(cause for _, cause in left_out)
    maker = Maker(named, counts)
    by_number = collections.defaultdict(list)
    try:
        pgns = top.ask("PGNs", "a list")
    except Odd as why:
        raise BadInput(f"this is not canboat.json of version 4 to 6: {why}") from None
    for ordinal, pgn in enumerate(pgns, 1):
        number, part = maker.part(pgn, ordinal)
        if part is not None:
            by_number[number].append(part)
    # The first definition that matches is chosen, so those with more matches come first.
    parts = []
    for of_one in by_number.values():
        parts += [part for part in of_one if isinstance(part, str)]
        parts += sorted((part for part in of_one if isinstance(part, Message)), key=lambda message: -message.matches())
    table = Table(parts, {}, [comment for comment, _ in left_out if comment], counts)
    table.lookups = named_lookups(lookups, table.messages(), counts)
    table.comments += [indirect_comment(name, fields, indirect.get(name, {})) for name, fields in maker.indirect.items()]
    if len(table.messages()) > MOST_DEFINITIONS or len(table.lookups) > MOST_LOOKUPS:
        raise BadInput(f"more than {MOST_DEFINITIONS} messages or {MOST_LOOKUPS} lookups, which a table can't hold")
    return table


# ---- The table as a text ----

def comment(text):
    return textwrap.wrap(text, 120, initial_indent="# ", subsequent_indent="# ", break_long_words=False,
                         break_on_hyphens=False)


def message_lines(message):
    notes = [comment(f"{note}: {', '.join(fields)}.") for note, fields in message.notes.items()]
    return [*itertools.chain(*notes), *table_text.definition_lines(message.definition)]


def head(value):
    """The file's own description, as comments."""
    lines = comment("canboat's PGN database, made a table by tools/from_canboat.py. Where the greatest value of a lookup only "
                    "says that there is none, it has no name here.")
    for name in ("Version", "License", "Copyright"):
        said = value.get(name)
        for line in said.split("\n") if isinstance(said, str) and is_unicode(said) else []:
            if line.strip():
                lines += comment(f"{name}: {quoted(line.strip())[1:-1]}")
    return lines


def table_as_text(value, table):
    paragraphs = [head(value) + ["format = 3"]]
    paragraphs += [comment(part) if isinstance(part, str) else message_lines(part) for part in table.parts]
    paragraphs += [table_text.lookup_lines(name, names) for name, names in table.lookups.items()]
    text = table_text.text_of(paragraphs + list(map(comment, table.comments)))
    if len(text.encode()) > LONGEST_FILE:
        raise BadInput(f"the table would have more than {LONGEST_FILE} bytes")
    return text


def summary(table):
    messages = table.messages()
    fields = sum(len(message.all_fields()) for message in messages)
    sets = sum("repeat" in message.definition for message in messages)
    lines = [f"messages {len(messages)} fields {fields} sets {sets} lookups {len(table.lookups)}"]
    return lines + [f"{cause}: {count}" for cause, count in sorted(table.counts.items()) if count]


def made_of(path, compared):
    """The requested text, and the summary of the table."""
    try:
        with open(path, "rb") as file:
            value = parse(file.read())
        table = table_of(value)
        text = table_as_text(value, table)
    except BadInput as error:
        raise BadInput(f"{path}: {error}") from None
    return differences.text(text, path, compared) if compared else text, summary(table)


def write(text):
    """Writes text to standard output, without a buffer that would retry at exit."""
    rest = text.encode()
    with open(sys.stdout.fileno(), "wb", buffering=0, closefd=False) as output:
        while rest:
            rest = rest[output.write(rest):]


def main():
    words = argparse.ArgumentParser(description=__doc__, formatter_class=argparse.RawDescriptionHelpFormatter)
    words.add_argument("--compare", metavar="TABLE")
    words.add_argument("file", metavar="canboat.json")
    asked = words.parse_args()
    try:
        text, said = made_of(asked.file, asked.compare)
        write(text)
    except (BadInput, differences.NoTable, OSError) as error:
        sys.exit(f"from_canboat: {error}")
    print("\n".join(said), file=sys.stderr)


if __name__ == "__main__":
    main()
