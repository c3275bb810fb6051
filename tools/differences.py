"""Lists the differences between two tables, message by message, for from_canboat.py --compare."""
import collections
import decimal
import json
import os

import table_rules


class Differences:
    """Collects the lines; each line describes the first table, then the second."""

    def __init__(self, first, second, names):
        self.first, self.second, self.names = first, second, names
        self.entries = [{lookup["name"]: dict(map(tuple, lookup["entries"])) for lookup in table.get("lookup", [])}
                        for table in (first, second)]
        self.seen = {}  # compared pairs of lookups, by message
        self.counts = collections.Counter()

    def lines(self):
        by_number = [collections.defaultdict(list), collections.defaultdict(list)]
        for table, numbers in zip((self.first, self.second), by_number):
            for message in table.get("pgn", []):
                numbers[message["number"]].append(message)
        lines = []
        for number in sorted(by_number[0] | by_number[1]):
            ones, others = by_number[0][number], by_number[1][number]
            for pair in pairs_of(as_one(ones, others), as_one(others, ones), MESSAGE_KEYS):
                lines += self.message_lines(number, *pair)
        return lines

    def message_lines(self, number, first, second):
        title = f"{number} {quoted((first or second)['description'])}"
        if first is None or second is None:
            self.counts[name := self.names[first is None]] += 1
            return [f"{title}: only in {name}"]
        lines = self.value_lines("", first, second, ("kind", "description"))
        lines += self.field_lines(title, "", first["fields"], second["fields"])
        sets = first.get("repeat"), second.get("repeat")
        if all(sets):
            lines += self.value_lines("the set: ", *sets, ("at", "bits", "after"))
            lines += self.field_lines(title, "the set: ", sets[0]["fields"], sets[1]["fields"])
        elif any(sets):
            lines.append(f"  its set: only in {self.names[sets[0] is None]}")
        self.counts["differ" if lines else "equal"] += 1
        return [title, *lines] if lines else []

    def field_lines(self, title, place, first, second):
        lines = []
        for one, other in pairs_of(first, second, FIELD_KEYS):
            if one is None or other is None:
                field = one or other
                bits = f", bits {field['bits']}" if "bits" in field else ""
                lines.append(f"  {place}{quoted(field['name'])} at {field['at']}{bits}: "
                             f"only in {self.names[one is None]}")
                continue
            of = f"{place}{quoted(one['name'])}: "
            lines += self.value_lines(of, one, other, ("name", "kind", "at", "bits", "after", "form", "signed", "resolution", "offset",
                                                     "short", "match"))
            if "lookup" in one and "lookup" in other:
                lines += self.lookup_lines(title, of, one["lookup"], other["lookup"])
        return lines

    def value_lines(self, of, first, second, keys):
        """One line for each key that differs; `of` names the holder of the keys."""
        return [f"  {of}{key} {shown(first, key)}, in {self.names[1]} {shown(second, key)}"
                for key in keys if meant(first, key) != meant(second, key)]

    def lookup_lines(self, title, of, first, second):
        """The differences between the names of values; a pair of lookups is listed at its first message."""
        ones, others = self.entries[0][first], self.entries[1][second]
        if ones == others:
            return []
        if (first, second) in self.seen:
            return [f"  {of}values as in {self.seen[first, second]}"]
        self.seen[first, second] = title
        lines = [f"  {of}value {value} {quoted(ones[value])}, in {self.names[1]} {quoted(others[value])}"
                 for value in sorted(ones.keys() & others.keys()) if ones[value] != others[value]]
        for name, here, there in zip(self.names, (ones, others), (others, ones)):
            alone = [f"{value} {quoted(here[value])}" for value in sorted(here.keys() - there.keys())]
            lines += [f"  {of}values only in {name}: {', '.join(alone)}"] if alone else []
        return lines


def quoted(text):
    return json.dumps(text, ensure_ascii=False)


def meant(holder, key):
    """The meaning of a key's value: 0.10 is 0.1."""
    if key == "resolution":
        return decimal.Decimal(holder.get(key, "1"))
    return holder.get(key, {"signed": False, "short": False, "offset": 0}.get(key))


def shown(holder, key):
    if key not in holder:
        return {"signed": "false", "resolution": "1"}.get(key, "none")
    return quoted(holder[key]) if key in ("name", "description", "after") else str(holder[key]).lower()


def matches(message):
    return sorted((field["at"], field["bits"], field["match"]) for field in message["fields"] if "match" in field)


def values(*keys):
    """Returns a function that reads the values of these keys."""
    return lambda holder: [holder[key] for key in keys]


def as_one(messages, others):
    """The messages of a PGN. If the other table has only one message of a description, only the one with the fewest
    matches is kept."""
    counts = collections.Counter(message["description"] for message in others)
    chosen = {}
    for message in messages:
        key = message["description"] if counts[message["description"]] == 1 else id(message)
        chosen[key] = min(chosen.get(key, message), message, key=lambda message: len(matches(message)))
    return list(chosen.values())


# What identifies a message of a PGN, and a field of a message, in both tables: the first key that matches counts.
MESSAGE_KEYS = (lambda message: (matches(message), message["description"]), matches, values("description"))
FIELD_KEYS = (values("name", "at"), values("name"), values("at"))


def pairs_of(first, second, keys):
    """Pairs the items of two lists: items that agree in the first key, else in the next, else with None."""
    partners, left = {}, list(range(len(second)))
    for key in keys:
        for at, item in enumerate(first):
            other = next((other for other in left if key(second[other]) == key(item)), None)
            if at not in partners and other is not None:
                partners[at] = other
                left.remove(other)
    pairs = [(item, second[partners[at]] if at in partners else None) for at, item in enumerate(first)]
    return pairs + [(None, second[other]) for other in left]


class NoTable(Exception):
    """Why a file is not a table."""


def text(first, first_name, second_name):
    """The differences between a table, given as text, and a file's table, and how many messages they concern."""
    with open(second_name, "rb") as file:
        try:
            second = table_rules.tree(file.read())
        except table_rules.NotToml as error:
            raise NoTable(f"{second_name}: this is not TOML: {error}") from None
    names = [os.path.basename(first_name), os.path.basename(second_name)]
    if names[0] == names[1]:
        names = [first_name, second_name]
    try:
        found = Differences(table_rules.tree(first.encode()), second, names)
        lines = found.lines()
    except (KeyError, TypeError, AttributeError, ValueError, decimal.InvalidOperation):
        raise NoTable(f"{second_name}: not a table of n2kdec") from None
    counts = found.counts
    lines.append(f"equal {counts['equal']} differ {counts['differ']} "
                 f"only in {names[0]} {counts[names[0]]} only in {names[1]} {counts[names[1]]}")
    return "\n".join(lines) + "\n"
