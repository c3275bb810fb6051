"""Writes the text of a table of format 3: definitions and lookups as lines of TOML, always in the same form."""

FIELD_KEYS = ("name", "kind", "at", "bits", "after", "form", "signed", "resolution", "offset", "unit", "lookup", "match", "short")
ESCAPES = {chr(code): f"\\u{code:04X}" for code in (*range(32), 127)} | {'"': '\\"', "\\": "\\\\"}


def quoted(text):
    """A TOML string."""
    return '"' + "".join(ESCAPES.get(letter, letter) for letter in text) + '"'


def pairs(table, keys):
    """Those of these keys that a table has, each with its value."""
    return [f"{key} = {quoted(table[key]) if isinstance(table[key], str) else str(table[key]).lower()}"
            for key in keys if key in table]


def fields_lines(fields):
    return ["fields = [", *(f"  {{ {', '.join(pairs(field, FIELD_KEYS))} }}," for field in fields), "]"] if fields else ["fields = []"]


def definition_lines(definition):
    lines = ["[[pgn]]", *pairs(definition, ("number", "kind", "description")), *fields_lines(definition["fields"])]
    if "repeat" in definition:
        repeat = definition["repeat"]
        lines += ["[pgn.repeat]", *pairs(repeat, ("at", "after", "bits")), *fields_lines(repeat["fields"])]
    return lines


def lookup_lines(name, names):
    """A lookup with these names by value."""
    entries = [f"[{value}, {quoted(said)}]" for value, said in names.items()]
    line = f"entries = [{', '.join(entries)}]"
    lines = [line] if len(line) <= 120 else ["entries = [", *(f"  {entry}," for entry in entries), "]"]
    return ["[[lookup]]", f"name = {quoted(name)}", *lines]


def text_of(paragraphs):
    """Paragraphs of lines, with an empty line between two."""
    return "\n\n".join("\n".join(lines) for lines in paragraphs) + "\n"
