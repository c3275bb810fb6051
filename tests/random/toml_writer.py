"""Writes trees as TOML in random spellings, and records the line of each key, element and table; and damages texts.

For random_tables.py (Python 3.11 or newer).
"""
import re

BARE = re.compile(r"[A-Za-z0-9_-]+")
ESCAPES = {"\b": "\\b", "\t": "\\t", "\n": "\\n", "\f": "\\f", "\r": "\\r", '"': '\\"', "\\": "\\\\"}
COMMENTS = ["", " a comment", " é # \"'[{=", "\tx = 1", '"""', "]"]


class Raw:
    """A value with its spelling."""

    def __init__(self, spelling, value):
        self.spelling, self.value = spelling, value


class Writer:
    """Writes one tree. `keys` contains the lines of keys and elements by their path, `begins` those of tables.

    `wild` is how often a spelling differs from the plainest, 0 to 1; with `newest` it may be one of TOML 1.1.
    """

    def __init__(self, rng, wild, newest):
        self.rng, self.wild, self.newest = rng, wild, newest
        self.newline = "\r\n" if self.is_wild() and rng.random() < 0.3 else "\n"
        self.pieces, self.line, self.keys, self.begins = [], 1, {}, {}
        self.ends = {}  # the last lines of values with a spelling of their own

    def is_wild(self):
        return self.rng.random() < self.wild

    def put(self, text):
        self.pieces.append(text)
        self.line += text.count("\n")

    def document(self, tree):
        if self.is_wild() and self.rng.random() < 0.2:
            self.put("\ufeff")
        self.begins[()] = 1
        self.table(tree, (), [])
        text = "".join(self.pieces)
        return text[:len(text) - len(self.newline)] if self.is_wild() and text.endswith(self.newline) else text

    # ---- Blanks ----

    def spaces(self, usual=""):
        self.put(self.rng.choice(["", " ", "\t", "  \t"]) if self.is_wild() else usual)

    def end_line(self):
        if self.is_wild():
            self.put(self.rng.choice([" ", "", "\t"]) + ("#" + self.rng.choice(COMMENTS)) * self.rng.randint(0, 1))
        self.put(self.newline)
        while self.is_wild() and self.rng.random() < 0.3:
            self.put(self.rng.choice(["", "  ", "#" + self.rng.choice(COMMENTS)]) + self.newline)

    def blank(self, usual=""):
        """A separator that may contain line breaks."""
        if self.is_wild():
            self.end_line() if self.rng.random() < 0.5 else self.spaces()
        else:
            self.put(usual)

    # ---- Tables and pairs ----

    def table(self, table, path, parts):
        """A table's pairs, then the tables below it that have headers. `parts` are its key's parts and their paths."""
        pairs, below = {}, []
        for key in self.order(table):
            value = table[key]
            is_array = isinstance(value, list) and value and all(isinstance(item, dict) for item in value)
            is_plain = isinstance(value, dict) or not path
            if (is_array or isinstance(value, dict)) and self.is_wild() != is_plain:
                below.append((key, is_array))
            else:
                pairs[key] = value
        self.pairs(pairs, path, [])
        for key, is_array in below:
            of_key = [*parts, (key, (*path, key))]
            for at, item in enumerate(table[key] if is_array else [table[key]]):
                of_item = (*path, key, at) if is_array else (*path, key)
                self.header(of_key, of_item, is_array)
                self.table(item, of_item, of_key)

    def order(self, table):
        keys = list(table)
        if self.is_wild():
            self.rng.shuffle(keys)
        return keys

    def header(self, parts, path, is_array):
        self.blank_line()
        self.begins[path] = self.line
        if is_array:
            self.keys[path] = self.line
        self.put("[[" if is_array else "[")
        for at, (key, of_key) in enumerate(parts):
            self.put("." if at else "")
            self.spaces()
            self.keys.setdefault(of_key, self.line)
            self.key(key)
            self.spaces()
        self.put("]]" if is_array else "]")
        self.end_line()

    def blank_line(self):
        self.put(self.newline)
        if self.is_wild():
            self.spaces()

    def pairs(self, pairs, path, before):
        for key in pairs:
            value = pairs[key]
            if isinstance(value, dict) and value and self.is_wild():
                self.dotted(pairs[key], (*path, key), [*before, (key, (*path, key))], self.end_line)
            else:
                self.pair(before, key, value, path)
                self.end_line()

    def dotted(self, table, path, before, after):
        """The pairs of a table that is written with dotted keys."""
        self.begins[path] = self.line
        for key, value in table.items():
            if isinstance(value, dict) and value and self.is_wild():
                self.dotted(value, (*path, key), [*before, (key, (*path, key))], after)
            else:
                self.pair(before, key, value, path)
                after()

    def pair(self, before, key, value, path):
        for part, of_part in before:
            self.keys.setdefault(of_part, self.line)
            self.key(part)
            self.spaces()
            self.put(".")
            self.spaces()
        self.keys[(*path, key)] = self.line
        self.key(key)
        self.spaces(" ")
        self.put("=")
        self.spaces(" ")
        self.value(value, (*path, key))

    def key(self, key):
        if BARE.fullmatch(key) and not (self.is_wild() and self.rng.random() < 0.4):
            self.put(key)
        elif "'" not in key and key.isprintable() and self.rng.random() < 0.5:
            self.put(f"'{key}'")
        else:
            self.put('"' + self.escaped(key, '"') + '"')

    # ---- Values ----

    def value(self, value, path):
        if isinstance(value, Raw):
            self.put(value.spelling)
            self.ends[path] = self.line
        elif isinstance(value, bool):
            self.put("true" if value else "false")
        elif isinstance(value, int):
            self.put(self.integer(value))
        elif isinstance(value, str):
            self.text(value)
        elif isinstance(value, list):
            self.array(value, path)
        else:
            self.inline(value, path)

    def integer(self, value):
        ways = [str(value)]
        if value >= 0 and self.is_wild():
            digits = [f"{value:X}", f"{value:o}", f"{value:b}"]
            ways += ["0x" + "0" * self.rng.randint(0, 2) + digits[0], "0x" + digits[0].lower(), "0o" + digits[1],
                     "0b" + digits[2], f"+{value}", f"{value:_}"]
        return self.rng.choice(ways)

    def escaped(self, text, always):
        letters = []
        for letter in text:
            code = ord(letter)
            if letter in always or letter == "\\" or code < 32 or code == 127 or self.is_wild() and self.rng.random() < 0.1:
                ways = [f"\\u{code:04x}" if code < 0x10000 else f"\\U{code:08X}"]
                ways += [ESCAPES[letter]] * 2 if letter in ESCAPES else []
                if self.newest:
                    ways += [f"\\x{code:02x}"] if code < 256 else []
                    ways += ["\\e"] if code == 27 else []
                letters.append(self.rng.choice(ways))
            else:
                letters.append(letter)
        return "".join(letters)

    def text(self, text):
        is_plain = not re.search("[\0-\x08\x0b-\x1f\x7f]", text)
        ways = ["basic"] * (1 if self.is_wild() else 9)
        ways += ["literal"] if is_plain and "'" not in text and "\n" not in text else []
        ways += ["lines"] if self.is_wild() else []
        ways += ["literal lines"] if is_plain and "'" not in text and self.is_wild() else []
        way = self.rng.choice(ways)
        front = self.rng.choice(["", "\n"]) if not text.startswith("\n") else "\n"
        if way == "basic":
            self.put('"' + self.escaped(text, '"') + '"')
        elif way == "literal":
            self.put(f"'{text}'")
        elif way == "literal lines":
            self.put(f"'''{front}{text}'''")
        else:
            cut = self.rng.randint(0, len(text))
            if re.match("[ \t\n]", text[cut:]):
                cut = len(text)
            inside = self.many_lines(text[:cut]) + "\\" + self.rng.choice(["\n", " \n\t\n "]) + self.many_lines(text[cut:])
            self.put(f'"""{front}{inside}"""')

    def many_lines(self, text):
        """A multi-line spelling; some newlines are written as such."""
        return "\n".join(self.escaped(line, '"') for line in text.split("\n")) if self.rng.random() < 0.5 else \
            self.escaped(text, '"')

    def array(self, array, path):
        self.put("[")
        for at, item in enumerate(array):
            self.put("," if at else "")
            self.blank(" " if at else "")
            if isinstance(item, dict):
                self.put(self.newline + "  ")
            self.keys[(*path, at)] = self.line
            self.value(item, (*path, at))
            self.blank()
        if array and self.is_wild():
            self.put(",")
        self.blank(self.newline if array and isinstance(array[0], dict) else "")
        self.put("]")

    def inline(self, table, path):
        self.begins[path] = self.line
        blank = self.blank if self.newest else self.spaces
        self.put("{")
        for at, key in enumerate(self.order(table)):
            self.put("," if at else "")
            blank(" ")
            if isinstance(table[key], dict) and table[key] and self.is_wild():
                self.comma_between(table[key], (*path, key), [(key, (*path, key))])
            else:
                self.pair([], key, table[key], path)
            blank()
        if table and self.newest and self.is_wild():
            self.put(",")
        blank(" " if table else "")
        self.put("}")

    def comma_between(self, table, path, before):
        """The pairs of an inline table that is written with dotted keys."""
        self.begins[path] = self.line
        for at, key in enumerate(table):
            self.put(", " if at else "")
            self.pair(before, key, table[key], path)


# ---- Damage ----

def damaged(rng, text):
    """Damaged bytes, and the first and last line of the damage; None if it is not in one place."""
    at = rng.randrange(len(text) + 1)
    line = text.count("\n", 0, at) + 1
    letter = rng.choice(list("\"'[]{}=,.#\\_+-:e0") + ["\n", "\t", " ", "\r", "\0", "\x7f", "é", '"""', "'''", "[[", "\ufeff"])
    way = rng.choice(["insert", "insert", "remove", "remove", "replace", "bracket", "bracket", "end", "bytes", "line", "twice"])
    if way == "insert":
        return (text[:at] + letter + text[at:]).encode(), (line, line + letter.count("\n"))
    if way == "bracket" and (places := [m.start() for m in re.finditer("[][{}=,\"']", text)]):
        at = rng.choice(places)
        line = text.count("\n", 0, at) + 1
        return (text[:at] + text[at + 1:]).encode(), (line, line)
    if way == "replace" and at < len(text):
        return (text[:at] + letter + text[at + 1:]).encode(), (line, line + letter.count("\n"))
    if way == "end":
        return text[:at].encode(), (line, line)
    if way == "bytes":
        return text[:at].encode() + rng.choice([b"\xff", b"\xc3", b"\xed\xa0\x80", b"\x80"]) + text[at:].encode(), (line, line)
    lines = text.splitlines(keepends=True) if way in ("line", "twice") else []
    if len(lines) > 1:
        at = rng.randrange(len(lines))
        lines[at:at + 1] = [lines[at]] * 2 if way == "twice" else []
        return "".join(lines).encode(), None
    return (text[:at] + text[at + 1:]).encode(), (line, line)
