"""Texts, times and shares in words, and lines of a given width."""
from screen import page


def text_of(value, most=40):
    """A text from the bus on one line, without control characters, and cut."""
    text = " ".join(page.CONTROLS.sub(" ", "".join(it if it.isprintable() else " " for it in str(value))).split())
    return text if len(text) <= most else text[:most - 1] + "…"


def lasts(seconds):
    """A duration."""
    if seconds < 10:
        return f"{seconds:.1f} s"
    whole = round(seconds)
    for unit, name, below, small in ((86400, "d", 3600, "h"), (3600, "h", 60, "min"), (60, "min", 1, "s")):
        if whole >= 2 * unit or whole >= unit and name != "min":
            rest = whole % unit // below
            return f"{whole // unit} {name}" + (f" {rest} {small}" if rest else "")
    return f"{whole} s"


def share(value):
    """A share in percent, with two digits."""
    percent = 100 * value
    return f"{percent:.{0 if percent >= 99.5 else 1 if percent >= 0.95 else 2}f} %"


def seldom(seconds):
    """An interval."""
    return f"{seconds:g} s" if seconds < 100 else lasts(seconds)


def many(count, one, more=None):
    return f"{count:,} {one if count == 1 else more or one + 's'}"


def wrapped(text, width, first="", rest=None):
    """A text in lines of this width, cut between words, and inside words that are too long."""
    rest = " " * len(first) if rest is None else rest
    line, lines = first, []
    for word in text.split():
        while len(rest) + len(word) > width:
            room = width - len(line) - (line not in (first, rest))
            if room < 8:
                lines.append(line)
                line = rest
                continue
            line += (" " if line not in (first, rest) else "") + word[:room]
            word = word[room:]
            lines.append(line)
            line = rest
        if line in (first, rest) or len(line) + 1 + len(word) <= width:
            line += ("" if line in (first, rest) else " ") + word
        else:
            lines.append(line)
            line = rest + word
    return [*lines, line] if line.strip() else lines
