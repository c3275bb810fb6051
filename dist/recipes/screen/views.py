"""The views. A row is a list of pieces: column, text, style."""
import sys
import time

from screen import page
from screen.terminal import cut

NARROW = 60  # columns below which a row is two
MOST_ALIKE = 3  # alarms of one device, message and field that are shown


def seconds_of(value):
    """A duration, briefly."""
    return f"{value:.0f} s" if value < 10000 else f"{value / 3600:.0f} h"


def age_of(often, now):
    """How late something is, or, once that lapsed, since when, with a style; or None."""
    if late := often.late(now):
        return seconds_of(late), "alarm"
    return (f"last {page.clock(often.last, '%H:%M')}", "dim") if often.silent(now) else None


def rate_of(often, now):
    """A rate in words: times a second, or every so many seconds."""
    value = often.each_second(now)
    if value >= 0.995:
        return f"{value:,.1f}/s"
    return f"each {1 / value:,.1f} s" if value > 0.1 else f"each {1 / value:,.0f} s" if value > 0 else ""


def old(bus, width):
    """For the end of a title: how old the values are, if the screen can't keep up."""
    text = f"{seconds_of(bus.behind)} old"
    return [(width - 1 - len(text), text, "alarm")] if bus.behind else []


def fits(text, words):
    """Whether a text contains all words."""
    text = text.lower()
    return all(word in text for word in words)


class View:
    """A view: its rows, shown from `top` on."""

    nothing = "Nothing has come yet."

    def __init__(self):
        # The first row that is shown, and whether a key has opened what is folded: the sets of lists, the senders of a PGN.
        self.top, self.is_open = 0, False

    def head(self, width):
        """The title above the rows, or None."""

    def rows(self, bus, now, width, words):
        """All rows, or the values of which `row` draws each."""

    def row(self, bus, now, width, it):
        return it

    def pieces(self, bus, now, fresh, width, height, words):
        """The rows shown, and their place among all."""
        rows = self.rows(bus, now, width, words)
        self.top = max(0, min(self.top, len(rows) - height))
        shown = [self.row(bus, now, width, it) for it in rows[self.top:self.top + height]]
        return shown, self.top, self.top + len(shown), len(rows)

    def move(self, by, height):
        self.top = max(0, self.top + by)

    def home(self):
        self.top = 0

    def end(self):
        self.top = sys.maxsize


class Values(View):
    """The last values, by device and message."""

    name = "Values"

    def __init__(self):
        super().__init__()
        self.known, self.version, self.list, self.again = None, None, [], 0.0

    def rows(self, bus, now, width, words):
        # Which rows there are changes seldom, unless values are filtered; where it takes long, it is looked at less often.
        known, began = (bus, words, width < NARROW, self.is_open), time.monotonic()
        if known != self.known or (words or self.is_open or bus.version != self.version) and began > self.again:
            self.known, self.version, self.list = known, bus.version, self.made(bus, width < NARROW, words, self.is_open)
            self.again = began + 20 * (time.monotonic() - began)
        return self.list

    @staticmethod
    def made(bus, is_narrow, words, is_open):
        rows, before = [], None
        for message in sorted(bus.messages.values(), key=lambda it: it.order):
            names = list(message.fields)
            if words:
                label = f"device {message.sender} {bus.device(message.sender)} {message.pgn} {message.title} "
                if not fits(label, words):
                    names = [name for name in names if fits(f"{label}{name} {message.shown(name)}", words)]
            if not names:
                continue
            if message.title_of != before:
                before = message.title_of
                rows.append((None, before))
            if is_narrow:
                rows.append((message, None))
            for name in names:
                rows.append((message, name))
                value = message.fields[name][0]
                if is_open and type(value) is list and page.is_sets(value):
                    rows += [(message, (name, place, field)) for place, one in enumerate(value) for field in one]
        return rows

    def pieces(self, bus, now, fresh, width, height, words):
        rows = self.rows(bus, now, width, words)
        self.top = max(0, min(self.top, len(rows) - height))
        shown, before, nth = [], None, 0
        for at in range(self.top, min(self.top + height, len(rows))):
            message, name = rows[at]
            if not shown and message:
                # The device of what stands on top.
                shown.append(self.device(bus, now, width, *message.title_of))
            elif not message:
                shown.append(self.device(bus, now, width, *name))
            else:
                nth = nth + 1 if message is before else 0
                is_last = at + 1 == len(rows) or rows[at + 1][0] is not message
                shown.append(self.value(bus, now, fresh, width, message, name, nth, is_last))
                before = message
        return shown, self.top, self.top + len(shown), len(rows)

    @staticmethod
    def device(bus, now, width, part, sender):
        if part < 0:
            return [(0, "Own boat", "title"), *old(bus, width)]
        told, rate = bus.device(sender), rate_of(bus.devices[sender], now)
        title = f"Device {sender}{f': {told}' if told else ''}{('', ', other ships', ', bus and settings')[part]}"
        return [(0, title, "title"), *(old(bus, width) or [(width - 1 - len(rate), rate, "dim")])]

    @staticmethod
    def value(bus, now, fresh, width, message, name, nth, is_last):
        """The row of a message, the nth of those shown."""
        age = [(width - 1 - len(text), text, style) for text, style in [age_of(message, now)]] if nth == 0 and message.silent(now) else []
        # Of the own boat each message says who sends it.
        front = f"{message.sender:3} " if message.title_of[0] < 0 else ""
        if name is None:
            return [(1, front + message.title, "plain"), *age]
        value, since = message.fields[name if type(name) is str else name[0]]
        text = message.shown(name)
        if type(name) is not str:
            name = f"  {name[1] + 1} {name[2]}"
        style = "dim" if value is None or bus.behind or message.silent(now) and not message.late(now) else "fresh" if -1 < now - since < fresh else "plain"
        if width < NARROW:
            # A value has room for all its signs.
            return [(2, name, "dim"), (max(4, min(2 + (width - 2) // 2, width - len(text))), text, style)]
        first, second = 1 + int(width * 0.4), 1 + int(width * 0.69)
        title, room = message.title if nth == 0 else "", first - 2 - len(front)
        if message.thing and len(message.title) > room:
            # What it speaks of tells it apart from others: that stands in the second row, where there is one.
            thing = f"({message.thing})"
            if nth == 0:
                title = message.description if not is_last else f"{cut(message.description, room - 1 - min(len(thing), 20))} {thing}"
            elif nth == 1:
                title = thing
        if title:
            title = (front if nth == 0 else " " * len(front)) + title
        return [(1, title, "plain"), (first, name, "dim"), (second, text, style), *age]


class Devices(View):
    """The devices."""

    name = "Devices"

    def head(self, width):
        if width < NARROW:
            return [(0, "adr", "head"), (5, "model", "head"), (width - 10, "messages", "head")]
        return [(0, "adr", "head"), (5, "messages", "head"), (17, "maker", "head"), (38, "model", "head"), (61, "serial number", "head"),
                *([(82, "software", "head"), (100, "class", "head")] if width > 110 else [])]

    def rows(self, bus, now, width, words):
        rows = []
        for sender in sorted({*bus.devices, *bus.broken_of}):
            product, claim = bus.products.get(sender, {}), bus.claims.get(sender, {})
            told = [claim.get("Manufacturer Code"), bus.model(sender), product.get("Model Serial Code"), product.get("Software Version Code"),
                    claim.get("Device Class")]
            maker, model, serial, software, kind = ("–" if it is None else str(it) for it in told)
            if words and not fits(f"{sender} {maker} {model} {serial} {software} {kind}", words):
                continue
            often = bus.devices.get(sender)
            rate, style = often and age_of(often, now) or (often and rate_of(often, now) or "", "plain")
            rate += " ago" if style == "alarm" else ""
            if width < NARROW:
                rows.append([(0, f"{sender:3}", "title"), (5, model, "plain"), (width - 1 - len(rate), rate, style)])
                rows.append([(5, maker, "dim"), (width - 1 - len(serial), serial, "dim")])
            else:
                rows.append([(0, f"{sender:3}", "title"), (5, rate, style), (17, maker, "plain"), (38, model, "plain"), (61, serial, "plain"),
                             *([(82, software, "dim"), (100, kind, "dim")] if width > 110 else [])])
            count, last = bus.broken_of.get(sender, (0, None))
            if count:
                rows.append([(5, f"broken {count:,}{f', last {page.when(last, last, now)}' if last is not None else ''}", "alarm")])
        return rows


class Pgns(View):
    """The PGNs that come."""

    name = "PGNs"

    def head(self, width):
        if width < NARROW:
            return [(0, "PGN", "head"), (8, "count", "head"), (20, "rate", "head"), (width - 6, "bytes", "head")]
        return [(0, "PGN", "head"), (8, "count", "head"), (20, "rate", "head"), (32, "bytes", "head"), (39, "from", "head"), (48, "message", "head")]

    def rows(self, bus, now, width, words):
        rows = []
        for number in sorted(bus.pgns):
            one = bus.pgns[number]
            if one.kind == "unknown":
                often, sender, name, style = one.frames, one.of, "not in the table", "alarm"
            else:
                often, sender, name, style = one, one.sender, one.description or "–", "plain"
            if words and not fits(f"{number} {name} {bus.device(sender)}", words):
                continue
            size = "–" if one.size is None else str(one.size)
            sender = "–" if sender is None else str(sender)
            front = [(0, f"{number}", "title"), (8, f"{often.count:,}", "plain"), (20, rate_of(often, now), "plain")]
            if width < NARROW:
                rows.append([*front, (width - 1 - len(size), size, "plain")])
                rows.append([(2, name, style), (width - 1 - len(sender) - 5, f"from {sender}", "dim")])
            else:
                rows.append([*front, (37 - len(size), size, "plain"), (39, sender, "plain"), (48, name, style)])
            for of, its in sorted(one.senders.items()) if self.is_open else ():
                # How often each sender sends it, its last bytes, and its name if they leave room.
                data = its.data.hex(" ").upper() or "–"
                often = [(2, f"{of:3}", "dim"), (8, f"{its.count:,}", "plain"), (20, rate_of(its, now), "plain")]
                if width < NARROW:
                    rows += [often, [(8, data, "dim")]]
                else:
                    rows.append([*often, (32, data, "dim"), *([(57, bus.device(of), "dim")] if len(data) < 25 else [])])
        return rows


class Alarms(View):
    """Alarms and states that are set, everything late, and those that were set."""

    name = "Alarms"
    nothing = "No alarm was set, and no message is late."

    def __init__(self):
        super().__init__()
        self.known, self.list, self.again = None, [], 0.0

    def rows(self, bus, now, width, words):
        """Each row as an entry and a place in it. If this takes long, it is repeated less often."""
        known, began = (bus, words, width < NARROW), time.monotonic()
        if known != self.known or began > self.again:
            self.known, self.list = known, [(it, row) for it in self.found(bus, now, words) for row in range(3 if width < NARROW else 2)]
            self.again = began + 20 * (time.monotonic() - began)
        return self.list

    @staticmethod
    def found(bus, now, words):
        """Entries: what, its style, of what, since when, until when. First everything set, the newest first, then late, then past ones."""
        entries = []
        for alike in (alike for kinds in bus.alarmed.values() for alike in kinds.values()):
            # Of many messages alike those that came first are shown: the others may be invented.
            wheres = sorted(alike, key=alike.get)
            entries += [(since, None, flag, *where) for where in wheres[:MOST_ALIKE] for flag, since in bus.set[where].items()]
            if len(wheres) > MOST_ALIKE:
                key, name = wheres[MOST_ALIKE]
                entries.append((max(bus.set[key, name].values()), None, f"{len(wheres) - MOST_ALIKE:,} more", (*key[:3], ""), name))
        entries.sort(key=lambda it: -it[0])
        entries += sorted(bus.over, key=lambda it: -it[1])
        found = []
        for since, until, flag, (sender, _, description, thing, *_), name in entries:
            of = f"{bus.called(sender)}: " + ", ".join(it for it in (description, thing, name) if it and it != flag)
            flag = page.with_text(bus.texts, sender, flag)
            if words and not fits(f"{flag} {of}", words):
                continue
            if until is None:
                found.append((flag, "alarm", of, f"since {page.when(since, since, now)}", ""))
            else:
                found.append((flag, "plain", of, page.when(since, since, now), f"to {page.when(until, since, now)}"))
        silent = [(not it.late(now), it.order, it) for it in bus.messages.values() if not it.part and it.silent(now)]
        for has_lapsed, _, message in sorted(silent, key=lambda it: it[:2]):
            of = f"{bus.called(message.sender)}: {message.title}"
            if not words or fits(f"late {of}", words):
                age, style = age_of(message, now)
                what = f"nothing {'since ' + age.partition(' ')[2] if has_lapsed else 'for ' + age}, before {rate_of(message, message.last)}"
                found.append((what, style, of, f"last {page.when(message.last, message.last, now)}", ""))
        return found

    def row(self, bus, now, width, it):
        (what, style, of, since, until), row = it
        if width < NARROW:
            return [(0, what, style)] if row == 0 else [(2, of, "dim")] if row == 1 else [(2, f"{since} {until}", "dim")]
        return [(0, since, "dim"), (22, what, style)] if row == 0 else [(0, until, "dim"), (22, of, "dim")]


class Lines(View):
    """The lines as they come, the last below."""

    name = "Lines"

    def __init__(self):
        super().__init__()
        self.top = None  # the number of the first line that is shown; without one the last lines are
        # The lines that are there, by number, at which of them the picture began, and how many it has.
        self.found, self.begin, self.room = [], 0, 1

    def pieces(self, bus, now, fresh, width, height, words):
        first = bus.lines - len(bus.ring) + 1
        found = [(first + at, line) for at, line in enumerate(bus.ring)]
        if words:
            found = [(number, line) for number, line in found if fits(f"{line.decode('utf-8', 'replace')} {bus.reports.get(number, '')}", words)]
        begin = len(found)
        if self.top is not None:
            begin = next((at for at, (number, _) in enumerate(found) if number >= self.top), begin)
        # A line of a frame is two rows where it is narrow.
        room = height if width >= NARROW else max(1, height // 2)
        if begin > len(found) - room:
            self.top, begin = None, max(0, len(found) - room)
        elif self.top is not None:
            self.top = found[begin][0]
        self.begin, self.found, self.room = begin, found, room
        rows = []
        for number, line in found[begin:begin + room]:
            report = bus.reports.get(number, "")
            text = line.decode("utf-8", "replace")
            style = "alarm" if report.startswith("bad") else "plain"
            if width < NARROW:
                rows += [[(2 * (at > 0), text[at:at + width - 2], style)] for at in range(0, max(1, min(len(text), 4 * width)), width - 2)]
                if report:
                    rows.append([(2, report, "alarm")])
            else:
                number = f"{number:,}"
                front = [(max(0, 9 - len(number)), number, "dim"), (11, text, style)]
                behind = max(40, 13 + min(len(text), width - 30))
                rows.append([*front, (behind, report, "alarm")] if report else front)
        # Where that are too many, the last line counts.
        rows = rows[-height:] if self.top is None else rows[:height]
        return rows, begin, min(begin + room, len(found)), len(found)

    def move(self, by, height):
        at = max(0, self.begin + by)
        self.top = self.found[at][0] if at < len(self.found) - self.room else None

    def home(self):
        self.top = 0

    def end(self):
        self.top = None


KEYS = [
    ("1 v", "values, by device and message"), ("2 d", "devices"), ("3 g", "PGNs"), ("4 a", "alarms and late messages"), ("5 r", "raw lines as they arrive"),
    ("6 h", "health: which device fails, the most harmful first"),
    ("Tab, right, left", "next or previous view"), ("up, down", "one row"), ("Page Up, Page Down", "one page"), ("Home, End", "first or last rows"),
    ("/", "show only rows that contain all words you type; Esc: all rows"), ("p, Space", "pause the screen, and a log that is played; again: resume"),
    ("o", "open or close a row: in values the sets of a list, in PGNs each sender with count, rate and the bytes of its last frame"),
    ("k", "acknowledge what is late now: it turns grey and is no longer counted"),
    ("?", "show or leave this page"), ("q", "quit, like Ctrl-C")]
MEANINGS = [
    "Values: the values that a skipper looks for come first, by sender; then the devices. A new value is highlighted for a second; a field that the last message lacks is –.",
    "Late: a message that came at a regular rate for a minute, and has not come for more than twice its longest gap. Its age is shown. After ten times that gap, "
    "but at least a minute, it turns grey, with the time since when.",
    "Load: the bits of all frames, including stuff bits, as a share of the bus's 250,000 bits a second.",
    "Unknown: frames whose PGN is not in the table.",
    "Behind: the screen can't keep up; its values are this old.",
    "Left out: after 4,000 messages of other ships the oldest are dropped; after 4,000 of your own devices, new ones of the devices that send most; after "
    "100 alarms of a device, new ones of its most frequent kind. Of alarms that differ only in their instance, three are shown."]


class Help(View):
    """The keys."""

    name = "Help"

    def rows(self, bus, now, width, words):
        rows, indent = [], 6 if width < NARROW else 20
        for key, told in KEYS:
            lines = wrapped(told, width - 1 - indent)
            # A long key has a row of its own.
            rows.append([(0, key, "title"), *([(indent, lines.pop(0), "plain")] if len(key) < indent else [])])
            rows += [[(indent, line, "plain")] for line in lines]
        for text in ["", *MEANINGS]:
            rows += [[(0, line, "plain")] for line in wrapped(text, width - 1)]
        return rows


def wrapped(text, width):
    """Lines of at most this width."""
    lines = [""]
    for word in text.split():
        if lines[-1] and len(lines[-1]) + 1 + len(word) > width:
            lines.append("")
        lines[-1] += (" " if lines[-1] else "") + word
    return lines
