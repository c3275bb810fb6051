"""Everything seen on a bus: messages, devices, PGNs, alarms, lines, and their rates."""
import collections
import copy
import re

from screen import page
from screen.bits import Frames

# Above these the oldest is dropped: lines, messages of other ships, alarms that are over, reports.
MOST_LINES, MOST_SHIPS, MOST_ALARMS, MOST_REPORTS = 1000, 4000, 200, 1000
# Above these what is new is left out: messages of own devices, PGNs, their senders, set fields of a device.
MOST_OWN, MOST_PGNS, MOST_SENDERS, MOST_SET = 4000, 2000, 4000, 100

FORGOTTEN = 300  # seconds
MINUTE = 60.0  # seconds for which something has to come at a regular rate before it can be late, and at least is late
END = 253402300800  # the year 10000
# A line of candump as n2kdec reads it: behind the data there may be something else, as its -x has it.
STAMP = re.compile(rb"\(([0-9]{1,12}\.[0-9]{1,9})\)")
CANDUMP = re.compile(STAMP.pattern + rb" +[!-~]{1,15} +([0-9A-Fa-f]{8}|[0-9A-Fa-f]{3})#((?:[0-9A-Fa-f]{2}){0,8})(?:_[0-9A-Fa-f])?(?: |\r?\Z)")
TIMESTAMP = re.compile(rb'"timestamp": ?"([^"]*)"')

THINGS, NO_VALUES = dict.fromkeys(page.THINGS).keys(), page.NO_VALUES
FIRST = {pgn: place for place, pgn in enumerate(page.FIRST)}
# What a sailor looks for, which stands before all devices: up to the engines.
OWN_BOAT = set(page.FIRST[:page.FIRST.index(127493) + 1])


def seconds(digits):
    """Seconds since 1970 of candump's digits, or None if they are too many for a timestamp."""
    at = float(digits)
    return at if at < END else None


def stamp_of(line):
    """Seconds since 1970 of a line's timestamp, or None."""
    if line[:1] == b"(":
        found = STAMP.match(line)
        return seconds(found[1]) if found else None
    if line[:1] == b"{":
        found = TIMESTAMP.search(line)
        text = found[1] if found else b""
    else:
        text = line.partition(b",")[0]
    return page.moment(text.decode("ascii", "replace"))


class Often:
    """The rate of something, by its last timestamps."""

    def __init__(self, most=12):
        self.count, self.longest, self.stamps = 0, 0.0, collections.deque(maxlen=most)
        # Since when it comes, how many had come when a key said that it is known to be late, and when its rate was judged.
        self.since, self.known, self.judged, self.regular = 0.0, 0, 0, False

    def add(self, at):
        stamps = self.stamps
        self.count += 1
        gap = at - stamps[-1] if stamps else -1
        if -1 < gap <= MINUTE or MINUTE < gap <= 10 * self.longest:
            # The longest gap of late: it is half as long after some 200 seconds.
            longest = self.longest * (1 - gap / FORGOTTEN) if gap < FORGOTTEN else 0.0
            self.longest = gap if gap > longest else longest
        else:
            # It was gone, or the clock was set. What comes seldom has a rate by its last two.
            self.since, self.longest, last = at, 0.0, at - gap
            stamps.clear()
            if 0 < gap < 3600:
                stamps.append(last)
        stamps.append(at)

    def copy(self):
        it = copy.copy(self)
        it.stamps = self.stamps.copy()
        return it

    @property
    def last(self):
        return self.stamps[-1]

    def is_regular(self):
        """Whether it came at a regular rate for a minute: none of its last gaps is five times the usual one."""
        if self.judged != self.count:
            stamps = [at for at in self.stamps if at >= self.since]
            gaps = [after - before for before, after in zip(stamps, stamps[1:])]
            self.judged, self.regular = self.count, self.last - self.since >= MINUTE and len(gaps) > 2 and max(gaps) < 5 * sum(gaps) / len(gaps)
        return self.regular

    def silent(self, now):
        """The seconds since it came, if it came at a regular rate and now is missing for more than twice its longest gap; otherwise 0."""
        age = now - self.stamps[-1]
        return age if age > 2 * self.longest + 1 and self.is_regular() else 0

    def late(self, now):
        """The same, until it lapses: after ten times its longest gap, at least a minute, or by a key."""
        age, longest = now - self.stamps[-1], self.longest
        return age if 2 * longest + 1 < age <= max(MINUTE, 10 * longest) and self.known != self.count and self.is_regular() else 0

    def each_second(self, now):
        """Its rate per second."""
        if len(self.stamps) < 2:
            return 0.0
        times = len(self.stamps) - 1
        span = self.stamps[-1] - self.stamps[0]
        if now - self.stamps[-1] > 3 * span / times + 1:
            span = now - self.stamps[0]
        return times / span if span > 0 else 0.0


class Meter:
    """The amount per second in the last two seconds, counted in half seconds."""

    def __init__(self):
        self.halves = collections.deque([(0, 0)], maxlen=5)
        self.place, self.amount, self.began = None, 0, 0

    def add(self, at, amount):
        place = int(at * 2)
        if place != self.place:
            if self.place is None or not 0 <= place - self.place < 7200:
                self.halves.clear()
                self.began = place
            else:
                self.halves.append((self.place, self.amount))
            self.place, self.amount = place, 0
        self.amount += amount

    def each_second(self, now):
        if self.place is None:
            return 0.0
        end = int(now * 2)
        begin = max(end - 4, self.began)
        if end <= begin:
            return 2.0 * self.amount
        return 2.0 * sum(amount for place, amount in (*self.halves, (self.place, self.amount)) if begin <= place < end) / (end - begin)


class Stream(Often):
    """The rate of something that is many messages; if it comes often, by the latest counts."""

    def __init__(self):
        super().__init__(32)
        self.meter = Meter()

    def add(self, at):
        Often.add(self, at)
        meter = self.meter
        if meter.place == int(at * 2):
            meter.amount += 1
        else:
            meter.add(at, 1)

    def copy(self):
        it = super().copy()
        it.meter = copy.deepcopy(self.meter)
        return it

    def each_second(self, now):
        counted = self.meter.each_second(now)
        return counted if counted > 4 else super().each_second(now)


class Message(Often):
    """The last message of a sender, PGN, description and thing."""

    def __init__(self, key, units, born):
        super().__init__()
        self.sender, self.pgn, self.description, self.thing = key
        self.born = born
        self.units = units.get(str(self.pgn), {}).get(self.description, {})
        # The fields that it has had, each with what it is now, or None, and since when.
        self.fields = {}
        # Own boat first, then other ships, then the bus itself and settings. Of a device what the page has first.
        self.part = 1 if self.pgn in page.AIS else 2 if self.pgn in page.BUS else 0
        first = FIRST.get(self.pgn, len(FIRST))
        # Under which title it stands: a part and a device, or that of the own boat.
        self.title_of = (-1, 0) if self.pgn in OWN_BOAT else (self.part, self.sender)
        self.order = (*self.title_of, *((first, self.sender) if self.pgn in OWN_BOAT else (page.is_maker(self.pgn), first)), self.pgn, self.description, self.thing)
        self.title = self.description + (f" ({self.thing})" if self.thing else "")

    def copy(self):
        it = super().copy()
        it.fields = dict(self.fields)
        return it

    def shown(self, name):
        """A field's value as sailors read it; of a field in a set its list, place and name."""
        value, units = self.fields[name if type(name) is str else name[0]][0], self.units
        if type(name) is not str:
            of, place, name = name
            value, units = value[place].get(name) if value and place < len(value) else None, units.get(of)
        if value is None:
            return "–"
        unit = units.get(name) if isinstance(units, dict) else None
        air = "Atmospheric" in self.thing or any("Atmospheric" in it for it in self.fields)
        return page.shown(name, value, unit if isinstance(unit, str) else None, page.KNOT, air)


class Sender(Often):
    """The messages of a PGN that one device sends; of an unknown PGN its frames. And the bytes of its last frame."""

    def __init__(self):
        super().__init__()
        self.data = b""


class Pgn(Stream):
    """A PGN. `kind` is its kind in the table, single or fast, unknown if it is not there, None if that was not asked yet.
    `length` is that of the last frame, `total` that of the last frame 0 of a fast packet: the low five bits of the first byte are
    the frame's number."""

    def __init__(self):
        super().__init__()
        self.kind, self.length, self.total, self.sender, self.description = None, None, None, None, ""
        # Its frames, as long as it may be one that is unknown, and who sent the last one; and each sender.
        self.frames, self.of, self.senders = Stream(), None, {}

    def copy(self):
        it = super().copy()
        it.frames, it.senders = self.frames.copy(), {sender: one.copy() for sender, one in self.senders.items()}
        return it

    @property
    def size(self):
        return self.total if self.kind == "fast" else self.length


def alert(fields):
    told = page.alert(fields)
    yield told, told, str(fields.get("Alert State")) in page.STATES


def seatalk_alarm(fields):
    told = f"{fields.get('Alarm Group', 'Seatalk')}: {fields.get('Alarm ID', 'alarm')}"
    yield told, told, fields.get("Alarm Status") != "Alarm condition not met"


def engine(fields):
    """If the table has names for the bits, they are flags, not numbers."""
    for name in ("Discrete Status 1", "Discrete Status 2"):
        if isinstance(fields.get(name), int):
            yield name, f"{name} is {fields[name]}", fields[name] != 0


# By PGN, what a message says of alarms: of which alarm, how it is called, and whether it is set.
ALARMS = {126983: alert, 65288: seatalk_alarm, 127489: engine}


class Bus:
    """Everything seen in lines, messages and reports."""

    def __init__(self, units, is_whole):
        self.units, self.is_whole = units, is_whole
        self.messages, self.devices, self.pgns = {}, {}, {}
        self.products, self.claims = {}, {}
        # How many messages are of other ships; those of own devices, by device and PGN in the order in which they came, how many of each
        # device, and which has most, once that is sought; what was left out: "ships", "own", "alarms".
        self.ships, self.own, self.counts, self.most, self.left_out = 0, {}, collections.Counter(), None, set()
        self.texts, self.installed = {}, {}  # of alerts by sender and name, of devices by sender
        self.senders = 0  # of all PGNs
        # Lines, the last of them, and what was reported of some; by number.
        self.lines, self.ring, self.reports = 0, collections.deque(maxlen=MOST_LINES), collections.OrderedDict()
        self.bad = self.broken = 0
        self.broken_of = {}  # by device, how many and the stamp of the last
        # What is set now, with the time since when; how many fields of a message are set; of each device the set fields by kind, each with
        # the number of its message; what was set: (from, to, flag, message's key, field).
        self.set, self.is_set, self.alarmed, self.over = {}, collections.Counter(), {}, collections.deque(maxlen=MOST_ALARMS)
        self.born = 0  # messages that were new
        self.at = self.told = None  # the stamps of the last line and of the last message
        self.count, self.behind = 0, 0.0  # messages; how many seconds what is shown is behind what comes
        self.frames, self.bits, self.each_second = Frames(), Meter(), Meter()
        self.identifiers, self.new = {}, []
        self.version = 0  # another one where a row is new or has another name
        self.is_held = False
        self.summary = None

    def copy(self):
        """A copy, for a picture that is paused."""
        it = copy.copy(self)
        it.is_held = True
        for name in ("messages", "devices", "pgns"):
            setattr(it, name, {key: one.copy() for key, one in getattr(self, name).items()})
        it.set = {where: dict(flags) for where, flags in self.set.items()}
        it.alarmed = {sender: {kind: dict(places) for kind, places in kinds.items()} for sender, kinds in self.alarmed.items()}
        it.products, it.claims, it.reports, it.left_out = dict(self.products), dict(self.claims), dict(self.reports), set(self.left_out)
        it.texts, it.installed, it.broken_of = dict(self.texts), dict(self.installed), dict(self.broken_of)
        it.ring, it.over = list(self.ring), list(self.over)
        it.bits, it.each_second = copy.deepcopy(self.bits), copy.deepcopy(self.each_second)
        return it

    def acknowledge(self, now):
        """Everything that is late now is acknowledged."""
        for it in (*self.messages.values(), *self.devices.values()):
            if it.late(now):
                it.known = it.count

    # -- Lines of the log.

    def take(self, lines):
        """Takes lines as they come, without their ends."""
        self.lines += len(lines)
        self.ring.extend(lines)
        for line in lines:
            if line[:1] == b"{":
                self.at = stamp_of(line) or self.at
            elif len(line) > 2048:
                # Bad, whatever it has.
                continue
            elif line[:1] == b"(":
                self.candump(line)
            else:
                self.plain(line)

    def candump(self, line):
        found = CANDUMP.match(line)
        at = seconds(found[1]) if found else None
        if at is None:
            # Bad, or no frame with data: the reports tell.
            return
        known = self.identifiers.get(found[2]) or self.identifier(found[2])
        if known is None:
            return
        pgn, identifier = known
        data = bytes.fromhex(found[3].decode())
        self.at = at
        self.bits.add(at, self.frames.bits(identifier, data))
        if pgn is not None:
            self.frame(pgn, int(identifier[-2:], 16), at, data)

    def identifier(self, word):
        """The PGN of an identifier (None for 11 bits), and its digits. None if it is that of an error frame."""
        number = int(word, 16)
        if number >> 29:
            return None
        pgn = None if len(word) == 3 else number >> 8 & 0x3FFFF
        if pgn is not None and pgn >> 8 & 0xFF < 240:
            pgn &= 0x3FF00
        if len(self.identifiers) > 10000:
            self.identifiers = {}
        self.identifiers[word] = found = pgn, word.decode()
        return found

    def plain(self, line):
        words = line.split(b",")
        if len(words) < 6 or line[:1] == b"#":
            return
        try:
            prio, pgn, sender, receiver, length = map(int, words[1:6])
            data = bytes.fromhex(b"".join(words[6:]).decode())
        except ValueError:
            return
        at = page.moment(words[0].decode("ascii", "replace"))
        is_right = 0 <= prio < 8 and 0 <= pgn < 1 << 24 and 0 <= sender < 256 and 0 <= receiver < 256 and length == len(data) < 224
        if at is None or not is_right:
            return
        self.at = at
        identifier = f"{prio << 26 | (pgn | (receiver if pgn >> 8 & 0xFF < 240 else 0)) << 8 | sender:08X}"[-8:]
        if length > 8 or self.is_whole and self.pgn(pgn).kind != "single":
            # It came as a fast packet: each frame has seven bytes of its own, and one that numbers it.
            bits = (1 + length // 7) * self.frames.bits(identifier, bytes(8))
            self.pgn(pgn).total = self.pgn(pgn).length = length
        else:
            bits = self.frames.bits(identifier, data)
        self.bits.add(at, bits)
        self.frame(pgn, sender, at, data, length > 8 or self.is_whole)

    def pgn(self, number):
        found = self.pgns.get(number)
        if found is None:
            found = Pgn()
            if len(self.pgns) < MOST_PGNS:
                self.pgns[number] = found
                self.new.append(number)
                self.version += 1
            else:
                self.left_out.add("own")
        return found

    def frame(self, number, sender, at, data, is_whole=False):
        one = self.pgns.get(number) or self.pgn(number)
        its = one.senders.get(sender) or self.sender(one, number, sender)
        its.data = data
        if data and not is_whole:
            one.length = len(data)
            if not data[0] & 31 and len(data) > 1:
                one.total = data[1]
        if one.kind is None or one.kind == "unknown":
            one.of = sender
            one.frames.add(at)
            if one.kind:
                its.add(at)

    def sender(self, one, number, sender):
        """A new sender of a PGN."""
        if self.senders < MOST_SENDERS and number in self.pgns:
            self.senders += 1
            one.senders[sender] = it = Sender()
            return it
        self.left_out.add("own")
        return Sender()

    def known(self, kinds):
        """Asks the table for new PGNs."""
        for number in self.new:
            self.pgns[number].kind = kinds.get(number, "unknown")
        self.new = []

    @property
    def unknown(self):
        return sum(one.frames.count for one in self.pgns.values() if one.kind == "unknown")

    # -- Messages.

    def message(self, text):
        """Takes a line of JSON; returns the message, or None if it is not one."""
        try:
            it = page.DECODE(text)
            fields, sender, pgn, description = it["fields"], it["src"], it["pgn"], it["description"]
            at = page.moment(it["timestamp"])
            things = THINGS & fields.keys()
            if type(sender) is not int or type(pgn) is not int or type(description) is not str:
                raise TypeError
        except (ValueError, KeyError, TypeError, AttributeError, RecursionError):
            # Of a log of messages.
            self.bad += 1
            return None
        if at is None:
            at = self.at or 0.0
        if len(things) == 1:
            (name,) = things
            thing = str(fields[name]) if fields[name] is not None else ""
        else:
            thing = ", ".join(str(fields[name]) for name in page.THINGS if name in things and fields[name] is not None) if things else ""
        key = sender, pgn, description, thing
        message = self.messages.get(key) or self.enter(key)
        if message:
            message.add(at)
        self.told = at
        self.count += 1
        device = self.devices.get(sender)
        if device is None:
            device = self.devices[sender] = Stream()
            self.version += 1
        device.add(at)
        one = self.pgns.get(pgn) or self.pgn(pgn)
        one.add(at)
        (one.senders.get(sender) or self.sender(one, pgn, sender)).add(at)
        one.sender, one.description = sender, description
        self.each_second.add(at, 1)

        had, count, born = message.fields if message else {}, 0, message.born if message else self.born
        for name, value in fields.items():
            if name in NO_VALUES:
                continue
            count += 1
            was = had.get(name)
            if was is None:
                self.version += message is not None
            elif was[0] == value:
                continue
            had[name] = value, at
            if type(value) is list and not page.is_sets(value) and page.is_boat(pgn):
                self.flags(at, key, name, value, born)
        if count < len(had):
            # What the last message lacks is not available now.
            for name in had.keys() - fields.keys():
                if had[name][0] is not None:
                    had[name] = None, at
        if pgn in ALARMS:
            for name, flag, is_set in ALARMS[pgn](fields):
                self.flags(at, key, name, [flag] if is_set else [], born)
        elif pgn == 126985:
            page.keep_text(self.texts, sender, fields)
        elif pgn in (126996, 60928, 126998):
            told = self.products if pgn == 126996 else self.claims if pgn == 60928 else self.installed
            if told.get(sender) != fields:
                told[sender] = fields
                self.version += 1
        return it

    def enter(self, key):
        """Enters a new message, if there is a place for it. Other ships give way to newer ones, own devices do not; but if invented messages
        take all places, the device that has most of them gives one up for a device that has fewer."""
        sender, pgn = key[:2]
        self.born += 1
        if pgn in page.AIS:
            self.ships += 1
            if self.ships > MOST_SHIPS:
                self.left_out.add("ships")
                old = sorted((it.last, at) for at, it in self.messages.items() if it.part == 1)[:MOST_SHIPS // 10]
                self.ships -= len(old)
                for _, at in old:
                    del self.messages[at]
        else:
            if len(self.messages) - self.ships >= MOST_OWN:
                self.left_out.add("own")
                if not self.give_up(sender, pgn):
                    return None
            self.own.setdefault(sender, {}).setdefault(pgn, {})[key] = None
            self.counts[sender] += 1
            self.most = None
        self.messages[key] = message = Message(key, self.units, self.born)
        self.version += 1
        return message

    def give_up(self, sender, pgn):
        """Takes the place of the newest message without a set field, of the device and the PGN that have most. False if this device and PGN
        have as many."""
        if self.most is None:
            self.most = max(self.counts, key=self.counts.get)
        most = self.most if self.counts[self.most] > self.counts[sender] + 1 else sender
        pgns = self.own.get(most, {})
        of = max(pgns, key=lambda it: len(pgns[it]), default=None)
        if of is None or most == sender and len(pgns[of]) <= len(pgns.get(pgn, ())) + 1:
            return False
        free = next((it for it in reversed(pgns[of]) if not self.is_set[it]), None)
        if free is None:
            return False
        del self.messages[free], pgns[of][free]
        self.counts[most] -= 1
        self.most = None
        return True

    def flags(self, at, key, name, now, born):
        """Which flags of a field are set now, in the message of this number."""
        where, now = (key, name), [str(flag) for flag in now]
        was = self.set.get(where, {})
        self.over.extend((was[flag], at, flag, key, name) for flag in was if flag not in now)
        if now and (was or self.has_place(where, born)):
            self.set[where] = {flag: was.get(flag, at) for flag in now}
        elif was:
            self.unset(where)

    def has_place(self, where, born):
        """Whether a field that is set has a place. Each device has some, so a device that invents alarms hides no other's. In a device the
        kind with most places gives up that of the newest message; in a kind the older messages keep theirs, since the real ones were
        there before alarms were invented."""
        kinds, kind = self.alarmed.setdefault(where[0][0], {}), self.kind(where)
        if sum(map(len, kinds.values())) >= MOST_SET:
            self.left_out.add("alarms")
            most = max(kinds, key=lambda it: len(kinds[it]))
            if len(kinds[most]) <= len(kinds.get(kind, ())) + 1:
                most = kind
            if most == kind and born == self.born:
                return False
            newest = max(kinds.get(most, ()), key=lambda it: kinds[most][it], default=None)
            if newest is None or most == kind and kinds[most][newest] <= born:
                return False
            self.unset(newest)
        kinds.setdefault(kind, {})[where] = born
        self.is_set[where[0]] += 1
        return True

    def unset(self, where):
        """Removes a field of which nothing is set any more, or that gives up its place."""
        del self.set[where]
        kinds, kind = self.alarmed[where[0][0]], self.kind(where)
        del kinds[kind][where]
        if not kinds[kind]:
            del kinds[kind]
        self.is_set[where[0]] -= 1
        if not self.is_set[where[0]]:
            del self.is_set[where[0]]

    @staticmethod
    def kind(where):
        """The PGN, description and field of what is set. An alert has no field of its own, only its number, which may be any."""
        (_, pgn, description, _), name = where
        return pgn, description, "" if pgn in (126983, 65288) else name

    def device(self, sender):
        """The name of a device: maker, model and installation, as far as it has sent them."""
        return page.device(self.claims.get(sender, {}), self.products.get(sender, {}), self.installed.get(sender, {}))

    def called(self, sender):
        """A device by its name and address."""
        told = self.device(sender)
        return f"{told} ({sender})" if told else f"device {sender}"

    def model(self, sender):
        return page.model(self.products.get(sender, {}), self.installed.get(sender, {}))

    # -- Reports.

    def report(self, text):
        """Takes a line of standard error. False if it is not a report."""
        if found := re.match(r"line (\d+) (bad|broken) (.*)", text):
            if found[2] == "bad":
                self.bad += 1
            else:
                self.broken += 1
                if of := re.search(r" src (\d+) ", found[3]):
                    count, _ = self.broken_of.get(int(of[1]), (0, None))
                    self.broken_of[int(of[1])] = count + 1, self.told
            self.reports[int(found[1])] = f"{found[2]} {found[3]}"
            if len(self.reports) > MOST_REPORTS:
                self.reports.popitem(last=False)
            return True
        if re.match(r"lines \d+ messages \d+ bad ", text):
            self.summary = text
            return True
        return False
