"""The facts of a log about the bus and each device: frames, gaps, counters, claims and clocks. `findings` judges them.

Everything is counted line by line, in memory that does not grow with the log. The counts have these definitions:

- A frame is a line of candump with an identifier of 29 bits. A plain line of more than 8 bytes counts as the frames that it takes.
- A flow is what one device sends of one PGN. It begins a message with each frame, or with each frame 0 if the table calls the PGN fast.
- A gap is the time between two beginnings, rounded to two significant digits of milliseconds. The usual interval is the median gap.
- A hole is a time of more than HOLE seconds without a line of the log, or a step back by more than a second. No gap goes over a hole.
- A step is the difference of the sequence numbers of two successive fast packets of a flow and destination, modulo 8, with the gap
  between them if it is not 1. No step goes over a claim of its address, nor over PAUSE seconds without a line of the log. A frame other
  than frame 0 begins a packet only if its number differs from those of the last two packets: the ends of two packets may overlap.
- A window is one of the 10 seconds that a stamp divided by 10 gives. The load is the share of 2,500,000 bits that its frames take.
"""
import array
import binascii
import collections
import re

from screen import page
from screen.bits import Frames
from screen.seen import CANDUMP, END, TIMESTAMP

HOLE, PAUSE = 10.0, 2.0  # seconds
WINDOW = 10  # seconds
RATE = 250_000  # bits a second
LONGEST = 6  # the longest gaps kept of each flow
MOST_FLOWS, MOST_LIST, MOST_LOADS = 4000, 1000, 720
EDGE = 2  # seconds at the edges of a log and of a hole, where a message may be cut
# The lines of candump in a block, as n2kdec reads them.
FRAMES = re.compile(rb"^" + CANDUMP.pattern.replace(rb"(?: |\r?\Z)", rb"(?: [^\n]{0,1900}|\r?)$"), re.M)
HEAD = re.compile(rb'\{"timestamp": ?"([^"\\]*)", ?"prio": ?\d+, ?"src": ?(\d+), ?"dst": ?(\d+), ?"pgn": ?(\d+),')
REPORT = re.compile(r"line (\d+) (?:bad (B\d+)|broken pgn (\d+) src (\d+) dst (\d+) seq \d first (\d+))")
SUMMARY = re.compile(r"lines (\d+) messages (\d+) bad (\d+) unknown (\d+) broken (\d+) open (\d+)")
# PGNs whose fields are read: request, claim, system time, heartbeat, product, installation, position with time, time and date.
READ = {b"59904", b"60928", b"126992", b"126993", b"126996", b"126998", b"129029", b"129033"}
# PGNs that set an instance of another device, so that several devices may send them.
COMMANDS = {126208, 127502, 128006, 128776, 130330, 130561}
INSTANCES = ("Instance", "Battery Instance", "Bank Instance")
# The meaning of an error frame (linux/can/error.h): the bits of its class, and the bits of its byte 1 for the
# controller's state.
ERRORS = {0x01: "transmit timeout", 0x02: "lost arbitration", 0x08: "protocol violation", 0x10: "transceiver fault", 0x20: "no acknowledgement",
          0x40: "bus off", 0x80: "bus error", 0x100: "controller restarted"}
CONTROLLER = {0x01: "receive overflow", 0x02: "transmit overflow", 0x04: "many receive errors", 0x08: "many transmit errors", 0x10: "receive error passive",
              0x20: "transmit error passive"}


def rounded(seconds):
    """Milliseconds with two significant digits."""
    length = int(seconds * 1000 + 0.5)
    if length >= 100:
        step = 10 if length < 1000 else 100 if length < 10000 else 10 ** (len(str(length)) - 2)
        return (length + step // 2) // step * step
    return length if length > 0 else 0


class Gaps:
    """The gaps of something that comes repeatedly: the number of each length, in milliseconds, and the longest with their ends."""

    __slots__ = ("count", "first", "last", "newest", "lengths", "longest", "least")

    def __init__(self):
        self.count, self.first, self.last, self.newest = 0, None, None, None
        self.lengths, self.longest, self.least = {}, [], -1.0

    def add(self, at):
        self.count += 1
        if self.last is not None:
            self.gap(at)
        elif self.first is None:
            self.first = at
        self.last = self.newest = at

    def gap(self, at):
        """A gap that ends now."""
        length = rounded(at - self.last)
        self.lengths[length] = self.lengths.get(length, 0) + 1
        if at - self.last > self.least:
            self.longest.append((at - self.last, at))
            if len(self.longest) > LONGEST:
                self.longest.sort(reverse=True)
                self.longest.pop()
                self.least = self.longest[-1][0]

    def usual(self):
        """The median gap in seconds, the lower one of two, or None."""
        count, half = 0, (sum(self.lengths.values()) + 1) // 2
        for length in sorted(self.lengths):
            count += self.lengths[length]
            if count >= half:
                return length / 1000
        return None


class Flow:
    """What one device sends of one PGN."""

    def __init__(self, sender, pgn, kind):
        self.sender, self.pgn, self.kind, self.description = sender, pgn, kind, ""
        self.frames = self.messages = self.broken = self.cut = 0
        self.gaps = Gaps()
        self.steps = collections.Counter()
        # The times of the first and the last broken message, and of the first and the last step over a message.
        self.lost, self.jumps = [], []


class Device:
    """The data of one address."""

    def __init__(self, sender):
        self.sender, self.frames, self.bits, self.window, self.messages = sender, 0, 0, 0, 0
        self.gaps, self.sequence, self.steps, self.jumps = Gaps(), None, collections.Counter(), []
        self.era = 0  # changes where no step counts: at a claim, after a pause
        self.product, self.installed, self.claim = {}, {}, {}
        self.heartbeat = None  # its last counter and time


class Lane:
    """An identifier: its flow and device, and the last two sequence numbers, within an era of its device."""

    __slots__ = ("flow", "device", "identifier", "is_fast", "is_claim", "sequence", "before", "last", "era")

    def __init__(self, flow, device, identifier, is_fast):
        self.flow, self.device, self.identifier, self.is_fast, self.sequence, self.before, self.last = flow, device, identifier, is_fast, None, None, 0.0
        self.is_claim, self.era = flow.pgn == 60928, device.era


class Loads:
    """The load over time, in at most MOST_LOADS parts: the bits and the busiest window of each. Parts grow with the
    log."""

    def __init__(self):
        self.width, self.pieces, self.window = 1, {}, None

    def add(self, window, bits):
        place = window // self.width
        had = self.pieces.get(place, (0, 0, 0))
        self.pieces[place] = had[0] + bits, had[1] + (window != self.window), max(had[2], bits)
        self.window = window
        if len(self.pieces) > MOST_LOADS:
            old, self.pieces, self.width = self.pieces, {}, self.width * 2
            for place, (bits, count, most) in old.items():
                had = self.pieces.get(place // 2, (0, 0, 0))
                self.pieces[place // 2] = had[0] + bits, had[1] + count, max(had[2], most)


def spread(times, at):
    """Keeps the first time and the last."""
    times[:] = [min(times[0], at), max(times[1], at)] if times else [at, at]


class Facts:
    """The facts in the lines of logs, and in the messages and reports that the decoder made of them. `kinds` gives the kinds of
    PGNs in the table."""

    def __init__(self, kinds, is_whole=False, window=10000):
        self.kinds, self.is_whole = kinds, is_whole
        self.known, self.lanes, self.flows, self.devices = None, {}, {}, {}
        self.left_out = 0
        self.bits_of = Frames()
        self.begin = self.at = None
        self.recorded = self.began = 0.0  # seconds outside of holes before this time
        self.frames = self.others = self.lines = self.all_lines = self.messages = self.errors = self.bits = 0
        self.quiet = Gaps()  # the longest times without a line, if over half a second
        self.kinds_of_error, self.bad = collections.Counter(), collections.Counter()
        self.error_times = []
        self.holes, self.set_back, self.edges = [], [], set()
        # The current window: its end and its bits; the window with the most bits, with its beginning and the bits of
        # its senders.
        self.window_end, self.window_bits, self.loads = 0.0, 0, Loads()
        self.most = (0, 0.0, {})
        self.requests, self.claims, self.names = collections.deque(maxlen=100), [], {}
        self.instances, self.clocks, self.restarts = {}, {}, []
        # The timestamps of the last lines, one for every 16: a report names a line by its number.
        self.size = 1 << (window + 300000).bit_length() - 4
        self.stamps = array.array("d", bytes(8 * self.size))
        self.has_frames = self.has_wholes = self.has_messages = False

    # -- Parts of a log.

    def part(self):
        """Another log begins."""
        self.close(self.at)
        self.at, self.lines = None, 0

    def jump(self, at):
        """The timestamps jump to this time: a hole, a clock that was set back, or the beginning of a log."""
        if self.at is None:
            self.begin = at if self.begin is None else self.begin
        elif at < self.at:
            if len(self.set_back) < MOST_LIST:
                self.set_back.append((self.at, at))
        elif len(self.holes) < MOST_LIST:
            self.holes.append((self.at, at))
        if len(self.edges) < 10 * MOST_LIST:
            self.edges.update(int(edge) + by for edge in (self.at, at) if edge is not None for by in range(-EDGE, EDGE + 1))
        self.close(self.at)
        self.began = at
        self.window_end = (at // WINDOW + 1) * WINDOW

    def close(self, at):
        """Ends everything that is open: gaps, sequences, the window."""
        if at is None:
            return
        self.finish_window()
        self.recorded += max(0.0, at - self.began)
        for it in (*self.flows.values(), *self.devices.values()):
            it.gaps.last = None
        self.forget_sequences()

    def forget_sequences(self):
        """No step goes over this time."""
        for device in self.devices.values():
            self.restarted(device)

    def finish_window(self):
        if self.window_bits:
            self.loads.add(int(self.window_end // WINDOW) - 1, self.window_bits)
            if self.window_bits > self.most[0]:
                self.most = self.window_bits, self.window_end - WINDOW, {it.sender: it.window for it in self.devices.values() if it.window}
        self.window_bits = 0
        for device in self.devices.values():
            device.window = 0

    @property
    def recorded_so_far(self):
        """The seconds outside of holes."""
        return self.recorded + (self.at - self.began if self.at is not None else 0.0)

    def end(self):
        """The log has ended."""
        if self.at is not None:
            self.finish_window()
            self.recorded += max(0.0, self.at - self.began)
            self.began = self.at

    # -- Lines.

    def block(self, block):
        """Takes complete lines of a log."""
        found = FRAMES.findall(block)
        if len(found) == block.count(b"\n"):
            self.take(found)
            return
        for line in block.split(b"\n")[:-1]:
            found = FRAMES.findall(line) if line[:1] == b"(" and len(line) <= 2048 else ()
            if found:
                self.take(found)
                continue
            at = None
            if line[:1] == b"{":
                at = self.message(line, True)
            elif line[:1] not in b"(#" and len(line) <= 2048:
                at = self.plain(line)
            if at is None:
                self.lines += 1
                self.all_lines += 1
                self.stamps[self.lines >> 4 & self.size - 1] = self.at or 0.0

    def kind(self, pgn):
        """The kind of a PGN in the table. All are requested at once: each request takes a run of the program."""
        if self.known is None:
            self.known = self.kinds([of << 16 | low for of in range(4) for low in (*range(0, 0xF000, 256), *range(0xF000, 0x10000))])
        return self.known.get(pgn, "unknown")

    def flow(self, sender, pgn):
        found = self.flows.get((sender, pgn))
        if found is None:
            found = Flow(sender, pgn, self.kind(pgn) if self.has_frames or self.has_wholes else None)
            if len(self.flows) < MOST_FLOWS:
                self.flows[sender, pgn] = found
            else:
                self.left_out += 1
        return found

    def device(self, sender):
        found = self.devices.get(sender)
        if found is None:
            found = self.devices[sender] = Device(sender)
        return found

    def lane(self, word):
        """The lane of an identifier; False if it is not a message's."""
        number = int(word, 16)
        if len(word) == 3 or number >> 29:
            return False
        pgn, sender = number >> 8 & (0x3FFFF if number >> 16 & 0xFF >= 240 else 0x3FF00), number & 0xFF
        if len(self.lanes) > 10 * MOST_FLOWS:
            self.lanes = {}
        lane = self.lanes[word] = Lane(self.flow(sender, pgn), self.device(sender), word.decode(), self.kind(pgn) == "fast")
        return lane

    def take(self, found):
        """Frames, each with timestamp, identifier and data."""
        lanes, stamps, mask, bits_of, unhex = self.lanes, self.stamps, self.size - 1, self.bits_of.bits, binascii.unhexlify
        self.has_frames = True
        number, now, window_end = self.lines, self.at, self.window_end
        for stamp, word, digits in found:
            number += 1
            at = float(stamp)
            if now is None or not -1 <= at - now <= 0.5:
                if at >= END:
                    continue
                if now is not None and -1 <= at - now <= HOLE:
                    self.quiet.last = now
                    self.quiet.gap(at)
                    if at - now > PAUSE:
                        self.forget_sequences()
                else:
                    self.jump(at)
                    window_end = self.window_end
            if at >= window_end:
                self.finish_window()
                window_end = self.window_end = (at // WINDOW + 1) * WINDOW
            stamps[number >> 4 & mask] = self.at = now = at
            lane = lanes.get(word)
            if not lane:
                lane = self.lane(word)
                lanes = self.lanes
                if not lane:
                    if len(word) == 8:
                        self.error(int(word, 16), unhex(digits))
                    else:
                        # A frame of another protocol, with an identifier of 11 bits.
                        self.others += 1
                        bits = bits_of(word.decode(), unhex(digits))
                        self.bits += bits
                        self.window_bits += bits
                    continue
            data = unhex(digits)
            bits = bits_of(lane.identifier, data)
            device, flow = lane.device, lane.flow
            self.bits += bits
            self.window_bits += bits
            self.frames += 1
            device.frames += 1
            device.bits += bits
            device.window += bits
            device.gaps.add(at)
            flow.frames += 1
            if not lane.is_fast:
                flow.gaps.add(at)
                if lane.is_claim:
                    self.restarted(device)
            elif data:
                sequence = data[0] >> 5
                if lane.era != device.era:
                    lane.sequence, lane.before, lane.era = None, None, device.era
                if not data[0] & 31:
                    flow.gaps.add(at)
                    self.step(lane, sequence, at)
                elif sequence != lane.sequence and sequence != lane.before:
                    self.step(lane, sequence, at)
        self.all_lines += number - self.lines
        self.lines = number

    def step(self, lane, sequence, at):
        """A fast packet begins."""
        device = lane.device
        for it, before in ((lane.flow, lane.sequence), (device, device.sequence)):
            if before is not None:
                by = sequence - before & 7
                it.steps[by, 0 if by == 1 else rounded(at - lane.last)] += 1
                if by > 1:
                    spread(it.jumps, at)
        lane.before, lane.sequence, lane.last, device.sequence = lane.sequence, sequence, at, sequence

    def restarted(self, device):
        """The device starts counting again, as after a claim of its address."""
        device.sequence = None
        device.era += 1

    def error(self, number, data):
        """An error frame."""
        self.errors += 1
        spread(self.error_times, self.at)
        self.kinds_of_error.update(name for bit, name in ERRORS.items() if number & bit)
        if number & 0x04 and len(data) > 1:
            self.kinds_of_error.update(name for bit, name in CONTROLLER.items() if data[1] & bit)

    def plain(self, line):
        """A line of canboat's readers; None if it is not one."""
        words = line.rstrip(b"\r").split(b",")
        try:
            prio, pgn, sender, receiver, length = map(int, words[1:6])
            data = binascii.unhexlify(b"".join(words[6:]))
        except ValueError:
            return None
        at = page.moment(words[0].decode("ascii", "replace"))
        if at is None or not (0 <= prio < 8 and 0 <= pgn < 1 << 24 and 0 <= sender < 256 and 0 <= receiver < 256 and length == len(data) < 224):
            return None
        identifier = f"{prio << 26 | (pgn | (receiver if pgn >> 8 & 0xFF < 240 else 0)) << 8 | sender:08X}"[-8:].encode()
        if length <= 8 and not self.is_whole:
            self.take([(f"{at:.6f}".encode(), identifier, b"".join(words[6:]))])
            return at
        self.has_wholes = True
        count = 1 + length // 7 if length > 8 or self.kind(pgn) == "fast" else 1
        bits = count * self.bits_of.bits(identifier.decode(), bytes(8) if count > 1 else data)
        self.whole(at, sender, pgn, count, bits)
        return at

    def whole(self, at, sender, pgn, frames, bits):
        """A message that came as one line."""
        self.lines += 1
        self.all_lines += 1
        if self.at is None or not -1 <= at - self.at <= HOLE:
            self.jump(at)
        if at >= self.window_end:
            self.finish_window()
            self.window_end = (at // WINDOW + 1) * WINDOW
        self.stamps[self.lines >> 4 & self.size - 1] = self.at = at
        device, flow = self.device(sender), self.flow(sender, pgn)
        self.bits += bits
        self.window_bits += bits
        self.frames += frames
        device.frames += frames
        device.bits += bits
        device.window += bits
        device.gaps.add(at)
        flow.frames += frames
        flow.gaps.add(at)

    # -- Messages.

    def message(self, line, is_of_log=False, it=None):
        """A line of JSON: its time, or None if it is not a message. It may be a line of the log itself. `it` is the
        parsed line, if it is known."""
        head = HEAD.match(line)
        if not head:
            return None
        pgn, sender = int(head[4]), int(head[2])
        if is_of_log:
            at = page.moment(head[1].decode("ascii", "replace"))
            if at is None or sender > 255:
                return None
            self.has_messages = True
            self.whole(at, sender, pgn, 0, 0)
        flow = self.flows.get((sender, pgn)) or self.flow(sender, pgn)
        flow.messages += 1
        self.messages += 1
        self.device(sender).messages += 1
        if head[4] in READ or b'nstance":' in line or not flow.description:
            self.read(line, flow, head[1], it)
        return self.at

    def read(self, line, flow, stamp, it):
        """A message whose fields are read."""
        try:
            it = it or page.DECODE(line.decode("utf-8", "replace"))
            fields, flow.description = it["fields"], str(it["description"])
            fields.items()
        except (ValueError, KeyError, AttributeError):
            return
        at = page.moment(stamp.decode("ascii", "replace")) or self.at or 0.0
        pgn, device = flow.pgn, self.device(flow.sender)
        if pgn == 59904:
            if fields.get("PGN") == 60928:
                self.requests.append((at, it.get("dst")))
        elif pgn == 60928:
            self.claimed(at, device, fields)
        elif pgn == 126993:
            self.heartbeat(at, device, fields.get("Sequence Counter"))
        elif pgn == 126996:
            device.product = fields
        elif pgn == 126998:
            device.installed = fields
        elif pgn in (126992, 129029, 129033):
            day, second = page.number(fields.get("Date")), page.number(fields.get("Time"))
            if day is not None and second is not None:
                self.clock(at, flow.sender, day * 86400 + second - at)
        elif pgn not in COMMANDS:
            for name in INSTANCES:
                if fields.get(name) is not None:
                    thing = ", ".join(str(fields[name]) for name in page.THINGS if fields.get(name) is not None)
                    self.instance((pgn, thing, flow.description), flow.sender, at)
                    break

    def clock(self, at, sender, ahead):
        """A device sends the time: how far the time is ahead of the log."""
        had = self.clocks.get(sender)
        if had is None:
            self.clocks[sender] = [1, ahead, ahead, ahead, at]
        else:
            had[0] += 1
            had[1], had[2] = min(had[1], ahead), max(had[2], ahead)
            if abs(ahead - had[3]) > 5 and len(had) == 5:
                had.append((at, had[3], ahead))
            had[3] = ahead

    def heartbeat(self, at, device, counter):
        """A device counts its heartbeats from 0 to 252 since it was switched on."""
        if type(counter) is not int or counter > 252:
            return
        if device.heartbeat and counter < 4 and counter < device.heartbeat[0] < 250 and at - device.heartbeat[1] < 200 and len(self.restarts) < MOST_LIST:
            self.restarts.append((at, device.sender))
        device.heartbeat = counter, at

    def instance(self, key, sender, at):
        """A device sends values of this thing. Devices that alternate share one instance."""
        had = self.instances.get(key)
        if had is None:
            if len(self.instances) < MOST_FLOWS:
                self.instances[key] = [sender, at, 0, {sender}]
        elif had[0] != sender:
            had[0], had[1], had[2] = sender, at, had[2] + 1
            had[3].add(sender)

    def claimed(self, at, device, fields):
        """A device claims its address, asked for it or not."""
        sender = device.sender
        name = tuple(sorted((key, str(value)) for key, value in fields.items()))
        was_asked = any(0 <= at - then <= 2 and to in (255, sender) for then, to in self.requests)
        if len(self.claims) < MOST_LIST:
            # Whether the device sent before; the claim's time has only milliseconds.
            was_there = device.gaps.first is not None and device.gaps.first < at - 0.002
            self.claims.append((at, sender, was_asked, was_there))
        places = self.names.setdefault(name, {}) if len(self.names) < MOST_LIST else self.names.get(name, {})
        places.setdefault(sender, [at, at])[1] = at
        device.claim = fields

    # -- Reports.

    def time_of(self, line):
        """The timestamp of a line, by its number, or of a line up to 16 later."""
        return self.stamps[line >> 4 & self.size - 1] if line > self.lines - 16 * (self.size - 1) else self.begin or 0.0

    def report(self, text):
        """A line of standard error. False if it is not a report."""
        found = REPORT.match(text)
        if not found:
            return bool(SUMMARY.match(text))
        if found[2]:
            self.bad[found[2]] += 1
            return True
        at = self.time_of(int(found[6]))
        flow = self.flow(int(found[4]), int(found[3]))
        # A message cut by the beginning of the log, or by a hole, is not lost.
        if int(at) in self.edges:
            flow.cut += 1
        else:
            flow.broken += 1
            spread(flow.lost, at)
        return True
