#!/usr/bin/env python3
"""Made-up logs of a bus, healthy or with one fault, for `n2k --health`:

    bus.py healthy [MINUTES]     a bus without a fault, 60 minutes unless told
    bus.py busy                  ten minutes of a bus without a fault whose devices also send in bursts, in turns and packets that overlap
    bus.py FAULT                 ten minutes of the same bus with this fault
    bus.py changed [MINUTES]     the healthy bus after changes, for `n2k --compare`
    bus.py --list                each fault, with the kind of finding and the addresses that it has to name

The same lines each time. Ten devices send at their usual intervals, with some milliseconds of jitter, and count the fast packets of
each PGN; one sends by events.
"""
import random
import struct
import sys

START = 1751608800.0
# By address: maker, function, class, model, serial number.
DEVICES = {1: (1851, 130, 120, "Axiom 9", "E70363"), 3: (229, 145, 60, "GPS 24xd", "7GA004131"), 5: (137, 140, 60, "SSC300 Compass", "1310488"),
           6: (135, 130, 60, "DST810 Triducer", "6012774"), 8: (135, 130, 85, "220WX WeatherStation", "5881203"), 22: (137, 140, 50, "J2K100 port", "412377"),
           23: (137, 140, 50, "J2K100 starboard", "412378"), 41: (137, 150, 75, "TLA100 Fuel", "1420331"), 43: (358, 170, 35, "BMV-712", "HQ2138YQK5C"),
           44: (358, 170, 35, "BMV-700", "HQ1901ABCDE")}
FAST = {126208, 126996, 127489, 127506, 128275, 129029, 129038, 129285}


def claim(sender, unique=None):
    maker, function, of_class, *_ = DEVICES[sender]
    return struct.pack("<Q", (sender * 4711 if unique is None else unique) | maker << 21 | function << 40 | of_class << 49 | 4 << 60 | 1 << 63)


def product(sender):
    def text(it):
        return it.encode().ljust(32, b"\xff")
    return struct.pack("<HH", 2101, 1234) + text(DEVICES[sender][3]) + text("2.10") + text("1") + text(DEVICES[sender][4]) + b"\x01\x01"


class Bus:
    """Messages, each with time, priority, PGN, sender, receiver and bytes; then frames, each with time, identifier and
    bytes."""

    def __init__(self, seconds):
        self.seconds, self.draw, self.messages = seconds, random.Random(103), []
        self.make()

    def put(self, at, prio, pgn, sender, data, receiver=255):
        self.messages.append((at, prio, pgn, sender, receiver, data))

    def every(self, interval, first, prio, pgn, sender, data):
        """Sends a message at an interval, with jitter; `data` makes its bytes from the time and the count."""
        count = 0
        while first + count * interval < self.seconds:
            t = first + count * interval
            self.put(t + self.draw.uniform(-0.003, 0.003), prio, pgn, sender, data(t, count))
            count += 1

    def make(self):
        pack = struct.pack
        self.every(0.5, .10, 2, 129025, 3, lambda t, n: pack("<ii", int(548552841 + t * 215), int(105214976 + t * 331)))
        self.every(0.5, .11, 2, 129026, 3, lambda t, n: pack("<BBHHH", n % 253, 0xFC, 7200, 310, 0xFFFF))
        self.every(1, .12, 3, 126992, 3, lambda t, n: pack("<BBHI", n % 253, 0xF0, 20273, int((21600 + t) * 10000)))
        self.every(1, .13, 3, 129029, 3, lambda t, n: pack("<BHIqqqBBBhhiB", n % 253, 20273, int((21600 + t) * 10000), 54855284100000000 * 1, 10521497600000000 * 1, 1000000,
                                                            0x10, 0xFC, 12, 80, 150, 4000, 0))
        self.every(0.4, .04, 2, 127250, 5, lambda t, n: pack("<BHhhB", n % 253, 7000 + n % 50, 0x7FFF, 785, 0xFD))
        self.every(1, .17, 3, 128267, 6, lambda t, n: pack("<BIhB", n % 253, 1240 + n % 90, -350, 0xFF))
        self.every(1, .18, 2, 128259, 6, lambda t, n: pack("<BHHBH", n % 253, 290 + n % 9, 0xFFFF, 0, 0xFFFF))
        self.every(1, .19, 6, 128275, 6, lambda t, n: pack("<HIII", 20273, int((21600 + t) * 10000), 18520000 + int(3 * t), int(3 * t)))
        self.every(0.5, .06, 2, 130306, 8, lambda t, n: pack("<BHHBH", n % 253, 620 + n % 70, 7200, 0xFA, 0xFFFF))
        for instance, sender in ((0, 22), (1, 23)):
            self.every(0.4, .05 + .01 * instance, 2, 127488, sender, lambda t, n, at=instance: pack("<BHHbH", at, 7400 + n % 40, 0xFFFF, 0x7F, 0xFFFF))
            self.every(1, .09 + .01 * instance, 2, 127489, sender,
                       lambda t, n, at=instance: pack("<BHHHhhIHHBHHbb", at, 4120, 0xFFFF, 35615, 1421, 62, 4215600 + int(t), 0xFFFF, 0xFFFF, 0xFF, 0, 0, 0x7F, 0x7F))
        self.every(2.5, .20, 6, 127505, 41, lambda t, n: pack("<BhIB", 0, int((71.2 - t / 1000) / 0.004), 1600, 0xFF))
        for instance, sender in ((0, 43), (1, 44)):
            self.every(1.5, .21 + .02 * instance, 6, 127508, sender, lambda t, n, at=instance: pack("<BhhHB", at, 1284 + n % 3, -62, 29515, n % 253))
            self.every(1.5, .24 + .02 * instance, 6, 127506, sender, lambda t, n, at=instance: pack("<BBBBBHHH", n % 253, at, 0, 80, 99, 600, 20, 200))
        for sender in DEVICES:
            self.every(60, 4 + sender / 50, 7, 126993, sender, lambda t, n: pack("<HBBI", 60000, n % 253, 0xFF, 0xFFFFFFFF))
        # The plotter asks for all names once, and each device answers. It sends commands when a key is pressed.
        self.ask(2.0)
        for _ in range(self.seconds // 20):
            self.put(self.draw.uniform(5, self.seconds), 3, 126208, 1, bytes([1, 0x05, 0xFF, 0x00, 0xF8, 2, 1, 0, 2, 0xFF]), 12)

    def ask(self, t):
        self.put(t, 6, 59904, 1, b"\x00\xee\x00")
        self.put(t + .5, 6, 59904, 1, b"\x14\xf0\x01")
        for place, sender in enumerate(DEVICES):
            self.put(t + .01 + .002 * place, 6, 60928, sender, claim(sender))
            self.put(t + .6 + .02 * place, 6, 126996, sender, product(sender))

    def frames(self, counts="pgn"):
        """The frames of all messages by time. Fast packets are counted for each PGN, or by `counts` for each device."""
        counters, frames = {}, []
        for at, prio, pgn, sender, receiver, data in sorted(self.messages):
            identifier = prio << 26 | (pgn | (receiver if pgn >> 8 & 0xFF < 240 else 0)) << 8 | sender
            if pgn not in FAST:
                frames.append((at, identifier, data.ljust(8, b"\xff") if pgn != 59904 else data))
                continue
            key = (sender, pgn, receiver) if counts == "pgn" else sender
            sequence = counters[key] = (counters.get(key, -1) + 1) % 8
            data = bytes([len(data)]) + data
            for place in range((len(data) + 6) // 7):
                frames.append((at + .0006 * place, identifier, bytes([sequence << 5 | place]) + data[7 * place:7 * place + 7].ljust(7, b"\xff")))
        return sorted(frames)


def sender_of(frame):
    return frame[1] & 0xFF


def pgn_of(frame):
    pgn = frame[1] >> 8 & 0x3FFFF
    return pgn if pgn >> 8 & 0xFF >= 240 else pgn & 0x3FF00


def lines(frames):
    for at, identifier, data in frames:
        yield f"({START + at:.6f}) can0 {identifier:08X}#{data.hex().upper()}"


# The faults. Each function takes a bus of ten minutes, and returns frames or lines.
FAULTS = {}


def fault(*expected):
    """Each expected finding is a kind and an address, or None if it concerns no device."""
    def enter(make):
        FAULTS[make.__name__.replace("_", "-")] = make, expected
        return make
    return enter


def drop(frames, share, is_of, seed=7):
    draw = random.Random(seed)
    return [it for it in frames if not (is_of(it) and draw.random() < share)]


@fault(("loss", 22))
def loses_frames(bus):
    return drop(bus.frames(), 0.01, lambda it: sender_of(it) == 22 and pgn_of(it) in FAST)


@fault(("loss", 23))
def loses_frames_late(bus):
    return drop(bus.frames(), 0.05, lambda it: sender_of(it) == 23 and pgn_of(it) in FAST and it[0] > 300)


@fault(("loss", 43))
def loses_whole_messages(bus):
    draw = random.Random(5)
    gone = {at for at in range(1000) if draw.random() < 0.06}
    kept, count = [], -1
    for it in bus.frames():
        if sender_of(it) == 43 and pgn_of(it) == 127506:
            count += not it[2][0] & 31
            if count in gone:
                continue
        kept.append(it)
    return kept


@fault(("loss", 22))
def loses_of_one_counter(bus):
    """Devices that count all their fast packets together."""
    return drop(bus.frames("device"), 0.01, lambda it: sender_of(it) == 22 and pgn_of(it) in FAST)


@fault(("missed", 5))
def misses_headings(bus):
    return drop(bus.frames(), 0.04, lambda it: sender_of(it) == 5)


@fault(("missed", 8))
def misses_winds(bus):
    return drop(bus.frames(), 0.2, lambda it: sender_of(it) == 8)


@fault(("recording loses", None))
def recording_loses(bus):
    return drop(bus.frames(), 0.03, lambda it: True)


@fault(("gone", 8))
def gone(bus):
    return [it for it in bus.frames() if sender_of(it) != 8 or it[0] < 400]


@fault(("gone", 3))
def position_gone(bus):
    return [it for it in bus.frames() if sender_of(it) != 3 or it[0] < 500]


@fault(("silence", 22))
def silent_for_two_minutes(bus):
    return [it for it in bus.frames() if sender_of(it) != 22 or not 200 < it[0] < 320]


@fault(("silence", 6))
def loose_plug(bus):
    return [it for it in bus.frames() if sender_of(it) != 6 or not any(at < it[0] < at + 14 for at in (100, 170, 260, 350, 444))]


@fault(("stopped", 3))
def stops_one_pgn(bus):
    return [it for it in bus.frames() if sender_of(it) != 3 or pgn_of(it) != 129026 or it[0] < 333]


@fault(("paused", 6))
def pauses_one_pgn(bus):
    return [it for it in bus.frames() if sender_of(it) != 6 or pgn_of(it) != 128267 or not 200 < it[0] < 290]


@fault(("restart", 22))
def restart(bus):
    bus.messages = [it for it in bus.messages if it[3] != 22 or not 300 < it[0] < 303.2]
    bus.put(303.3, 6, 60928, 22, claim(22))
    return bus.frames()


@fault(("restart", 43))
def three_restarts(bus):
    for at in (100, 250, 480):
        bus.messages = [it for it in bus.messages if it[3] != 43 or not at < it[0] < at + 4]
        bus.put(at + 4, 6, 60928, 43, claim(43))
    return bus.frames()


@fault(("restart", 44))
def heartbeat_begins_anew(bus):
    bus.messages = [it for it in bus.messages if it[2:4] != (126993, 44)]
    for count, at in enumerate(range(10, 600, 20)):
        bus.put(at, 7, 126993, 44, struct.pack("<HBBI", 20000, count if at < 400 else count - 20, 0xFF, 0xFFFFFFFF))
    return bus.frames()


@fault(("double name", 44))
def one_name_at_two_addresses(bus):
    bus.messages = [it if it[2:4] != (60928, 44) else (*it[:5], claim(43)) for it in bus.messages]
    return bus.frames()


@fault(("two names", 41))
def two_names_at_one_address(bus):
    bus.put(60, 6, 60928, 41, claim(41, 99))
    bus.put(60.1, 6, 60928, 41, claim(41))
    bus.every(0.5, 60.3, 5, 130312, 41, lambda t, n: struct.pack("<BBBHHB", n % 253, 0, 0, 29115, 0xFFFF, 0xFF))
    return bus.frames()


@fault(("moved", 50))
def moves_to_another_address(bus):
    bus.messages = [it if it[3] != 44 or it[0] < 300 else (*it[:3], 50, *it[4:]) for it in bus.messages]
    bus.put(300, 6, 60928, 50, claim(44))
    return bus.frames()


@fault(("no address", 8))
def finds_no_address(bus):
    bus.messages = [it for it in bus.messages if it[3] != 8 or it[0] < 2.2]
    bus.put(3, 6, 60928, 254, claim(8))
    return bus.frames()


@fault(("instance", 43))
def two_batteries_of_one_instance(bus):
    bus.messages = [(*it[:5], b"\x00" + it[5][1:]) if it[2:4] == (127508, 44) else it for it in bus.messages]
    return bus.frames()


@fault(("instance", 22), ("instance", 22))
def two_engines_of_one_instance(bus):
    bus.messages = [(*it[:5], b"\x00" + it[5][1:]) if it[3] == 23 and it[2] in (127488, 127489) else it for it in bus.messages]
    return bus.frames()


@fault(("instance", 6))
def two_tanks_of_one_instance(bus):
    bus.every(2.5, 1.3, 6, 127505, 6, lambda t, n: struct.pack("<BhIB", 0, 1000, 1600, 0xFF))
    return bus.frames()


def rollover(data, place):
    day, = struct.unpack_from("<H", data, place)
    return data[:place] + struct.pack("<H", day - 7168) + data[place + 2:]


@fault(("device clock", 3))
def week_began_anew(bus):
    bus.messages = [(*it[:5], rollover(it[5], 2 if it[2] == 126992 else 1)) if it[2] in (126992, 129029) else it for it in bus.messages]
    return bus.frames()


@fault(("device clock", 44))
def one_wrong_clock(bus):
    bus.every(1, .5, 3, 126992, 44, lambda t, n: struct.pack("<BBHI", n % 253, 0xF0, 20273, int((21600 + t - 3600) * 10000)))
    return bus.frames()


@fault(("log clock", None))
def log_is_behind(bus):
    bus.every(1, .5, 3, 126992, 44, lambda t, n: struct.pack("<BBHI", n % 253, 0xF0, 20273, int((21600 + t) * 10000)))
    return [(at - 754, *it) for at, *it in bus.frames()]


@fault(("set back", None))
def log_is_set_back(bus):
    return [(at if at < 240 else at - 37, *it) for at, *it in bus.frames()]


@fault(("clock jump", 3))
def clock_jumps(bus):
    bus.messages = [(*it[:5], it[5][:4] + struct.pack("<I", struct.unpack_from("<I", it[5], 4)[0] - 180000)) if it[2] == 126992 and 100 < it[0] < 500 else it
                    for it in bus.messages]
    return bus.frames()


@fault(("overload", 5))
def overload(bus):
    bus.every(0.0007, 200, 7, 65300, 5, lambda t, n: struct.pack("<HHI", 0x9F41, n & 0xFFFF, n * 77))
    bus.messages = [it for it in bus.messages if it[2] != 65300 or it[0] < 225]
    return bus.frames()


def error(at, of_class, state=0):
    return at, 0x20000000 | of_class, bytes([0, state, 0, 0, 0, 0, 0, 0])


@fault(("errors", None))
def bus_errors(bus):
    return sorted([*bus.frames(), *(error(100 + n / 3, 0x88) for n in range(150))])


@fault(("bus off", None))
def bus_off(bus):
    return sorted([*(it for it in bus.frames() if not 300 < it[0] < 304), *(error(299 + n / 50, 0x88) for n in range(40)), error(300, 0x40), error(304, 0x100)])


@fault(("no acknowledgement", None))
def nobody_acknowledges(bus):
    return sorted([*bus.frames(), *(error(n / 5, 0x20) for n in range(1, 8))])


@fault(("recording loses", None))
def buffer_runs_over(bus):
    return sorted([*bus.frames(), *(error(50 + 70 * n, 0x04, 0x01) for n in range(5))])


@fault(("hole", None))
def hole(bus):
    return [it for it in bus.frames() if not 200 < it[0] < 260]


@fault(("no power", None))
def no_power(bus):
    bus.messages = [it for it in bus.messages if not 300 < it[0] < 304]
    for place, sender in enumerate(DEVICES):
        bus.put(304 + .01 * place, 6, 60928, sender, claim(sender))
    return bus.frames()


@fault(("bad", None))
def cut_lines(bus):
    return [line if place % 400 else line[:30] for place, line in enumerate(lines(bus.frames()), 1)]


def tanks(bus):
    """The tank sender has a second tank, 0.9 seconds after the first."""
    bus.every(2.5, 1.1, 6, 127505, 41, lambda t, n: struct.pack("<BhIB", 0x10, 9000 + n, 500, 0xFF))


def busy(bus):
    """Two tanks in turn; the plotter's waypoints and its proprietary messages, in bursts; ships, whose packets
    overlap."""
    tanks(bus)
    for burst in range(20, bus.seconds, 35):
        for place in range(20):
            bus.put(burst + .02 * place, 6, 129285, 1, struct.pack("<HHHHB", 0, 1, 1, 1, 0) + b"\x05\x01abc" + bytes(12))
            bus.put(burst + 3 + .011 * place, 7, 65305, 1, struct.pack("<HHI", 0x9F41, place, burst))
    for at in range(10, bus.seconds, 3):
        for ship in range(3):
            bus.put(at + .0017 * ship, 4, 129038, 5, struct.pack("<BI", 1, 219000000 + ship) + bytes(22))
    return bus.frames()


@fault(("loss", 5))
def loses_of_overlapping_packets(bus):
    busy(bus)
    return drop(bus.frames(), 0.03, lambda it: pgn_of(it) == 129038)


@fault(("silence", 41))
def silent_with_two_tanks(bus):
    tanks(bus)
    return [it for it in bus.frames() if sender_of(it) != 41 or not 200 < it[0] < 245]


@fault(("stopped", 41))
def two_tanks_stop(bus):
    tanks(bus)
    bus.every(2, .4, 5, 130316, 41, lambda t, n: struct.pack("<BBB", n % 253, 0, 0) + struct.pack("<I", 291350)[:3] + b"\xff\xff")
    return [it for it in bus.frames() if pgn_of(it) != 127505 or it[0] < 400]


@fault(("gone", 8))
def gone_while_others_send_in_bursts(bus):
    busy(bus)
    return [it for it in bus.frames() if sender_of(it) != 8 or it[0] < 400]


@fault(("no power", None))
def no_power_for_six_seconds(bus):
    bus.messages = [it for it in bus.messages if not 300 < it[0] < 306]
    for place, sender in enumerate(DEVICES):
        bus.put(306 + .01 * place, 6, 60928, sender, claim(sender))
    return bus.frames()


@fault(("hole", None))
def short_hole(bus):
    return [it for it in bus.frames() if not 200 < it[0] < 207]


def changed(bus):
    """Eight changes and no fault: 8 is gone, 44 moved to 50 and is battery 2, 41 has other software, 5 sends each
    second, 3 sends no course, 6 a temperature, 22 has an alarm, and 43 has 11.90 V."""
    messages, software = [], lambda data: data.replace(b"2.10", b"2.11")
    for at, prio, pgn, sender, receiver, data in bus.messages:
        if sender == 8 or (pgn, sender) in ((129026, 3), (127250, 5)):
            continue
        if sender == 44:
            sender = 50
            if pgn in (127506, 127508):
                data = bytes([2]) + data[1:] if pgn == 127508 else data[:1] + bytes([2]) + data[2:]
        elif (pgn, sender) == (126996, 41):
            data = software(data)
        elif (pgn, sender) == (127508, 43):
            data = data[:1] + struct.pack("<h", 1190) + data[3:]
        elif (pgn, sender) == (127489, 22) and 100 < at < 110:
            data = data[:20] + bytes([4]) + data[21:]
        messages.append((at, prio, pgn, sender, receiver, data))
    bus.messages = messages
    bus.every(1, .05, 2, 127250, 5, lambda t, n: struct.pack("<BHhhB", n % 253, 7000 + n % 50, 0x7FFF, 785, 0xFD))
    bus.every(2, .4, 5, 130316, 6, lambda t, n: struct.pack("<BBB", n % 253, 0, 0) + struct.pack("<I", 291350)[:3] + b"\xff\xff")
    return bus.frames()


def main(words):
    if words[0] == "--list":
        for name, (_, expected) in FAULTS.items():
            print(name, *(f"{kind}:{'-' if device is None else device}".replace(" ", "_") for kind, device in expected))
        return
    if words[0] in ("healthy", "changed"):
        bus = Bus(60 * int(words[1]) if len(words) > 1 else 3600)
        made = bus.frames() if words[0] == "healthy" else changed(bus)
    elif words[0] == "busy":
        made = busy(Bus(600))
    else:
        made = FAULTS[words[0]][0](Bus(600))
    for line in made if made and isinstance(made[0], str) else lines(made):
        sys.stdout.write(line + "\n")


if __name__ == "__main__":
    main(sys.argv[1:])
