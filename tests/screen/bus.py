#!/usr/bin/env python3
"""A made-up bus, as `candump -L can0` prints it:

    bus.py boat SECONDS [START]                 a boat under way: nine devices, some 60 messages a second
    bus.py crowd LINES A_SECOND                 200 devices, with lines that are bad, groups that break, unknown PGNs, ships that
                                                come and go
    bus.py flood MESSAGES A_SECOND              241 invented devices, each with an alarm of 110 engines

The same lines each time.
"""
import math
import struct
import sys

START = 1751608800


def frame(at, prio, pgn, sender, data):
    return f"({at:.6f}) can0 {prio << 26 | pgn << 8 | sender:08X}#{data.hex().upper()}"


def fast(at, prio, pgn, sender, data, sequence):
    """The frames of a fast packet, 0.5 ms apart."""
    data = bytes([len(data)]) + data
    return [frame(at + 0.0005 * place, prio, pgn, sender, bytes([sequence % 8 << 5 | place]) + data[7 * place:7 * place + 7].ljust(7, b"\xff"))
            for place in range((len(data) + 6) // 7)]


def claim(sender, maker, function, of_class):
    name = sender * 4711 % (1 << 21) | maker << 21 | function << 40 | of_class << 49 | 4 << 60 | 1 << 63
    return struct.pack("<Q", name)


def product(model, serial):
    def text(it):
        return it.encode().ljust(32, b"\xff")
    return struct.pack("<HH", 2101, 1234) + text(model) + text("2.10") + text("1") + text(serial) + b"\x01\x01"


DEVICES = [
    (3, 229, "GPS 24xd", "7GA004131", 145, 60), (5, 137, "SSC300 Compass", "1310488", 140, 60), (6, 135, "DST810 Triducer", "6012774", 130, 60),
    (8, 135, "220WX WeatherStation", "5881203", 130, 85), (12, 275, "AC12N Autopilot", "0043-21-118", 150, 40), (22, 137, "J2K100", "00412377", 140, 50),
    (41, 137, "TLA100 Fuel", "1420331", 150, 75), (43, 358, "BMV-712 Smart", "HQ2138YQK5C", 170, 35), (60, 275, "NAIS-500", "119021", 195, 70)]


def boat(seconds, start=START, stop=12):
    """The engine is silent for 28 seconds from the second `stop` on; its alert begins two seconds before, and ends
    during the silence."""
    lines = []
    sequence = 0
    for tenth in range(int(seconds * 10)):
        at, t = start + tenth / 10, tenth / 10
        course = 0.72 + 0.05 * math.sin(t / 9)
        speed = 3.1 + 0.3 * math.sin(t / 13)
        lines.append(frame(at + .0142, 2, 129025, 3, struct.pack("<ii", int(548552841 + t * 215), int(105214976 + t * 331))))
        lines.append(frame(at + .0163, 2, 129026, 3, struct.pack("<BBHHH", tenth % 253, 0xFC, int(course * 10000), int(speed * 100), 0xFFFF)))
        lines.append(frame(at + .0311, 2, 127250, 5, struct.pack("<BHhhB", tenth % 253, int((course - 0.07 + 0.01 * math.sin(t)) * 10000), 0x7FFF, 785, 0xFD)))
        lines.append(frame(at + .0405, 2, 127245, 12, struct.pack("<BBhhH", 0, 0xF8, 0x7FFF, int(400 * math.sin(t / 3)), 0xFFFF)))
        if t < stop or t > stop + 28:
            lines.append(frame(at + .0552, 2, 127488, 22, struct.pack("<BHHbH", 0, int((1850 + 20 * math.sin(t)) * 4), 0xFFFF, 0x7F, 0xFFFF)))
        if tenth % 5 == 2:
            lines.append(frame(at + .0603, 2, 130306, 8, struct.pack("<BHHBH", tenth % 253, int((6.2 + math.sin(t / 5)) * 100), int((0.72 + 0.06 * math.sin(t / 4)) * 10000), 0xFA, 0xFFFF)))
        if tenth % 10 == 4:
            lines.append(frame(at + .0702, 3, 128267, 6, struct.pack("<BIhB", tenth % 253, int((12.4 + 2 * math.sin(t / 30)) * 100), -350, 0xFF)))
            lines.append(frame(at + .0723, 2, 128259, 6, struct.pack("<BHHBH", tenth % 253, int((speed - 0.2) * 100), 0xFFFF, 0, 0xFFFF)))
            lines.append(frame(at + .0741, 5, 130316, 6, struct.pack("<BBB", tenth % 253, 0, 0) + struct.pack("<I", 291350)[:3] + b"\xff\xff"))
        if tenth % 15 == 7:
            lines.append(frame(at + .0803, 6, 127508, 43, struct.pack("<BhhHB", 0, int((12.84 + 0.02 * math.sin(t)) * 100), -62, 29515, tenth % 253)))
        if tenth % 25 == 8:
            lines.append(frame(at + .0905, 6, 127505, 41, struct.pack("<BhIB", 0, int((71.2 - t / 100) / 0.004), 1600, 0xFF)))
        if tenth % 5 == 3 and (t < stop or t > stop + 28):
            sequence += 1
            engine = struct.pack("<BHHHhhIHHBHHbb", 0, 4120, 0xFFFF, 35615, 1421, 62, 4215600 + int(t), 0xFFFF, 0xFFFF, 0xFF, 0, 0, 0x7F, 0x7F)
            lines += fast(at + .0955, 2, 127489, 22, engine, sequence)
        if tenth % 30 == 9:
            sequence += 1
            ship = struct.pack("<BIii", 1, 211000000 + tenth // 30 % 3, int(105314976 + t * 900), int(548652841 - t * 400))
            ship += struct.pack("<BHH", 0x2C, int(2.41 * 10000), 615) + b"\x00\x00\x04" + struct.pack("<HhBBB", 24000, 0, 0xF0, 0xFF, 0xFF)
            lines += fast(at + .0966, 4, 129038, 60, ship, sequence)
        if tenth % 100 == 60:
            lines.append(frame(at + .0981, 7, 65300, 9, bytes.fromhex("419F0017FFFFFFFF")))
        if tenth % 600 == 15:
            for place, (sender, maker, model, serial, function, of_class) in enumerate(DEVICES):
                sequence += 1
                lines.append(frame(at + .001 * place, 6, 60928 | 0xFF, sender, claim(sender, maker, function, of_class)))
                lines += fast(at + .02 + .006 * place, 6, 126996, sender, product(model, serial), sequence)
        if t in (stop - 2, stop + 23):
            state = 2 if t < stop else 1
            alert = struct.pack("<BBBHQBBBB", 0x15, 0, 1, 47, 0, 0, 0, 1, 0xC0) + struct.pack("<Q", 0) + bytes([0x11, 1, state])
            lines += fast(at + .099, 2, 126983, 22, alert, 3)
    return lines


def crowd(count, rate, start=START):
    """200 devices in turn, each with ten PGNs of single frames and one fast packet; of 1,000 lines one is bad, one
    breaks a group, and ten have unknown PGNs. Each AIS message is of a new ship."""
    single = [(127250, 2), (127251, 2), (127257, 3), (127508, 6), (128259, 2), (128267, 3), (129025, 2), (129026, 2), (130306, 2), (127245, 2)]
    for number in range(count):
        at = start + number / rate
        sender, turn = number % 200, number // 200
        if number % 1000 == 501:
            yield f"({at:.6f}) can0 09F8"
        elif number % 1000 in (502, 503):
            # A repeated frame breaks its group.
            yield frame(at, 6, 129029, 201, bytes.fromhex("002B00D1067414FF"))
        elif number % 100 == 17:
            yield frame(at, 7, 65299 + number // 1000 % 3, sender, bytes(8))
        elif turn % 20 == 19:
            yield frame(at, 2, 127250, sender, struct.pack("<BHhhB", turn % 253, number % 62000, 0x7FFF, 785, 0xFD))
        elif turn % 20 > 15:
            # A fast packet of three frames, and a new ship.
            place = turn % 20 - 16
            ship = bytes([18]) + struct.pack("<BIiiBHH", 1, 200000000 + number // 4000 * 200 + sender, 105314976 + turn, 548652841 + turn, 0x2C, 24100, 615)
            yield frame(at, 4, 129038, sender, bytes([turn // 20 % 8 << 5 | place]) + ship[7 * place:7 * place + 7].ljust(7, b"\xff"))
        else:
            pgn, prio = single[(turn + sender) % 10]
            yield frame(at, prio, pgn, sender, struct.pack("<BHHBH", turn % 253, number % 30000, (number * 7) % 30000, 0xFC, number % 60000))


def flood(count, rate, start=START):
    """241 devices in turn; each reports for 110 engines, one after another, that the engine has to be checked."""
    for number in range(count):
        sender, instance = number % 241, number // 241 % 110
        engine = struct.pack("<BHHHhhIHHBHHbb", instance, 4120, 0xFFFF, 35615, 1421, 62, 4215600, 0xFFFF, 0xFFFF, 0xFF, 1, 0, 0x7F, 0x7F)
        yield from fast(start + number / rate, 2, 127489, sender, engine, number // 241)


def main(words):
    if words[0] == "boat":
        lines = boat(float(words[1]), float(words[2]) if len(words) > 2 else START)
    else:
        lines = {"crowd": crowd, "flood": flood}[words[0]](int(words[1]), int(words[2]))
    for line in lines:
        sys.stdout.write(line + "\n")


if __name__ == "__main__":
    main(sys.argv[1:])
