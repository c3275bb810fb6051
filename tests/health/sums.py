#!/usr/bin/env python3
"""Sums up a trip a second time, from the frames of a log of bus.py and by other means than the recipes, and compares
with `n2k --trip --json`:

    sums.py LOG TRIP.json

The distance is summed by vectors, the rest by lists of all values. Each difference is a line; the last line gives the
number of equal sums.
"""
import json
import math
import struct
import sys


def messages(log):
    """Time, sender, PGN and bytes of each message whose frames all exist, in this order."""
    parts = {}
    for line in open(log):
        stamp, _, frame = line.split()
        word, _, digits = frame.partition("#")
        number, data, at = int(word, 16), bytes.fromhex(digits), float(stamp[1:-1])
        sender, pgn = number & 255, number >> 8 & 0x3FFFF
        # A message's timestamp is cut to milliseconds.
        at = math.floor(at * 1000 + 1e-4) / 1000
        if pgn in (127489, 128275):
            key = sender, pgn, data[0] >> 5
            parts[key] = (parts.get(key, b"") if data[0] & 31 else b"") + data[1:]
            total = parts[key][0]
            if len(parts[key]) > total:
                yield at, sender, pgn, parts.pop(key)[1:total + 1]
        else:
            yield at, sender, pgn, data


def vector(latitude, longitude):
    a, b = math.radians(latitude), math.radians(longitude)
    return math.cos(a) * math.cos(b), math.cos(a) * math.sin(b), math.sin(a)


def miles(one, other):
    cross = (one[1] * other[2] - one[2] * other[1], one[2] * other[0] - one[0] * other[2], one[0] * other[1] - one[1] * other[0])
    return 60 * math.degrees(math.atan2(math.hypot(*cross), sum(a * b for a, b in zip(one, other))))


def over(values):
    """Sums each value times the time to the next one, if they are at most a minute apart."""
    return [(value, after - at) for (at, value), (after, _) in zip(values, values[1:]) if 0 <= after - at <= 60]


def main(log, report):
    told = json.load(open(report))
    places, logs, rates, speeds, currents, grounds, depths, winds, times = [], [], {}, {}, {}, [], [], [], []
    for at, sender, pgn, data in messages(log):
        times.append(at)
        if pgn == 129025:
            places.append((at, vector(*(it / 1e7 for it in struct.unpack("<ii", data)))))
        elif pgn == 129026:
            grounds.append((at, struct.unpack_from("<H", data, 4)[0] / 100))
        elif pgn == 128275:
            logs.append((at, struct.unpack_from("<I", data, 6)[0]))
        elif pgn == 127489:
            rates.setdefault(data[0], []).append((at, struct.unpack_from("<h", data, 9)[0] / 10))
        elif pgn == 127488:
            speeds.setdefault(data[0], []).append((at, struct.unpack_from("<H", data, 1)[0] / 4))
        elif pgn == 127508:
            currents.setdefault(data[0], []).append((at, struct.unpack_from("<h", data, 3)[0] / 10))
        elif pgn == 128267:
            depths.append(struct.unpack_from("<I", data, 1)[0] / 100)
        elif pgn == 130306:
            winds.append(struct.unpack_from("<H", data, 1)[0] / 100)
    # Stretches without a gap; each contains the points 20 m from the last one that counts, and its last point.
    way, stretch = 0.0, []
    for place in [*places, (math.inf, None)]:
        if stretch and place[0] - stretch[-1][0] > 60:
            kept = stretch[0][1]
            for _, point in stretch[1:]:
                if miles(kept, point) * 1852 >= 20:
                    way, kept = way + miles(kept, point), point
            way, stretch = way + miles(kept, stretch[-1][1]), []
        stretch.append(place)
    mine = {"over ground": way, "through water": sum(b - a for (at, a), (after, b) in zip(logs, logs[1:]) if after - at <= 60) / 1852,
            "under way": sum(took for value, took in over(grounds) if value >= 1852 / 3600), "gaps": sum(after - at > 60 for at, after in zip(times, times[1:])),
            "least depth": min(depths), "strongest wind": max(winds),
            "litres": sum(value * took for it in rates.values() for value, took in over(it)) / 3600,
            "running": sum(took for it in speeds.values() for value, took in over(it) if value > 0),
            "discharged": sum(-value * took for it in currents.values() for value, took in over(it) if value < 0) / 3600}
    its = {"over ground": told["ground"]["miles"], "through water": told["water"]["miles"], "under way": told["under_way"], "gaps": len(told["gaps"]),
           "least depth": told["depth"][0], "strongest wind": told["wind"]["Apparent"][0], "litres": sum(it["litres"] for it in told["engines"]),
           "running": sum(it["seconds"] for it in told["engines"]), "discharged": sum(it["discharged"] for it in told["batteries"])}
    wrong = [name for name in mine if abs(mine[name] - its[name]) > 0.0005 + 1e-5 * abs(mine[name])]
    for name in wrong:
        print(f"{name}: {mine[name]} summed, {its[name]} said")
    print(f"{len(mine) - len(wrong)} sums are the same")
    return int(bool(wrong))


if __name__ == "__main__":
    sys.exit(main(*sys.argv[1:]))
