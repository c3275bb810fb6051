#!/usr/bin/env python3
"""Counts a log of candump a second time, by other means than the recipes, and compares with the output of `n2k --health
--json`:

    count.py LOG HEALTH.json TABLE

Frames, complete messages and broken groups of each device and PGN, the median and the longest gap, steps of the sequence numbers, and the
bits of the bus with their stuff bits. It reads the whole log first and knows the formats from their description alone. Each difference is
a line; the last line says how many values are the same. The status is 1 if there is a difference.
"""
import collections
import json
import re
import statistics
import sys

WINDOW = 10000


def fast_pgns(table):
    """The PGNs that are fast packets in the table."""
    kinds = re.findall(r'^number = (\d+)$\n(?:.*\n)*?kind = "(\w+)"', open(table).read(), re.M)
    return {int(number) for number, kind in kinds if kind == "fast"}, {int(number) for number, _ in kinds}


def bits_on_wire(identifier, data):
    """A frame written bit by bit."""
    bits = "0" + f"{identifier >> 18:011b}" + "11" + f"{identifier & 0x3FFFF:018b}" + "000" + f"{len(data):04b}" + "".join(f"{it:08b}" for it in data)
    crc = 0
    for bit in bits:
        top = crc >> 14 & 1 ^ int(bit)
        crc = crc << 1 & 0x7FFF
        if top:
            crc ^= 0x4599
    sent = ""
    for bit in bits + f"{crc:015b}":
        sent += bit
        # After five equal bits the sender inserts the opposite bit; this stuff bit counts as the first of the next run.
        if len(sent) >= 5 and sent[-5:] == 5 * bit:
            sent += "10"[int(bit)]
    return len(sent) + 1 + 2 + 7 + 3


def read(log):
    """Each frame: its line number, time, identifier, data."""
    for number, line in enumerate(open(log), 1):
        found = re.fullmatch(r"\((\d+\.\d+)\) \S+ ([0-9A-F]{8})#([0-9A-F]*)\n?", line)
        if found and int(found[2], 16) < 1 << 29:
            yield number, float(found[1]), int(found[2], 16), bytes.fromhex(found[3])


def main(log, report, table):
    fast, known = fast_pgns(table)
    told = json.load(open(report))
    frames, messages, broken, steps = (collections.Counter() for _ in range(4))
    starts, groups, sequences, holes, bits = collections.defaultdict(list), {}, {}, [], 0
    before = None
    for number, at, identifier, data in read(log):
        sender, pgn, receiver = identifier & 255, identifier >> 8 & 0x3FFFF, 255
        if pgn >> 8 & 255 < 240:
            pgn, receiver = pgn & 0x3FF00, pgn & 255
        key = sender, pgn
        frames[key] += 1
        bits += bits_on_wire(identifier, data)
        if before is not None and at - before > 2:
            sequences.clear()
        if before is not None and at - before > 10:
            holes.append(before)
        before = at
        if pgn == 60928:
            sequences = {lane: it for lane, it in sequences.items() if lane[0] != sender}
        for of in [of for of, group in groups.items() if number >= group["line"] + WINDOW]:
            broken[of[:2]] += 1
            del groups[of]
        if pgn not in fast:
            starts[key].append(at)
            messages[key] += pgn in known
            continue
        sequence, place = data[0] >> 5, data[0] & 31
        lane, of = (sender, pgn, receiver), (sender, pgn, receiver, sequence)
        if place == 0:
            starts[key].append(at)
        # The last two numbers of this lane: the ends of two messages may overlap.
        had = sequences.get(lane, [])
        if place == 0 or sequence not in had:
            if had:
                steps[key + ((sequence - had[-1]) % 8,)] += 1
            sequences[lane] = [*had[-1:], sequence]
        group = groups.get(of)
        if group and place <= max(group["places"]):
            broken[key] += 1
            group = None
        if group is None:
            group = groups[of] = {"line": number, "places": set(), "total": None}
        group["places"].add(place)
        if place == 0:
            group["total"] = data[1]
        if group["total"] is not None and group["places"] == set(range(group["total"] // 7 + 1)):
            messages[key] += 1
            del groups[of]
    same = wrong = 0

    def compare(what, mine, its):
        nonlocal same, wrong
        same, wrong = same + (mine == its), wrong + (mine != its)
        if mine != its:
            print(f"{what}: {mine} counted, {its} said")
    seen = set()
    for device in told["devices"]:
        for flow in device["pgns"]:
            key = device["address"], flow["pgn"]
            seen.add(key)
            name = f"{key[1]} from {key[0]}"
            compare(f"frames of {name}", frames[key], flow["frames"])
            compare(f"messages of {name}", messages[key], flow["messages"])
            compare(f"broken groups of {name}", broken[key], flow["broken"] + flow["cut"])
            compare(f"steps of {name}", {str(by): often for (*of, by), often in sorted(steps.items()) if tuple(of) == key}, flow["steps"])
            gaps = [after - at for at, after in zip(starts[key], starts[key][1:]) if not any(at <= begin < after for begin in holes)]
            if gaps:
                compare(f"longest gap of {name}", round(max(gaps), 3), flow["longest"])
                usual = statistics.median_low(gaps)
                compare(f"usual gap of {name}", True, abs(flow["usual"] - usual) <= 0.05 * usual + 0.0006 or f"{flow['usual']}, not {usual}")
        compare(f"frames of {device['address']}", sum(often for (sender, _), often in frames.items() if sender == device["address"]), device["frames"])
    compare("devices and PGNs", sorted(frames), sorted(seen))
    compare("all frames", sum(frames.values()), told["frames"])
    compare("bits", bits, told["bus"]["bits"])
    print(f"{same} values are the same")
    return int(wrong > 0)


if __name__ == "__main__":
    sys.exit(main(*sys.argv[1:]))
