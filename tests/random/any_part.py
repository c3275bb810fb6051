#!/usr/bin/env python3
"""How many lines before a part of a log suffice: a second reader of the rules of groups, on random logs.

    any_part.py LOGS SEED

The frames of up to six keys are interleaved, lost, repeated, late or reordered, with windows of W = 32 to 10,000 lines.
Each log is cut at twenty places. In order, the lines from a cut on give the messages of the whole log if the W - 1
lines before the cut were read. If the groups open at the cut are those of the whole log, in key, frames and distance,
the reports are the same too, with their line numbers moved; if not, some reports differ. Two logs show that W - 2 lines
are too few, and W - 1 lines without order.
"""
import random
import sys


# The two frames of a message of 13 bytes.
FIRST, SECOND = ("frame", 0, 0, bytes([13, 1, 2, 3, 4, 5, 6])), ("frame", 0, 1, bytes(7))


class Join:
    """The open groups: for each key the first line, and the bytes of its frames by number."""

    def __init__(self, window, in_order):
        self.lines, self.window, self.in_order, self.groups = 0, window, in_order, {}

    def line(self, entry):
        """The result of a line: a message, whether the line is bad, and the groups that it breaks."""
        self.lines += 1
        broken = sorted((first, key) for key, (first, _) in self.groups.items() if first + self.window <= self.lines)
        for _, key in broken:
            del self.groups[key]
        if not isinstance(entry, tuple):
            return None, entry == "bad", broken
        if entry[0] == "whole":
            return entry, False, broken
        _, key, number, data = entry
        first, frames = self.groups.pop(key, (self.lines, {}))
        if number in frames or self.in_order and any(it > number for it in frames):
            broken.append((first, key))
            first, frames = self.lines, {}
        frames = {**frames, number: data}
        if 0 in frames and set(frames) == set(range(frames[0][0] // 7 + 1)):
            raw = b"".join(frames[it] for it in range(len(frames)))
            return (key, raw[1 : raw[0] + 1]), False, broken
        self.groups[key] = first, frames
        return None, False, broken

    def run(self, entries):
        return [self.line(it) for it in entries]

    def open(self):
        return {key: (self.lines - first, frames) for key, (first, frames) in self.groups.items()}


def log(chance, window):
    keys, length, under, out = chance.randint(1, 6), window * chance.choice([2, 3, 4]) + chance.randint(0, 60), [], []
    loss, swapped, late, idle = chance.choice([0, 0.02, 0.1, 0.3]), chance.choice([0, 0, 0.05, 0.3]), chance.choice([0, 0, 0.3, 0.8]), chance.choice([0, 0.1, 0.5])
    while len(out) < length:
        if len(under) < chance.randint(0, keys):
            total = chance.choice([0, 5, 6, 7, 13, 20, 48, chance.randint(0, 223)])
            data = bytes([total]) + chance.randbytes(total)
            key = chance.randrange(keys)
            frames = [("frame", key, n // 7, data[n : n + 7].ljust(7, b"\xff")) for n in range(0, len(data), 7)]
            if chance.random() < swapped:
                chance.shuffle(frames)
            under.append((frames, chance.random() < late))
        elif under and chance.random() > idle:
            one = chance.choice(under)
            if one[1] and chance.random() < 0.9:
                out.append(None)
                continue
            if chance.random() >= loss:
                out.append(one[0][0])
            if chance.random() >= loss / 4:
                one[0].pop(0)
            if not one[0] or chance.random() < 0.004:
                under.remove(one)
        else:
            out.append(chance.choice([None, "bad", ("whole", len(out))]))
        if chance.random() < 0.001:
            out += [None] * chance.choice([window // 2, window - 2, window - 1, window])
    return out


def messages(given):
    return [it[0] for it in given]


def moved(given, lines):
    return [(message, bad, [(first + lines, key) for first, key in broken]) for message, bad, broken in given]


def same_from(entries, window, in_order, lines):
    """Whether the last entry has the same result as in the whole log if this many lines before it are read."""
    return messages(Join(window, in_order).run(entries))[-1] == messages(Join(window, in_order).run(entries[-lines - 1 :]))[-1]


def main():
    count, chance = int(sys.argv[1]), random.Random(sys.argv[2])
    cuts = wrong = alike = differ = 0
    for window in (32, 33, 10000):
        late = [FIRST] + [None] * (window - 2) + [SECOND]
        early = [SECOND, FIRST] + [None] * (window - 2) + [SECOND]
        wrong += not same_from(late, window, True, window - 1) or same_from(late, window, True, window - 2)
        wrong += not same_from(early, window, True, window - 1) or same_from(early, window, False, window - 1)
    for number in range(count):
        window = chance.choice([32, 32, 33, 40, 64, chance.randint(32, 130)]) if number % 100 != 99 else 1000 if number % 1000 != 999 else 10000
        entries = log(chance, window)
        join, whole, states = Join(window, True), [], []
        for it in entries:
            states.append(join.open())
            whole.append(join.line(it))
        for cut in sorted(chance.sample(range(window, len(entries)), min(20, len(entries) - window))):
            cuts += 1
            rest = entries[cut:]
            part = Join(window, True)
            part.run(entries[cut - (window - 1) : cut])
            same, ahead = part.open() == states[cut], cut - part.lines
            given = part.run(rest)
            reports = moved(given, ahead) == whole[cut:]
            wrong += messages(given) != messages(whole[cut:]) or same and not reports
            alike, differ = alike + same, differ + (not reports)
    print(f"{cuts} cuts, {wrong} wrong; the groups are those of the whole log at {alike}, reports differ at {differ}")
    return bool(wrong or not (alike and differ))


sys.exit(main())
