#!/usr/bin/env python3
"""Prints a log of frames over a whole table, for trials: each definition in turn, random fields and sets, eight senders
mixed.

    tools/random_log.py TABLE SEED LINES

All messages are whole. The same arguments print the same log (Python 3.11 or newer).
"""
import collections
import random
import sys
import tomllib

HEADS = {"lau": 2, "lz": 1}  # bytes before the characters of a string
LETTERS = "ABCabc012 -'\"\\}{,:@é日"


def placed(fields, begin, rng):
    """Lays out fields from bit `begin`, with strings of up to 12 bytes: the end of the last field, the strings' first
    bytes with their forms and sizes, and where each string ends."""
    last, strings, ends = begin, [], {None: begin}
    for f in fields:
        end = ends[f.get("after")] + f["at"]
        if f["kind"] == "string":
            size = rng.randrange(13)
            strings.append((end // 8, f["form"], size))
            end = ends[f["name"]] = end + 8 * (size + HEADS[f["form"]])
        else:
            end += f["bits"]
        last = max(last, end)
    return last, strings, ends


def put_string(data, at, form, size, rng):
    """Writes a string's length, encoding and characters, as far as they fit into the data."""
    is_wide = form == "lau" and rng.random() < 0.5
    text = "".join(rng.choices(LETTERS, k=size)).encode("utf-16-le" if is_wide else "utf-8")[:size]
    string = bytes([size + 2, not is_wide] if form == "lau" else [size]) + text
    data[at:at + len(string)] = string[:max(len(data) - at, 0)]


def data_of(definition, rng):
    """The data of a message: the bytes of its fields and of up to three sets (eight in a single frame; part of them if
    a field may be short). All are random except strings and match fields."""
    bits, strings, ends = placed(definition["fields"], 0, rng)
    bits = bits if definition["fields"] else 8
    if "repeat" in definition:
        sets = definition["repeat"]
        begin = ends[sets.get("after")] + sets["at"]
        for _ in range(rng.randrange(4)):
            _, of_set, _ = placed(sets["fields"], begin, rng)
            strings += of_set
            begin += sets["bits"] + sum(8 * (size + HEADS[form]) for _, form, size in of_set)
        bits = max(bits, begin)
    size = 8 if definition["kind"] == "single" else min((bits + 7) // 8, 223)
    if size > 8 and any(f.get("short") for f in definition["fields"]):
        size = rng.randint(9, size)
    data = bytearray(rng.getrandbits(8 * size).to_bytes(size, "little"))
    for at, form, length in strings:
        put_string(data, at, form, length, rng)
    data = int.from_bytes(data, "little")
    for f in definition["fields"]:
        if "match" in f:
            data &= ~(((1 << f["bits"]) - 1) << f["at"])
            data |= f["match"] << f["at"]
    return data.to_bytes(size, "little")


def frames_of(definition, data, sequence):
    if definition["kind"] == "single":
        return [data]
    data = bytes([len(data)]) + data
    starts = range(0, len(data), 7)
    return [(bytes([sequence << 5 | i]) + data[at:at + 7]).ljust(8, b"\xff") for i, at in enumerate(starts)]


def main(table, seed, lines):
    rng = random.Random(int(seed))
    with open(table, "rb") as file:
        definitions = tomllib.load(file)["pgn"]
    waiting = [collections.deque() for _ in range(8)]  # the frames that each sender has yet to send
    sequences = collections.Counter()
    turn, left = [], int(lines)
    while left > 0:
        sender = rng.randrange(8)
        if not waiting[sender]:
            turn = turn or rng.sample(definitions, len(definitions))
            definition = turn.pop()
            # A PGN that goes to one address has format (its second byte) below 240 and the address in its low byte.
            address = rng.randrange(256) if definition["number"] >> 8 & 255 < 240 else 0
            identifier = rng.randrange(8) << 26 | definition["number"] << 8 | address << 8 | sender
            frames = frames_of(definition, data_of(definition, rng), sequences[identifier & 0x3FFFFFF] % 8)
            if len(frames) > left - sum(map(len, waiting)):  # too few lines left: the other messages first, then shorter ones
                if any(waiting):
                    sender = rng.choice([s for s in range(8) if waiting[s]])
                else:
                    continue
            else:
                sequences[identifier & 0x3FFFFFF] += 1
                waiting[sender].extend((identifier, frame) for frame in frames)
        identifier, frame = waiting[sender].popleft()
        at = int(lines) - left
        print(f"({1751608800 + at // 1000}.{at % 1000 * 1000:06}) can0 {identifier:08X}#{frame.hex().upper()}")
        left -= 1


if __name__ == "__main__":
    if len(sys.argv) != 4:
        sys.exit(__doc__)
    main(*sys.argv[1:])
