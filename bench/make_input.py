#!/usr/bin/env python3
"""Prints bench/input.txt, the input of all workloads:

    bench/make_input.py tables/n2k.toml 4000 > bench/input.txt

with this many lines of the bus; crates/n2k_bench/stdin, for the stored run, is made from examples/sample.toml and 200.

A section begins with a line `=== NAME`. `bus` is a boat's bus for twenty seconds: 40 senders with the messages of a
boat, a sixth of them drawn from the whole table, some with PGNs that no table has; candump lines and plain lines with
canboat's and with our timestamps, fifty of one form at a time. `whole` is whole messages as plain lines, `bad` bad
lines, `open` frames that each open a group, `table` the table. The same arguments print the same text (Python 3.11 or
newer). The input stays fixed: the program changes timestamps, senders and data by its seed.
"""
import random
import sys
import tomllib

OFTEN = {  # PGN: messages a second, as on a boat of medium size
    127250: 10, 127251: 10, 127245: 10, 127257: 5, 127258: 1, 128259: 2, 128267: 2, 128275: 1, 129025: 10, 129026: 5,
    129029: 2, 129033: 1, 129283: 1, 129284: 1, 129285: 0.3, 129539: 1, 129540: 1, 130306: 10, 130310: 1, 130311: 1,
    130312: 1, 130314: 1, 130316: 1, 127488: 10, 127489: 2, 127493: 2, 127505: 1, 127506: 1, 127508: 2, 126992: 1,
    126993: 1, 126996: 0.3, 129038: 3, 129039: 2, 129794: 0.5, 129809: 0.4, 129810: 0.4, 129041: 0.3, 127237: 2,
    130577: 1, 130578: 1, 59904: 0.5, 60928: 0.3, 65280: 1, 130820: 1, 126208: 0.3,
}
UNKNOWN = [(61184, False), (65500, False), (130900, True), (126986, False)]


def number_of(field, rng, lookups):
    bits = field["bits"]
    if "match" in field:
        return field["match"]
    if field["kind"] == "lookup":
        values = [v for v, *_ in lookups[field["lookup"]] if v < 1 << bits]
        return rng.choice(values) if values and rng.random() < 0.9 else (1 << bits) - 1
    if field["kind"] in ("text", "bytes"):
        size = bits // 8
        text = "".join(rng.choice("ABCDEFGHIJKLMNOPQRSTUVWXYZ 0123456789abcdeilmnorst-") for _ in range(rng.randrange(size + 1)))
        if field["kind"] == "bytes":
            return rng.getrandbits(bits)
        return int.from_bytes(text.encode().ljust(size, rng.choice([b"\xff", b"@", b" "])), "little")
    if rng.random() < 0.15:  # not available
        return (1 << bits - 1) - 1 if field.get("signed") else (1 << bits) - 1
    value = rng.getrandbits(rng.randrange(bits // 2, bits) or 1)
    return -value & ((1 << bits) - 1) if field.get("signed") and rng.random() < 0.5 else value


def data_of(definition, rng, lookups):
    """The data that a device sends: mostly small numbers, some not available, existing names, padded texts, a few
    sets."""
    fields = [(f["at"], f) for f in definition["fields"]]
    bits = max((f["at"] + f["bits"] for f in definition["fields"]), default=8)
    if "repeat" in definition:
        sets = definition["repeat"]
        for k in range(rng.randrange(6)):
            at = sets["at"] + k * sets["bits"]
            if at + sets["bits"] <= 1784:
                fields += [(at + f["at"], f) for f in sets["fields"]]
                bits = max(bits, at + sets["bits"])
    size = 8 if definition["kind"] == "single" else min((bits + 7) // 8, 223)
    data = (1 << 8 * size) - 1
    for at, f in fields:
        data &= ~(((1 << f["bits"]) - 1) << at)
        data |= number_of(f, rng, lookups) << at
    return (data & ((1 << 8 * size) - 1)).to_bytes(size, "little")


def identifier_of(pgn, prio, src, dst):
    return prio << 26 | pgn << 8 | (dst << 8 if pgn >> 8 & 255 < 240 else 0) | src


def frames_of(fast, data, sequence):
    if not fast:
        return [data]
    data = bytes([len(data)]) + data
    return [(bytes([sequence << 5 | i]) + data[at:at + 7]).ljust(8, b"\xff") for i, at in enumerate(range(0, len(data), 7))]


def line_of(form, milli, micro, pgn, prio, src, dst, data):
    """One line in a form: candump, or plain with canboat's or with our timestamp; from 2025-07-04 06:00 on."""
    second, milli = milli // 1000, milli % 1000
    if form == "candump":
        return f"({1751608800 + second}.{milli * 1000 + micro:06}) can0 {identifier_of(pgn, prio, src, dst):08X}#{data.hex().upper()}"
    clock = f"{6 + second // 3600:02}:{second // 60 % 60:02}:{second % 60:02}.{milli:03}"
    stamp = f"2025-07-04-{clock}" if form == "canboat" else f"2025-07-04T{clock}Z"
    to = dst if pgn >> 8 & 255 < 240 else 255
    return f"{stamp},{prio},{pgn},{src},{to},{len(data)},{','.join(f'{b:02x}' for b in data)}"


def bus(table, lookups, rng, count):
    by_pgn = {}
    for d in table:
        by_pgn.setdefault(d["number"], []).append(d)
    senders = list(range(60, 100))
    of = {pgn: rng.sample(senders, rng.choice([1, 1, 2, 3])) for pgn in OFTEN}
    often = [(pgn, src) for pgn in OFTEN if pgn in by_pgn for src in of[pgn]]
    weights = [OFTEN[pgn] for pgn, _ in often]
    waiting, sequences, lines = {}, {}, []
    forms = ["candump", "candump", "candump", "canboat", "ours"]
    milli = 0
    while len(lines) < count:
        if not waiting or (len(waiting) < 12 and rng.random() < 0.5):
            draw = rng.random()
            if draw < 0.03:
                (pgn, fast), src = rng.choice(UNKNOWN), rng.choice(senders)
                data = rng.randbytes(rng.randrange(9, 30) if fast else 8)
            else:
                if draw < 0.19:
                    d, src = rng.choice(table), rng.choice(senders)
                else:
                    pgn, src = rng.choices(often, weights)[0]
                    d = rng.choice(by_pgn[pgn])
                pgn, fast, data = d["number"], d["kind"] == "fast", data_of(d, rng, lookups)
            key = (pgn, src, rng.choice([255, 255, 36]) if pgn >> 8 & 255 < 240 else 255)
            if key in waiting:
                continue
            sequence = sequences[key] = (sequences.get(key, -1) + 1) % 8
            waiting[key] = (rng.randrange(2, 8), frames_of(fast, data, sequence))
        key = rng.choice(list(waiting))
        prio, frames = waiting[key]
        pgn, src, dst = key
        form = forms[len(lines) // 50 % len(forms)]
        lines.append(line_of(form, milli, rng.randrange(1000), pgn, prio, src, dst, frames.pop(0)))
        milli += 5
        if not frames:
            del waiting[key]
    return lines


def whole(table, lookups, rng, count):
    lines = []
    fast = [d for d in table if d["kind"] == "fast"]
    while len(lines) < count:
        d = rng.choice(fast)
        data = data_of(d, rng, lookups)
        if len(data) > 8:
            lines.append(line_of("ours", 40 * len(lines), 0, d["number"], rng.randrange(2, 8), rng.randrange(60, 100), 255, data))
    return lines


def bad(rng, count):
    lines = []
    for k in range(count):
        identifier, data = identifier_of(rng.choice(list(OFTEN)), 2, rng.randrange(60, 100), 255), rng.randbytes(8)
        spaced, second = data.hex(" ").upper(), 1751608800 + k // 10
        lines.append([
            f"  can0  {identifier:08X}   [8]  {spaced}",
            f"06:00:{k // 10 % 60:02}.{k % 10}00 R {identifier:08X} {spaced}",
            f"({second}.{k:06}) can0 {identifier:08X}#{data.hex().upper()[:-1]}",
            f"({second}.{k:06}) can0 {identifier >> 8:06X}#{data.hex().upper()}",
            f"({second}) can0 {identifier:08X}#{data.hex().upper()}",
            f"2025-07-04-06:00:{k // 10 % 60:02}.{k % 1000:03},2,127250,{rng.randrange(60, 100)},255,8,{data.hex(',')[:-3]}",
            f"$GPGLL,5452.1{k:03},N,01031.2{k:03},E,0600{k // 10 % 60:02}.00,A,A*6B",
            f'{{"timestamp":"2025-07-04-06:00:{k // 10 % 60:02}.000","prio":2,"src":{rng.randrange(60, 100)},"dst":255,"pgn":127250}}',
        ][rng.randrange(8)])
    return lines


def opened(table):
    """Frame number 1 of each fast PGN and sequence, from one sender: none of them completes a message."""
    lines = []
    for sequence in range(8):
        for pgn in sorted({d["number"] for d in table if d["kind"] == "fast"}):
            at = len(lines)
            lines.append(line_of("candump", at * 5, at % 1000, pgn, 6, 60, 36, bytes([sequence << 5 | 1, at % 256, 2, 3, 4, 5, 6, 7])))
    return lines


def main(path, count):
    with open(path, "rb") as file:
        text = file.read().decode()
    document = tomllib.loads(text)
    lookups = {it["name"]: it["entries"] for it in document.get("lookup", [])}
    table, rng = document["pgn"], random.Random(66)
    sections = {
        "bus": bus(table, lookups, rng, count),
        "whole": whole(table, lookups, rng, count * 3 // 20),
        "bad": bad(rng, count // 4),
        "open": opened(table),
    }
    for name, lines in sections.items():
        print(f"=== {name}", *lines, sep="\n")
    print("=== table")
    print(text, end="")


if __name__ == "__main__":
    if len(sys.argv) != 3:
        sys.exit(__doc__)
    main(sys.argv[1], int(sys.argv[2]))
