#!/usr/bin/env python3
"""Compares parts of a log with the whole, on random logs: fast packets of six senders are interleaved, frames are lost,
repeated or late.

    parts.py PROGRAM SEED..

For each seed and each of three windows the recipe `part` prints the messages between random times, which have to be
those of the whole log, and decodes the log in two to seven parts in parallel: output, reports, summary and status have
to be those of one process. Around each cut between parts half of the frames are lost. The script prints how many parts
were decoded again because the assumed state was wrong; over all seeds some are, and most are not.
"""
import os
import random
import subprocess
import sys
import tempfile

TREE = os.path.dirname(os.path.dirname(os.path.dirname(os.path.abspath(__file__))))
PART = os.path.join(TREE, "dist/recipes/part")
TABLE = os.path.join(TREE, "tables/n2k.toml")
FAST, SINGLE = [129029, 127489, 129540, 130820, 126996], [127250, 128267, 130306]
LINES = 4000


def log(chance, jobs):
    """Lines of a log with rising timestamps."""
    under, sequences, lines, at, loss = [], {}, [], 1_751_600_000_000, chance.choice([0, 0.01, 0.1])
    while len(lines) < LINES:
        at += chance.choice([0, 0, 1, 2, 5, 300])
        border = any(abs(len(lines) - LINES * k // jobs) < 40 for k in range(1, jobs))
        if len(under) < 5 and chance.random() < 0.3:
            key = pgn, sender = chance.choice(FAST), chance.randrange(6)
            sequence = sequences[key] = (sequences.get(key, -1) + 1) % 8
            total = chance.choice([5, 26, 43, 51, 134, 223])
            data = bytes([total]) + chance.randbytes(total)
            frames = [bytes([sequence << 5 | n // 7]) + data[n : n + 7].ljust(7, b"\xff") for n in range(0, len(data), 7)]
            under.append((6 << 26 | pgn << 8 | sender, frames))
        if under and chance.random() < 0.8:
            identifier, frames = one = chance.choice(under)
            frame = frames[0] if chance.random() < loss / 2 else frames.pop(0)
            if not frames:
                under.remove(one)
            if chance.random() < (0.5 if border else loss):
                continue
        elif chance.random() < 0.01:
            lines.append(chance.choice(["# a note", "no line", "(1.0) can0 zz#", ""]))
            continue
        else:
            identifier, frame = 2 << 26 | chance.choice(SINGLE) << 8 | chance.randrange(6), chance.randbytes(8)
        lines.append(f"({at // 1000}.{at % 1000:03}000) can0 {identifier:08X}#{frame.hex().upper()}")
    return "\n".join(lines) + chance.choice(["\n", ""])


def main():
    program, seeds = os.path.abspath(sys.argv[1]), sys.argv[2:]
    tried = again = wrong = 0
    with tempfile.TemporaryDirectory() as room:
        name, counted, calls = (os.path.join(room, it) for it in ("a.log", "counted", "calls"))
        with open(counted, "w", encoding="utf-8") as file:
            file.write(f'#!/bin/sh\necho >>{calls}\nexec {program} "$@"\n')
        os.chmod(counted, 0o755)
        for seed in seeds:
            chance = random.Random(seed)
            for window in ("32", str(chance.randint(33, 1000)), "10000"):
                jobs = chance.randint(2, 7)
                with open(name, "w", encoding="ascii") as file:
                    file.write(log(chance, jobs))
                words = ["decode", "--in-order", "--window", window, "--table", TABLE]
                whole = subprocess.run([program, *words, name], capture_output=True)
                lines = whole.stdout.splitlines(True)

                def part(*options, words=(counted, *words)):
                    with open(name, "rb") as file:
                        return subprocess.run([PART, *options, "--", *words], stdin=file, capture_output=True)

                stamps = sorted(chance.choice(lines)[14:38] for _ in range(2))
                got = part("--from", stamps[0].decode(), "--to", stamps[1].decode())
                if got.stdout != b"".join(it for it in lines if stamps[0] <= it[14:38] < stamps[1]) or got.returncode > 1 or b"whole" in got.stderr:
                    wrong += 1
                    print(f"parts: seed {seed}, window {window}: {stamps} prints other messages")
                open(calls, "w").close()
                got = part("--jobs", str(jobs))
                if (got.stdout, got.stderr, got.returncode) != (whole.stdout, whole.stderr, whole.returncode):
                    wrong += 1
                    print(f"parts: seed {seed}, window {window}: {jobs} parts print something else than one process")
                tried += jobs - 1
                again += os.path.getsize(calls) - 1 - 2 * (jobs - 1)
    print(f"{tried} parts with an assumed state, {again} decoded again, {wrong} wrong")
    return wrong != 0


sys.exit(main())
