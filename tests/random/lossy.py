#!/usr/bin/env python3
"""Messages lost and mixed by lost frames: makes a log of a thousand fast packets from a seed, removes one frame in
twenty, repeats one in fifty, and compares a program's output with what was sent.

    lossy.py PROGRAM SEED [--print]

Five senders send two hundred messages each, of 2, 5, 9, 17 and 32 frames, each in order, and their frames are
interleaved. PROGRAM's output and reports are compared with those of a second reader of the rules, below: without
options, with `--in-order`, and with `--in-order` and a window shorter than eight messages of a sender. With both
options no line may be a message that was not sent, and each message whose frames all arrived has to be printed once.
`--print` prints the log itself.
"""

import json
import os
import random
import subprocess
import sys
import tempfile

SAMPLE = os.path.join(os.path.dirname(os.path.abspath(__file__)), "..", "..", "examples", "sample.toml")
PGN = 130820
FRAMES = [2, 5, 9, 17, 32]
ROUNDS = 200


def messages(chance):
    """One message a sender in each round, as (sender, number, bytes): its first byte does not match the table's
    definition."""
    for number in range(ROUNDS):
        for sender, frames in enumerate(FRAMES):
            total = chance.randrange(7 * frames - 7, min(7 * frames, 224))
            yield sender, number, bytes([0, *chance.randbytes(total)][:total])


def frames_of(data):
    """The eight bytes of each frame of a message, without the sequence."""
    whole = bytes([len(data)]) + data
    for number in range(1 + len(data) // 7):
        yield number, whole[7 * number : 7 * number + 7].ljust(7, b"\xff")


def transmissions(chance):
    """The frames of all messages as they are sent: (sender, number of the message, number of the frame, bytes)."""
    rounds = {}
    for sender, number, data in messages(chance):
        rounds.setdefault(number, []).append([(sender, number, frame, its) for frame, its in frames_of(data)])
    for waiting in rounds.values():
        while waiting:
            one = chance.choices(waiting, [len(it) for it in waiting])[0]
            yield one.pop(0)
            waiting = [it for it in waiting if it]


def lossy(chance):
    """The frames of the log: some are lost, and some repeated."""
    for frame in transmissions(chance):
        what = chance.randrange(100)
        if what >= 5:
            yield frame
        if what >= 98:
            yield frame


def line_of(place, frame):
    sender, number, its, data = frame
    return f"({place}.0) can0 1DFF04{sender:02X}#{number % 8 << 5 | its:02X}{data.hex().upper()}\n"


def read(log, window, in_order):
    """What the rules give for the log: messages as (sender, bytes), and reports. A group is a list of its numbers and
    bytes."""
    given, reports, groups = [], [], {}
    for line, (sender, number, its, data) in enumerate(log, 1):
        for key, group in [*groups.items()]:
            if line >= group["first"] + window:
                reports.append(broken(line, key, groups.pop(key)))
        key = sender, number % 8
        group = groups.get(key)
        if group and (its in group["has"] or in_order and its < max(group["has"])):
            reports.append(broken(line, key, groups.pop(key)))
        if key not in groups:
            groups[key] = {"first": line, "has": {}}
        has = groups[key]["has"]
        has[its] = data
        if 0 in has and sorted(has) == list(range(1 + has[0][0] // 7)):
            whole = b"".join(has[n] for n in sorted(has))
            given.append((sender, whole[1 : 1 + whole[0]]))
            del groups[key]
    return given, reports


def broken(line, key, group):
    return f"line {line} broken pgn {PGN} src {key[0]} dst 255 seq {key[1]} first {group['first']}"


def printed(program, log, words):
    """The program's output for the log: messages as (sender, bytes), and reports without the summary."""
    with tempfile.NamedTemporaryFile("w", suffix=".log") as file:
        file.writelines(line_of(*it) for it in enumerate(log, 1))
        file.flush()
        command = [program, "decode", "--table", SAMPLE, *words, file.name]
        ran = subprocess.run(command, capture_output=True, text=True, check=True)
    lines = [json.loads(it) for it in ran.stdout.splitlines()]
    return [(it["src"], bytes.fromhex(it["fields"]["Data"])) for it in lines], ran.stderr.splitlines()[:-1]


def apart(sent_log, log):
    """The maximum number of lines of a message, and the minimum from one message's last frame to the first frame of the
    eighth message after it."""
    lines = {}
    for line, (sender, number, _, _) in enumerate(log, 1):
        lines.setdefault((sender, number), []).append(line)
    most = max(its[-1] - its[0] + 1 for its in lines.values())
    fewest = min(lines[s, n + 8][0] - its[-1] for (s, n), its in lines.items() if (s, n + 8) in lines)
    return most, fewest


def main():
    program, seed = sys.argv[1], int(sys.argv[2])
    chance = random.Random(seed)
    sent = {(sender, data) for sender, _, data in messages(random.Random(seed))}
    log = [*lossy(chance)]
    if "--print" in sys.argv[3:]:
        sys.stdout.writelines(line_of(*it) for it in enumerate(log, 1))
        return 0
    came = {}
    for sender, number, its, data in log:
        came.setdefault((sender, number), []).append((its, data))
    whole = {(s, b"".join(d for _, d in its)[1 : 1 + its[0][1][0]]) for (s, _), its in came.items() if [n for n, _ in its] == list(range(FRAMES[s]))}
    most, fewest = apart(sent, log)
    wrong = [] if most < fewest else ["the log is too close for a window"]
    print(f"{len(log)} lines of {len(sent)} messages, {len(whole)} of them whole")
    for name, window, words in (
        ("neither", 10_000, []),
        ("in order", 10_000, ["--in-order"]),
        ("in order, short window", fewest, ["--in-order", "--window", str(fewest)]),
    ):
        given, reports = printed(program, log, words)
        if (given, reports) != read(log, window, "--in-order" in words):
            wrong.append(f"{name}: the second reader says otherwise")
        mixed = sum(it not in sent for it in given)
        print(f"{name}: {len(given)} given, {mixed} mixed, {len(whole - {*given})} whole ones lost, {len(reports)} broken")
    if mixed or whole - {*given}:
        wrong.append("with both words a message is mixed or lost")
    print(*wrong, f"{len(wrong)} faults", sep="\n")
    return bool(wrong)


if __name__ == "__main__":
    sys.exit(main())
