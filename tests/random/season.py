#!/usr/bin/env python3
"""A season of the logger and of what it feeds, from a seed.

    season.py PROGRAM [ROUNDS [SEED]]

A round is a boat's log of several days in eight parts, on a file system of its own, an ext4 image. Between the parts
are gaps, and each part ends in its own way: the sender ends, the logger is stopped, some of its processes are killed,
or the power is cut. Within a part the disk is full for a while, timestamps are years ahead or days back, the table is
replaced, or the server is away. Two `feed` processes send the files to SQLite and to a stand-in for InfluxDB's
interface.

In the end files are complete, no message has frames of two, none is repeated, no day is in the future, and only
messages that docs/GUIDE.md allows are lost: those with a frame in a gap, being sent at a kill, after the last sync
before a power cut, while the disk was full, and those across midnight if the table was replaced. Rows and points are
those of the files, each once; the only others are those that a cut removed from the files. On a full disk a logger
waits, and if it is not disturbed otherwise it continues when there is room.

Whether lines have arrived, or are synced, does not depend on the clock: before a disturbance the sender is held until
its messages have arrived, and before a cut the trial waits for a sync.

The last line is `N faults`, after a line for each, and one of the parts. Status 77 means that no ext4 image can be used
here; the reason is printed.
"""
import os
import random
import shutil
import signal
import subprocess
import sys
import tempfile
import time

import feed_trials
import logger_trials
from logger_trials import Boat, Disk, Log, held, kill, left, message, tree

SYNCED = 1  # seconds
LATE = 3  # seconds that a logger may take between syncs, on a busy computer
PARTS = 8
HOW = ["alone", "alone", "stopped", "killed", "killed", "cut", "cut"]
WHAT = ["nothing", "full", "ahead", "back", "server", "table", "feed"]


def is_in_part(line):
    return message(line) is None and line != b""


class Fed:
    """Both feeds, and their databases."""

    def __init__(self, room, folder, chance):
        self.room, self.folder, self.chance = room, folder, chance
        self.server, self.base = feed_trials.Server(chance, chance.choice([1, 2])), feed_trials.Base(room)
        self.server.start()
        self.running = []

    def start(self):
        for it in (self.server, self.base):
            self.running.append(self.begin(it, "--every", "0.3"))

    def begin(self, it, *words):
        environment = {**os.environ, "INFLUX_TOKEN": feed_trials.TOKEN}
        with open(f"{self.room}/fed", "ab") as said:
            return subprocess.Popen([feed_trials.FEED, *it.arguments(self.room), *words, self.folder], env=environment, stderr=said)

    def kill(self):
        for it in self.running:
            it.kill()
            it.wait()
        self.running = []

    def faults(self, texts, was_cut):
        """The faults in the databases after these files were fed."""
        self.kill()
        # feed reports a truncated line, which is not a message.
        statuses = {0, 1} if any(is_in_part(it) for text in texts for it in text.splitlines()) else {0}
        for it in (self.server, self.base):
            if self.begin(it, "--once").wait(timeout=200) not in statuses:
                yield f"feed fails: {open(f'{self.room}/fed', encoding='utf-8').read()[-500:]}"
        self.server.stop()
        wanted = {it for text in texts for it in feed_trials.rows_of(text)}
        has = self.base.has()
        if wanted - {*has} or len({*has}) != len(has) or {*has} - wanted and not was_cut:
            yield f"{len(has)} rows, {len(wanted)} messages, {len(wanted - {*has})} of them missing, {len({*has} - wanted)} others"
        points = {}
        for text in texts:
            if not any(map(message, text.splitlines())):
                continue
            for line in feed_trials.converted("influx", text).splitlines():
                series, fields, stamp = feed_trials.split(line)
                points[series, stamp] = fields
        has = self.server.has()
        missing = [it for it, fields in points.items() if has.get(it) != fields]
        if missing or len(has) > len(points) and not was_cut:
            yield f"{len(has)} points, {len(points)} of the files, {len(missing)} of them missing or others"


class Round:
    """A boat, its log, and the times of its disturbances."""

    def __init__(self, program, room, chance):
        self.room, self.chance = room, chance
        self.disk, self.log = Disk(room, 24), Log(chance, chance.randrange(4, 9))
        self.boat = Boat(program, self.disk.folder)
        subprocess.run(["sync", "-f", self.disk.folder], check=True)
        self.boat.environment["BOAT"] = self.boat.folder
        self.disk.note_syncs(self.boat.environment)
        self.table = f"{room}/table.toml"
        shutil.copy(logger_trials.TABLE, self.table)
        self.fed = Fed(room, self.boat.folder, chance)
        # For each line: its part, and when it was sent. For a disturbance: its part, its first line, and when it ended.
        self.parts, self.times, self.disturbed, self.torn, self.was_cut, self.crossed = {}, {}, [], 0, False, set()
        # How long the trial waited for syncs.
        self.waits = []
        # The parts, and those whose logger did not recover from a full disk.
        self.played, self.given_up = [], []
        self.filler = f"{self.disk.folder}/other"

    def play(self):
        self.fed.start()
        place, each = 0, len(self.log.lines) // PARTS
        for part in range(PARTS):
            begin = place + self.chance.choice([0, 0, self.chance.randrange(300)])
            place += each
            how = self.chance.choice(HOW) if part < PARTS - 1 else "alone"
            what = self.chance.choice(WHAT)
            lines = self.stamped(self.log.lines[begin:place], what)
            self.played.append(f"{what}, {how}")
            self.part(part, begin, lines, how, what)

    def stamped(self, lines, what):
        """The lines; some get a timestamp of another day."""
        at, count = self.chance.randrange(len(lines) // 2), self.chance.randrange(1, 40)
        add = {"ahead": 10 * 365 * 86400, "back": -self.chance.randrange(1, 4) * 86400}.get(what, 0)
        return [b"(%.6f%s" % (float(it[1:18]) + add, it[18:]) if at <= number < at + count and add else it for number, it in enumerate(lines)]

    def part(self, part, begin, lines, how, what):
        path, told = f"{self.room}/lines.{part}", f"{self.room}/times.{part}"
        with open(path, "wb") as file:
            file.writelines(lines)
        open(told, "wb").close()
        command = [LOGGER, "--raw", f"--sync={SYNCED}", self.boat.folder, self.table, sys.executable, logger_trials.__file__, "timed", path, told]
        # Some lines remain to be sent after a logger that waited for room has certainly noticed it.
        command.append("13" if (what, how) == ("full", "alone") else "4")
        with open(f"{self.room}/said", "ab") as said:
            logger = Boat.logger = subprocess.Popen(command, env=self.boat.environment, stderr=said, start_new_session=True)
        until = time.monotonic() + (30 if how == "alone" else 1 + 4 * self.chance.random())
        time.sleep(0.3 + self.chance.random())
        self.incident(part, begin, how, what)
        while time.monotonic() < until and logger.poll() is None:
            time.sleep(0.1)
        safe = None
        if how in ("killed", "cut"):
            with self.held(part, begin) as safe:
                if how == "cut":
                    sizes = {it: os.stat(it).st_size for it in self.boat.newest()}
                    waited = self.disk.synced(sizes, logger)
                    # After a full disk the logger waits for room first.
                    self.waits += [waited] if what != "full" and logger.poll() is None else []
        if how == "stopped":
            logger.terminate()
        elif how == "killed":
            time.sleep(0.3 * self.chance.random())
            pids = tree(logger.pid)
            kill(self.chance.sample(pids, self.chance.randrange(1, 1 + len(pids))) if pids else [])
            self.torn += 1
        elif how == "cut":
            time.sleep(SYNCED * self.chance.random())
            self.fed.kill()
            self.disk.cut()
            self.was_cut, self.torn = True, self.torn + 1
            for _ in range(50):
                if not (pids := [*{*tree(logger.pid), *left(self.boat)}]) or pids == [logger.pid] and logger.poll() is not None:
                    break
                kill(pids)
                logger.poll()
        self.end(logger)
        if how == "cut":
            self.disk.again()
            # The removal of the file may not have been synced.
            if os.path.exists(self.filler):
                os.remove(self.filler)
            self.tear(sizes)
        if not self.fed.running:
            self.fed.start()
        # Lines that the sender did not reach were not sent; the next part begins after them.
        count = self.sent(part, begin)
        if how != "alone":
            # The last line of a stopped sender may not have been written.
            self.disturbed.append((part, begin + (count - 1 if safe is None else safe), time.monotonic()))
        # If there is room again before the logger looks, it ends as if a file could not be written.
        if (how, what) == ("alone", "full") and count < len(lines) and logger.returncode != 3:
            self.given_up.append(part + 1)

    def sent(self, part, begin):
        """Records which lines of a part were sent, and when; returns their number."""
        with open(f"{self.room}/times.{part}", encoding="utf-8") as its:
            times = its.read().split("\n")[:-1]
        for number, it in enumerate(times, begin):
            self.parts[number], self.times[number] = part, float(it)
        return len(times)

    def held(self, part, begin):
        """Holds the sender, once each expected message has arrived; gives the number of sent lines of the part."""

        def missing(_):
            self.sent(part, begin)
            return {*self.owed(begin)} - {*self.boat.printed()}

        return held(f"{self.room}/times.{part}", missing)

    def tear(self, synced):
        """On other file systems a file may end within a line that was not synced."""
        for it in self.boat.newest():
            if self.chance.randrange(2):
                size = os.stat(it).st_size
                os.truncate(it, max(min(size, synced.get(it, 0)), size - self.chance.randrange(200)))

    def fill(self, part, begin, how):
        """Fills the disk for a while; if the logger is left alone, until it has noticed."""
        with self.held(part, begin) as safe:
            at, times = time.monotonic(), self.short()
        try:
            with open(self.filler, "wb") as file:
                while True:
                    file.write(bytes(4096))
                    file.flush()
        except OSError:
            pass
        while how == "alone" and self.short() == times and Boat.logger.poll() is None and time.monotonic() < at + 10:
            time.sleep(0.05)
        time.sleep(0.5 + self.chance.random())
        # Its gzipped files may have made room in the meantime.
        if Boat.logger.poll() == 3 and not self.has_room():
            self.given_up.append(part + 1)
        os.remove(self.filler)
        self.torn += 1
        # The logger checks for room every five seconds.
        self.disturbed.append((part, begin + safe, time.monotonic() + 7))

    def short(self):
        """How often loggers have started to wait for room."""
        with open(f"{self.room}/said", "rb") as said:
            return said.read().count(b"disk full: ")

    def has_room(self):
        """Whether there is as much room as a logger requires."""
        try:
            with open(self.filler, "ab") as file:
                file.write(bytes(100_000))
        except OSError:
            return False
        return True

    def incident(self, part, begin, how, what):
        if what == "full":
            self.fill(part, begin, how)
        elif what == "server":
            self.fed.server.stop()
            self.fed.base.stop()
            time.sleep(self.chance.random())
            self.fed.base.start()
            self.fed.server.start()
        elif what == "feed":
            self.fed.kill()
            self.fed.start()
        elif what == "table":
            with open(self.table, "a", encoding="utf-8") as file:
                file.write("# another one\n")
            self.crossed.add(part)

    def end(self, logger):
        """Waits until the logger has ended; after a kill its remaining processes end with its sender."""
        try:
            logger.wait(timeout=20 if not self.torn else 8)
        except subprocess.TimeoutExpired:
            kill([*{*tree(logger.pid), *left(self.boat)}])
            logger.wait()
        for _ in range(100):
            if not (pids := left(self.boat)):
                break
            time.sleep(0.05)
        else:
            kill(pids)

    def is_owed(self, places):
        """Whether a message of these lines must exist."""
        parts = {self.parts.get(it) for it in places}
        if None in parts or len(parts) > 1:
            return False
        days = {int(float(self.log.lines[it][1:18])) // 86400 for it in places}
        if len(days) > 1 and parts & self.crossed:
            return False
        return not any({part} == parts and first <= it and self.times[it] <= end for it in places for part, first, end in self.disturbed)

    def owed(self, begin=0):
        """The messages from a line on that must exist."""
        return [(key[0], self.log.data[key]) for key, places in self.log.places.items() if places[0] >= begin and self.is_owed(places)]

    def faults(self):
        boat, log = self.boat, self.log
        texts = {day: boat.text("json", day) for day in boat.days()}
        text = b"".join(texts.values())
        lines = text.splitlines()
        printed = [it for it in map(message, lines) if it]
        sent = {(key[0], data) for key, data in log.data.items()}
        owed = self.owed()
        if self.given_up:
            yield f"in parts {self.given_up} the logger does not wait for room, or does not go on when there is some"
        if sum(self.waits) > (SYNCED + LATE) * len(self.waits):
            yield f"{len(self.waits)} syncs were waited for {sum(self.waits):.0f} seconds"
        if wrong := [it for it in printed if it not in sent]:
            yield f"{len(wrong)} messages that were not sent"
        if len({*printed}) != len(printed):
            yield f"{len(printed) - len({*printed})} messages twice"
        if lost := [it for it in owed if it not in {*printed}]:
            yield f"{len(lost)} messages of {len(owed)} are lost that may not be"
        if (cut := sum(map(is_in_part, lines))) > self.torn + 1:
            yield f"{cut} lines in part, of {self.torn} disturbances"
        if any(it and not it.endswith(b"\n") for it in (*texts.values(), boat.text("reports"))):
            yield "a file has no last line"
        first, last = (time.strftime("%Y-%m-%d", time.gmtime(float(it[1:18]))) for it in (log.lines[0], log.lines[-1]))
        if wrong := [it for it in boat.days() if not first <= it <= last]:
            yield f"days {wrong}"
        again = [it for it in map(message, boat.decoded(boat.raw()).splitlines()) if it]
        if {*again} - sent or len({*again}) != len(again):
            yield f"the raw log gives {len({*again} - sent)} messages that were not sent, and {len(again) - len({*again})} twice"
        if not self.torn and {*printed} - {*again}:
            yield "the raw log lacks a message"
        if wrong := [it for it in os.listdir(boat.folder) + os.listdir(f"{boat.folder}/raw") if it in (".new", ".room", "boat.state")]:
            yield f"{wrong} is left"
        yield from self.fed.faults(texts.values(), self.was_cut)

    def end_all(self):
        self.fed.kill()
        if Boat.logger and Boat.logger.poll() is None:
            kill([*{*tree(Boat.logger.pid), *left(self.boat)}])
        self.disk.end()


LOGGER = logger_trials.LOGGER


def main():
    signal.signal(signal.SIGTERM, lambda *_: sys.exit("it was ended"))
    program, rounds, seed = os.path.realpath(sys.argv[1]), int([*sys.argv, 1][2]), int([*sys.argv, 1, 1][3])
    faults = 0
    for number in range(seed, seed + rounds):
        room = tempfile.mkdtemp()
        try:
            one, before, failed = Round(program, room, random.Random(number)), faults, True
            try:
                one.play()
                for fault in one.faults():
                    faults += 1
                    print(f"season, seed {number}: {fault}", flush=True)
                failed = faults > before
            finally:
                if failed:
                    print(f"season, seed {number}: its parts: {'; '.join(one.played)}", flush=True)
                one.end_all()
        finally:
            shutil.rmtree(room, ignore_errors=True)
    print(f"{faults} faults")
    return bool(faults)


if __name__ == "__main__":
    sys.exit(main())
