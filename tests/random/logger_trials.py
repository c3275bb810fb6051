#!/usr/bin/env python3
"""Trials of the script `n2k-logger`: days change, senders end, processes are killed, a disk fills up, the power is cut,
Ctrl-C is pressed.

    logger_trials.py PROGRAM days|holes|killed|stopped|full|full_raw|short|terminal|cut [COUNT [SEED]]

Each trial has a boat's log from a seed: the messages of `lossy.py`, of 2 to 32 frames, none lost, with timestamps over
several days. The logger's output is compared with what was sent. If frames are missing, only the messages that lack a
frame are not printed, and no message has frames of two. `days` and `holes` require exactly these messages, and a raw
log that gives them again in one run. The others require that each line which is valid JSON is a message that was sent,
each once.

The last line is `N faults`, after a line for each. Status 77 means that the trial cannot run here; the reason is
printed.
"""

import contextlib
import fcntl
import glob
import gzip
import json
import os
import pty
import random
import re
import select
import shutil
import signal
import struct
import subprocess
import sys
import tempfile
import time

import lossy

ROOT = os.path.dirname(os.path.dirname(os.path.dirname(os.path.abspath(__file__))))
LOGGER, TABLE = f"{ROOT}/dist/n2k-logger", f"{ROOT}/examples/sample.toml"
lossy.ROUNDS = 120
ROUND = sum(lossy.FRAMES)


class Log:
    """A log from a seed: its lines, and each message with the positions of its frames."""

    def __init__(self, chance, days):
        messages = lossy.messages(random.Random(seed := chance.random()))
        self.data = {(sender, number): data for sender, number, data in messages}
        frames = [*lossy.transmissions(random.Random(seed))]
        begin, step = 1751608800 + chance.randrange(86400), days * 86400 / len(frames)
        self.lines, self.places = [], {}
        for place, frame in enumerate(frames):
            stamp = f"({begin + place * step:.6f})"
            self.lines.append(lossy.line_of(0, frame).replace("(0.0)", stamp).encode())
            self.places.setdefault(frame[:2], []).append(place)

    def whole(self, begin, end):
        """The messages whose frames all have these positions, in the order in which they are complete."""
        whole = [(its[-1], key) for key, its in self.places.items() if begin <= its[0] and its[-1] < end]
        return [(key[0], self.data[key]) for _, key in sorted(whole)]

    def cut(self, begin, end):
        """The number of messages of which some frames, but not all, have these positions."""
        return sum(any(begin <= it < end for it in its) for its in self.places.values()) - len(self.whole(begin, end))


def message(line):
    """A JSON line as (sender, bytes), or None if it is invalid."""
    try:
        it = json.loads(line)
        return it["src"], bytes.fromhex(it["fields"]["Data"])
    except ValueError:
        return None


class Boat:
    """A folder of a logger, and its contents."""

    logger = None

    def __init__(self, program, room):
        self.folder = tempfile.mkdtemp(dir=room)
        self.environment = {**os.environ, "N2KDEC": program}
        self.program = program

    def start(self, *sender, words=("--raw",), **options):
        command = [LOGGER, *words, self.folder, TABLE, *sender]
        Boat.logger = subprocess.Popen(command, env=self.environment, stderr=subprocess.PIPE, text=True, **options)
        return Boat.logger

    def names(self, pattern):
        return sorted(it for it in os.listdir(self.folder) if re.fullmatch(pattern, it))

    def newest(self):
        """The newest file of each kind."""
        its = [glob.glob(f"{self.folder}/{it}") for it in ("*.json", "*.reports", "raw/*.log")]
        return [max(it) for it in its if it]

    def days(self):
        return sorted({it[:10] for it in self.names(r"\d{4}-\d\d-\d\d\.json(\.gz)?")})

    def whole(self, folder, kind, day=r"\d{4}-\d\d-\d\d"):
        """The files of all days, when none is being compressed."""
        lock = os.open(f"{self.folder}/.compress", os.O_RDWR | os.O_CREAT)
        try:
            fcntl.flock(lock, fcntl.LOCK_EX)
            found = b""
            # Lines after a gzipped file are in a file without .gz.
            for it in sorted(os.listdir(folder), key=lambda it: (it[:10], not it.endswith(".gz"))):
                if re.fullmatch(rf"{day}\.{kind}(\.gz)?", it):
                    text = open(f"{folder}/{it}", "rb").read()
                    found += gzip.decompress(text) if text[:2] == b"\x1f\x8b" else text
            return found
        finally:
            os.close(lock)

    def text(self, kind, day=r"\d{4}-\d\d-\d\d"):
        return self.whole(self.folder, kind, day)

    def printed(self):
        """The messages of all days, without invalid lines."""
        return [it for it in map(message, self.text("json").splitlines()) if it]

    def raw(self):
        return self.whole(f"{self.folder}/raw", "log")

    def decoded(self, log):
        """The output of one n2kdec for a log."""
        command = [self.program, "decode", "--in-order", "--table", TABLE]
        return subprocess.run(command, input=log, capture_output=True, check=False).stdout

    def received(self, line):
        """Waits until the newest day's raw log ends with this line."""
        until = time.time() + 300
        while time.time() < until:
            if names := self.names(r".*\.json"):
                try:
                    with open(f"{self.folder}/raw/{names[-1][:-5]}.log", "rb") as file:
                        if file.read().endswith(line):
                            return
                except FileNotFoundError:
                    pass
            time.sleep(0.01)
        raise TimeoutError("the raw log does not grow")


def send(path, seconds, seed):
    """A sender: writes the file in chunks of any length within these seconds, and then, after a second, comments."""
    chance, text = random.Random(seed), open(path, "rb").read()
    pieces = 1 + len(text) // 700
    while text:
        length = chance.randrange(1, 1400)
        os.write(1, text[:length])
        text = text[length:]
        time.sleep(float(seconds) / pieces)
    time.sleep(1)
    while True:
        os.write(1, b"# quiet\n")
        time.sleep(0.1)


def sender(path, seconds, chance):
    return [sys.executable, __file__, "send", path, str(seconds), str(chance.random())]


def put(room, lines):
    path = f"{room}/sent"
    with open(path, "wb") as file:
        file.writelines(lines)
    return path


def days(program, room, chance):
    """A sender that runs over several days."""
    boat, log = Boat(program, room), Log(chance, chance.randrange(2, 7))
    text = b"".join(log.lines)
    logger = boat.start(*sender(put(room, log.lines), 0.3, chance))
    boat.received(log.lines[-1])
    logger.terminate()
    said = logger.communicate()[1]
    one = boat.decoded(text)
    names = boat.days()
    for name in names:
        stamps = {json.loads(it)["timestamp"][:10] for it in boat.text("json", name).splitlines()}
        if stamps - {name}:
            yield f"{name} has messages of {stamps}"
    if boat.text("json") != one or boat.printed() != log.whole(0, len(log.lines)):
        yield "the days are not one decode"
    if boat.raw() != text:
        yield "the raw log is not what was sent"
    if logger.returncode or len(said.splitlines()) != len(names) or len(boat.names(r".*\.state")) != len(names) - 1:
        yield f"status {logger.returncode}, {len(names)} days, said: {said}"


def ended(boat, chance, path, last):
    """A logger whose sender sends the file and ends in one of three ways."""
    way = chance.choice(["alone", "alone", "script", "sender"])
    if way == "alone":
        logger = boat.start("cat", path)
    else:
        logger = boat.start("sh", "-c", 'cat "$0"; echo $$ >"$0.pid"; exec sleep 100', path)
        boat.received(last)
        while not os.path.exists(f"{path}.pid") or not (pid := open(f"{path}.pid").read()):
            time.sleep(0.01)
        os.remove(f"{path}.pid")
        os.kill(logger.pid if way == "script" else int(pid), signal.SIGTERM if way == "script" else signal.SIGKILL)
    said = logger.communicate()[1]
    return logger.returncode, said


def holes(program, room, chance):
    """Ten gaps at random positions, many of about eight messages of each sender."""
    boat, log = Boat(program, room), Log(chance, 3)
    wanted, place, sent = [], 0, []
    for left in range(10, -1, -1):
        rest = len(log.lines) - place
        end = place + (rest if left == 0 else chance.randrange(1, max(2, min(rest, 2 * rest // (left + 1)) - 9 * ROUND)))
        lines = log.lines[place:end]
        status, said = ended(boat, chance, put(room, lines), lines[-1])
        # Each day's summary counts the groups broken on that day; the last one also the open groups.
        given_up = sum(map(int, re.findall(r"broken (\d+)", said) + re.findall(r"open (\d+)", said)[-1:]))
        if status or given_up != log.cut(place, end):
            yield f"status {status}, {log.cut(place, end)} messages cut, said: {said}"
        if os.path.exists(f"{boat.folder}/boat.state"):
            yield "a state is left"
        wanted, sent = wanted + log.whole(place, end), sent + lines
        gap = chance.choice([0, chance.randrange(ROUND), *[8 * ROUND + chance.randrange(-4, 5)] * 2])
        place = min(end + gap, len(log.lines) - 1)
    if boat.printed() != wanted:
        yield "not the messages that are whole between the holes"
    if boat.decoded(boat.raw()) != boat.text("json"):
        yield "the raw log gives other messages"
    holes.mixed += sum(message(it)[1] not in log.data.values() for it in boat.decoded(b"".join(sent)).splitlines())


holes.mixed = 0


def tree(pid):
    """A process and all its descendants, including the senders."""
    found, parents = [pid], {}
    for it in filter(str.isdigit, os.listdir("/proc")):
        try:
            parents[int(it)] = int(open(f"/proc/{it}/stat").read().rpartition(")")[2].split()[1])
        except OSError:
            pass
    for it in found:
        found += [child for child, parent in parents.items() if parent == it]
    return found


def named(pids, name):
    """Those of the processes that run this program; the system cuts names to 15 bytes."""

    def of(pid):
        try:
            return open(f"/proc/{pid}/comm").read().strip()
        except OSError:
            return ""

    return [it for it in pids if of(it) == name[:15]]


def kill(pids):
    """Kills all of them at one moment: each is stopped before the first is killed, so none notices the end of
    another."""
    for it in (signal.SIGSTOP, signal.SIGKILL):
        for pid in pids:
            try:
                os.kill(pid, it)
            except ProcessLookupError:
                pass


def tear(boat, chance):
    """What a power cut may do to the last written bytes."""
    for folder in (boat.folder, f"{boat.folder}/raw"):
        for name in [it for it in sorted(os.listdir(folder)) if it.endswith((".json", ".reports", ".log"))]:
            path = f"{folder}/{name}"
            if time.time() - os.stat(path).st_mtime < 0.3:
                os.truncate(path, max(0, os.stat(path).st_size - chance.randrange(200)))


def killed(program, room, chance):
    """Ten runs on one folder; in each run the script and its n2kdec are killed at a random moment, or only n2kdec, or
    some processes, or the sender."""
    boat, log = Boat(program, room), Log(chance, 3)
    boat.environment["BOAT"] = boat.folder
    each, torn = len(log.lines) // 11, False
    for run in range(11):
        logger = boat.start(*sender(put(room, log.lines[run * each : (run + 1) * each]), 0.3, chance), start_new_session=True)
        time.sleep(0.1 + 0.4 * chance.random())
        pids, name = tree(logger.pid), os.path.basename(program)
        way = chance.choice(["both", "n2kdec", "sender", "all"]) if run < 10 else "none"
        victims = {
            "both": [logger.pid, *named(pids, name)],
            "n2kdec": named(pids, name),
            "sender": named(pids, os.path.basename(sys.executable)),
            "all": chance.sample(pids, len(pids)),
            "none": [],
        }[way]
        kill(victims)
        if way == "all" and chance.randrange(2):
            tear(boat, chance)
            torn = True
        # A live script ends after n2kdec or the sender was killed. If the script and n2kdec were killed, the remaining
        # processes end at the sender's next line; otherwise they end with the sender, which may have begun after the
        # kill.
        last = log.whole(run * each, (run + 1) * each)
        if not victims:
            # The last run continues until all is printed.
            until = time.monotonic() + (1 if run < 10 else 60)
            while boat.printed()[-len(last) :] != last and time.monotonic() < until:
                time.sleep(0.1)
            logger.terminate()
        if subprocess.run(["flock", "-w", "3", boat.folder, "true"], check=False).returncode:
            kill(named(left(boat), os.path.basename(sys.executable)))
        said = logger.communicate()[1]
        if way == "sender" and victims and logger.returncode not in (0, 1, 3) or way == "n2kdec" and victims and logger.returncode != 137:
            yield f"{way} killed: status {logger.returncode}, {said}"
    yield from judged(boat, log, torn)
    if boat.printed()[-len(last) :] != last:
        yield "the last run misses messages"


def judged(boat, log, torn):
    """Each printed message was sent, none is repeated, the raw log gives it too, and the raw log gives no other."""
    sent = {(key[0], data) for key, data in log.data.items()}
    printed, again = boat.printed(), [*map(message, boat.decoded(boat.raw()).splitlines())]
    if wrong := [it for it in printed if it not in sent]:
        yield f"{len(wrong)} messages that were not sent"
    if len({*printed}) != len(printed):
        yield "a message twice"
    if {*again} - sent or len({*again}) != len(again):
        yield "the raw log gives a message that was not sent, or one twice"
    if not torn and {*printed} - {*again}:
        yield "the raw log lacks a message"
    if not printed or not boat.text("json").endswith(b"\n"):
        yield "the last day has no whole line"


def left(boat):
    """The processes that work for this boat: their environment contains its folder."""
    mark, found = f"BOAT={boat.folder}".encode(), []
    for it in filter(str.isdigit, os.listdir("/proc")):
        try:
            if mark in open(f"/proc/{it}/environ", "rb").read().split(b"\0"):
                found.append(int(it))
        except OSError:
            pass
    return found


def stopped(program, room, chance):
    """SIGTERM while the logger starts: the sender, which has child processes, ends, as does everything else."""
    boat, log = Boat(program, room), Log(chance, 3)
    boat.environment["BOAT"] = boat.folder
    logger = boat.start("sh", "-c", 'cat "$0"; sleep 100; cat "$0"', put(room, log.lines[:ROUND]), start_new_session=True)
    time.sleep(0.15 * chance.random())
    logger.terminate()
    try:
        said = logger.communicate(timeout=10)[1]
    except subprocess.TimeoutExpired:
        said = "it did not end"
    if pids := left(boat):
        yield f"{len(pids)} processes are left; {said}"
        kill(pids)
        logger.communicate()
    # bash begins with the default action for each signal. Before its trap is set nothing has begun.
    begun = bool(os.listdir(boat.folder))
    if logger.returncode != 0 and (logger.returncode != -signal.SIGTERM or begun):
        yield f"status {logger.returncode}, said: {said}"
    if begun and (boat.decoded(boat.raw()) != boat.text("json") or boat.names("boat.state")):
        yield "the raw log gives other messages, or a state is left"


def full_raw(program, room, chance):
    """A folder of 300 kB that fills up, with a raw log."""
    return full(program, room, chance, ["--raw"])


def full(program, room, chance, words=()):
    """A folder of 300 kB that fills up, and then has room again."""
    disk = f"{room}/disk"
    os.mkdir(disk)
    if subprocess.run(["mount", "-t", "tmpfs", "-o", "size=300k", "none", disk], check=False, capture_output=True).returncode:
        print("no file system can be mounted here")
        sys.exit(77)
    boat, log = Boat(program, disk), Log(chance, 3)
    try:
        with open(f"{disk}/other", "wb") as file:
            file.write(bytes(chance.randrange(200_000, 250_000)))
        logger = boat.start(*sender(put(room, log.lines), 1.5, chance), words=words)
        said = iter(logger.stderr.readline, "")
        before = []
        for line in said:
            before.append(line)
            if "has no room" in line:
                break
        printed = boat.printed()
        time.sleep(2)
        if boat.printed() != printed or logger.poll() is not None:
            yield "it does not wait"
        os.remove(f"{disk}/other")
        size = len(boat.text("json"))
        for _ in range(1000):
            if len(boat.text("json")) > size + 2000:
                break
            time.sleep(0.01)
        else:
            yield "it does not go on"
        logger.terminate()
        after = logger.communicate()[1]
        text = "".join(before) + after
        if logger.returncode not in (0, 1) or text.count("disk full: ") != 1 or text.count("can be written again") != 1:
            yield f"status {logger.returncode}, said: {text}"
        # Lines sent after the pause repeat the log from its beginning.
        sent = {(key[0], data) for key, data in log.data.items()}
        lines = boat.text("json").splitlines()
        if {it for it in map(message, lines) if it} - sent or sum(message(it) is None for it in lines) > 1:
            yield "a message that was not sent"
        if words and {*map(message, boat.decoded(boat.raw()).splitlines())} - sent:
            yield "the raw log gives a message that was not sent"
    finally:
        subprocess.run(["umount", "-l", disk], check=True)


def short(program, room, chance):
    """A folder with less room than the log: with --free the oldest days are removed, and nothing else is lost."""
    disk = f"{room}/disk"
    os.mkdir(disk)
    if subprocess.run(["mount", "-t", "tmpfs", "-o", "size=1200k", "none", disk], check=False, capture_output=True).returncode:
        print("no file system can be mounted here")
        sys.exit(77)
    boat, log = Boat(program, disk), Log(chance, chance.randrange(8, 20))
    try:
        logger = boat.start(*sender(put(room, log.lines), 8, chance), words=("--raw", "--sync=1", "--free=1"))
        boat.received(log.lines[-1])
        logger.terminate()
        said = logger.communicate()[1]
        removed, days = re.findall(r"n2k-logger: removed (\S+): less than 1 MB were free\n", said), boat.days()
        summed = re.findall(r"n2k-logger: (\S+) lines", said)
        if logger.returncode or not removed or "disk full" in said or removed + days != summed:
            yield f"status {logger.returncode}, there are {days}, said: {said}"
        whole = log.whole(0, len(log.lines))
        if not (printed := boat.printed()) or printed != whole[-len(printed) :]:
            yield "not the messages of the newest days"
    finally:
        subprocess.run(["umount", "-l", disk], check=True)


SHUTDOWN, NO_LOG_FLUSH = 0x8004587D, struct.pack("I", 2)  # EXT4_IOC_SHUTDOWN: nothing more reaches the disk, including the journal


def timed(path, told, seconds):
    """A sender: writes the lines of the file one by one within these seconds, and announces each first. After a restart
    it continues with the next line; it pauses while it is held."""
    with open(path, "rb") as file, open(told, "a+b") as its:
        lines = file.readlines()
        its.seek(0)
        first = its.read().count(b"\n")
        begin = time.monotonic()
        for place in range(first, len(lines)):
            time.sleep(max(0, begin + (place - first) * float(seconds) / len(lines) - time.monotonic()))
            while os.path.exists(f"{told}.held"):
                begin += 0.01
                time.sleep(0.01)
            # A line that is lost on its way counts as sent.
            its.write(b"%f\n" % time.monotonic())
            its.flush()
            os.write(1, lines[place])


@contextlib.contextmanager
def held(told, missing):
    """Holds a sender after it has begun, once no sent line is missing. Gives the number of these lines."""
    path, until = f"{told}.held", time.monotonic() + 60
    while not os.path.getsize(told) and time.monotonic() < until:
        time.sleep(0.05)
    open(path, "wb").close()
    while missing(sent := open(told, "rb").read().count(b"\n")):
        if time.monotonic() > until:
            raise TimeoutError("what was sent is not there after a minute")
        time.sleep(0.05)
    yield sent
    os.remove(path)


class Disk:
    """A file system in a file, whose power can be cut."""

    def __init__(self, room, megabytes=48):
        self.room, self.image, self.folder = room, f"{room}/image", f"{room}/disk"
        os.mkdir(self.folder)
        with open(self.image, "wb") as file:
            file.truncate(megabytes << 20)
        self.run("mkfs.ext4", "-q", "-F", self.image)
        self.mount()

    @staticmethod
    def run(*command):
        try:
            ran = subprocess.run(command, capture_output=True, text=True, check=False)
        except FileNotFoundError as error:
            ran = subprocess.CompletedProcess(command, 1, "", str(error))
        if ran.returncode:
            print(f"no ext4 image can be had here: {' '.join(command)}: {ran.stderr.strip()}")
            sys.exit(77)

    def mount(self):
        self.run("mount", "-o", "loop", self.image, self.folder)

    def cut(self):
        """Cuts the power: what is not on the disk is lost."""
        at = os.open(self.folder, os.O_RDONLY)
        fcntl.ioctl(at, SHUTDOWN, NO_LOG_FLUSH)
        os.close(at)

    def note_syncs(self, environment):
        """Records a logger's syncs, each when it has ended: when it began, and which files it synced."""
        os.mkdir(f"{self.room}/bin")
        with open(f"{self.room}/bin/sync", "w", encoding="utf-8") as file:
            file.write(f'#!/bin/sh\nbegan=$(date +%s.%N)\n{shutil.which("sync")} "$@" && echo "$began $*" >>"{self.room}/syncs"\n')
        os.chmod(file.name, 0o755)
        environment["PATH"] = f"{self.room}/bin:{environment['PATH']}"

    def synced(self, files, logger):
        """Waits until a sync of files that begins from now on has ended, or the logger has, at most half a minute;
        returns the seconds."""
        begin, stamp = time.monotonic(), time.time()
        with open(f"{self.room}/syncs", "a+", encoding="utf-8") as its:
            while logger.poll() is None and time.monotonic() < begin + 30:
                if any(float(it.split()[0]) > stamp and all(file in it for file in files) for it in its):
                    break
                time.sleep(0.05)
        return time.monotonic() - begin

    def end(self):
        subprocess.run(["umount", "-l", self.folder], check=False, capture_output=True)

    def again(self):
        """Restores the power: the journal is replayed."""
        for _ in range(300):
            # If a process still uses the old mount, the new one is as before but read-only.
            if not subprocess.run(["umount", self.folder], check=False, capture_output=True).returncode:
                self.mount()
                try:
                    os.close(os.open(f"{self.folder}/again", os.O_WRONLY | os.O_CREAT))
                    return
                except OSError:
                    pass
            time.sleep(0.1)
        raise TimeoutError("the old file system does not go away")


def cut(program, room, chance):
    """Cuts the power at a random moment, and restarts the logger."""
    disk, log = Disk(room), Log(chance, chance.choice([1, 3, 30]))
    half = len(log.lines) // 2
    try:
        boat = Boat(program, disk.folder)
        subprocess.run(["sync", "-f", disk.folder], check=True)
        boat.environment["BOAT"] = boat.folder
        disk.note_syncs(boat.environment)
        command = [sys.executable, __file__, "timed", put(room, log.lines[:half]), f"{room}/times", "12"]
        open(f"{room}/times", "wb").close()
        logger = boat.start(*command, words=("--raw", "--sync", os.environ.get("LOGGER_TRIALS_SYNC", "2")), start_new_session=True)
        time.sleep(1.5 + 8 * chance.random())
        with held(f"{room}/times", lambda sent: {*log.whole(0, sent)} - {*boat.printed()}) as sent:
            if disk.synced(boat.newest(), logger) > 30:
                yield "nothing is synced"
        safe = log.whole(0, sent)
        time.sleep(2 * chance.random())
        disk.cut()
        for _ in range(20):
            if not (pids := [*{*tree(logger.pid), *left(boat)}]):
                break
            kill(pids)
            logger.poll()
        logger.communicate()
        disk.again()
        printed = boat.printed()
        if missing := [it for it in safe if it not in printed]:
            yield f"{len(missing)} messages of {len(safe)} are lost that were synced"
        logger = boat.start("cat", put(room, log.lines[half:]))
        said = logger.communicate()[1]
        if logger.returncode:
            yield f"status {logger.returncode}, said: {said}"
        yield from judged(boat, log, True)
        last = log.whole(half, len(log.lines))
        if boat.printed()[-len(last) :] != last or not boat.text("reports").endswith(b"\n"):
            yield "what was sent afterwards is not there"
        if sum(message(it) is None for it in boat.text("json").splitlines()) > 2:
            yield "more lines are cut than days were written"
    finally:
        disk.end()


def terminal(program, room, chance):
    """Presses Ctrl-C in a terminal, for the script and all its processes."""
    boat, log = Boat(program, room), Log(chance, 3)
    path = put(room, log.lines)
    pid, screen = pty.fork()
    if pid == 0:
        os.execve(LOGGER, [LOGGER, "--raw", boat.folder, TABLE, *sender(path, 1, chance)], boat.environment)
    boat.received(b"\n")
    time.sleep(0.7 * chance.random())
    os.write(screen, b"\x03")
    said = b""
    try:
        while select.select([screen], [], [], 30)[0] and (it := os.read(screen, 4096)):
            said += it
    except OSError:
        # The terminal is closed.
        pass
    else:
        kill(tree(pid))
        yield "it does not end"
    status = os.waitstatus_to_exitcode(os.waitpid(pid, 0)[1])
    days = re.findall(rb"lines (\d+) messages (\d+) bad (\d+) unknown (\d+) broken (\d+) open (\d+)", said)
    # Added up, the days' summaries are n2kdec's, except for the open groups.
    sums = [sum(int(it[place]) for it in days) for place in range(5)] + [int(it[5]) for it in days[-1:]]
    wanted = re.findall(rb"\d+", boat.text("reports").splitlines()[-1]) if days else []
    if status not in (0, 1) or sums != list(map(int, wanted)):
        yield f"status {status}, said: {said}"
    if boat.decoded(boat.raw()) != boat.text("json"):
        yield "the raw log gives other messages"
    yield from judged(boat, log, False)


def main():
    if sys.argv[1] in ("send", "timed"):
        return globals()[sys.argv[1]](*sys.argv[2:])
    # A background process of a script ignores these two signals, and its children would too: no Ctrl-C would end a
    # logger.
    for it in (signal.SIGINT, signal.SIGQUIT):
        signal.signal(it, signal.SIG_DFL)
    # A trial whose time is up ends all its processes.
    signal.signal(signal.SIGTERM, lambda *_: sys.exit("it was ended"))
    program, trial = os.path.realpath(sys.argv[1]), globals()[sys.argv[2]]
    count, seed = int([*sys.argv, 1, 1][3]), int([*sys.argv, 1, 1, 1][4])
    faults = 0
    for number in range(seed, seed + count):
        room = tempfile.mkdtemp()
        try:
            for fault in trial(program, room, random.Random(number)):
                faults += 1
                print(f"{sys.argv[2]}, seed {number}: {fault}", flush=True)
        finally:
            if Boat.logger and Boat.logger.poll() is None:
                kill(tree(Boat.logger.pid))
            shutil.rmtree(room)
    if trial is holes and not holes.mixed:
        faults += 1
        print("no hole would have mixed a message, so this trial shows nothing")
    print(f"{faults} faults")
    return bool(faults)


if __name__ == "__main__":
    sys.exit(main())
