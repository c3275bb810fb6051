"""The source of the lines, and the program that decodes them."""
import collections
import json
import os
import signal
import subprocess
import time

from screen.seen import stamp_of

HOLE = 5.0  # seconds
LONGEST = 1 << 16  # bytes of a line that are kept; more than n2kdec takes of one, and than a message has


class Log:
    """The lines of an open file: as they come, or by their timestamps."""

    def __init__(self, file, speed):
        self.file, self.speed = file, speed
        self.rest, self.waiting = b"", collections.deque()
        self.is_open, self.is_held = True, False
        # Where it is played: the time of the log that has come, the stamp of the last line, and when that was.
        self.now = self.last = None
        self.tick = time.monotonic()
        self.skipped = None  # seconds that were left out

    @property
    def is_over(self):
        return not self.is_open and not self.waiting

    def wants(self):
        """Whether the screen reads more now."""
        if self.speed is not None and self.is_held:
            return False
        return self.is_open and len(self.waiting) < 5000

    def read(self):
        piece = os.read(self.file, 1 << 16)
        if not piece:
            self.is_open = False
            lines, self.rest = [self.rest] if self.rest else [], b""
        else:
            lines = (self.rest + piece).split(b"\n")
            self.rest = lines.pop()
        self.rest = self.rest[:LONGEST]
        self.waiting.extend(lines)

    def close(self):
        """The log is not read any further."""
        self.is_open = False
        self.waiting.clear()

    def rested(self):
        """The computer's clock went on, the log did not."""
        self.tick = time.monotonic()

    def due(self):
        """The lines whose time has come."""
        if not self.speed:
            lines = list(self.waiting)
            self.waiting.clear()
            return lines
        before, self.tick = self.tick, time.monotonic()
        if self.is_held:
            return []
        if self.now is not None:
            self.now += (self.tick - before) * self.speed
        lines = []
        while self.waiting:
            at = stamp_of(self.waiting[0])
            if at is not None:
                if self.now is None:
                    self.now = at
                elif at - self.last > HOLE or at - self.last < -1:
                    # A hole, or a clock that was set back.
                    self.skipped, self.now = at - self.last, at
                if at > self.now:
                    break
                self.last = at
            lines.append(self.waiting.popleft())
        return lines


class Lag:
    """The delay of the screen in seconds: how much older than usual the last message shown is than the clock. The usual age is that of a
    message when nothing waits, whatever clock made the timestamps."""

    def __init__(self):
        self.usual = self.last = None

    def took(self, age):
        """A message of this age was shown, by a clock that runs like the log's."""
        self.last = age
        if self.usual is None or age < self.usual:
            self.usual = age

    def rests(self):
        """Nothing waits."""
        self.usual = self.last

    @property
    def seconds(self):
        return 0.0 if self.last is None else self.last - self.usual


class Decoder:
    """The program that decodes the lines to messages and reports."""

    def __init__(self, command):
        # Ctrl-C and Ctrl-\ reach it too, and it is to sum up.
        self.process = subprocess.Popen(command, stdin=subprocess.PIPE, stdout=subprocess.PIPE, stderr=subprocess.PIPE, bufsize=0,
                                        preexec_fn=lambda: [signal.signal(it, signal.SIG_IGN) for it in (signal.SIGINT, signal.SIGQUIT)])
        self.stdin = self.process.stdin.fileno()
        os.set_blocking(self.stdin, False)
        # What it is to get, and whether it has the begin of a line without its end.
        self.backlog, self.is_within = bytearray(), False
        self.files = {self.process.stdout.fileno(): b"", self.process.stderr.fileno(): b""}
        self.output = self.process.stdout.fileno()

    def send(self, lines):
        self.backlog += b"\n".join(lines) + b"\n"

    def write(self):
        if self.backlog and self.stdin is not None:
            try:
                count = os.write(self.stdin, self.backlog[:1 << 16])
                self.is_within = self.backlog[count - 1] != 10
                del self.backlog[:count]
            except BlockingIOError:
                pass
            except OSError:
                # It has ended, as the end of its output tells.
                self.backlog.clear()

    def drop(self):
        """Drops the lines that wait, except the rest of a line of which the program has a part: it would be a bad line."""
        del self.backlog[self.backlog.find(b"\n") + 1 if self.is_within else 0:]

    def end(self):
        """There are no more lines."""
        if self.stdin is not None:
            self.process.stdin.close()
            self.stdin = None
            self.backlog.clear()

    def read(self, file):
        """The complete lines that the program printed or reported."""
        piece = os.read(file, 1 << 16)
        *lines, rest = (self.files[file] + piece).split(b"\n")
        if piece:
            self.files[file] = rest
        else:
            del self.files[file]
            lines += [rest] if rest else []
        return lines


def kinds_of(command, numbers):
    """The kind of each of these PGNs that is in the table, `single` or `fast`, as the program shows. Each PGN gets two
    frames: the first is a whole fast packet of 6 bytes, the second cannot begin one."""
    asked = [command[0], "decode", "--table", command[command.index("--table") + 1]]
    lines = [f"{stamp},7,{number},0,255,8,{first:02x},06,ff,ff,ff,ff,ff,ff\n" for number in numbers for stamp, first in (("first", 0), ("second", 1))]
    # Ctrl-Z would stop it too, and then it is waited for.
    said = subprocess.run(asked, input="".join(lines), stdout=subprocess.PIPE, stderr=subprocess.DEVNULL, encoding="utf-8", errors="replace",
                          start_new_session=True).stdout
    kinds = {}
    for line in said.splitlines():
        it = json.loads(line)
        kinds[it["pgn"]] = "fast" if it["timestamp"] == "first" else "single"
    return kinds
