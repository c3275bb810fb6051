"""Decodes the logs of many boats side by side: on the processors of this computer, or on a cluster of Dask.

    n2k-fleet [--scheduler ADDRESS] [--table FILE] [--also FILE] [--columns PGN/FIELD,.. [--joined]] --out FOLDER LOG..
    n2k-fleet [--scheduler ADDRESS] [--table FILE] [--also FILE] --parquet FOLDER LOG..

LOG and FOLDER are local names, or names that fsspec knows, such as s3://bucket/boats/*.

LOG is a boat's log (a file, which may be compressed by gzip or zstd), or the folder of an `n2k-logger --raw`, whose days are
parts of one log: each day is decoded from the state after the day before. Boats are decoded side by side.
Without a scheduler each boat gets a process on this computer, and nothing listens. If there are more processors than boats,
days of a boat are decoded in parallel too, except with --columns, --parquet and names of fsspec: each from the state that
the end of the day before gives. If that was not the state after the day before, the day is decoded again. On a cluster each worker must see LOG and
FOLDER under the same names, and must have the library (python3-n2kdec); n2k-fleet sends the rest.

For each log FOLDER gets NAME.json.gz, the output of `n2kdec decode --in-order`, and NAME.reports, its reports and summary;
for a folder of days BOAT/DATE.json.gz, BOAT/DATE.reports, and BOAT/DATE.state, the state after the day. Each file is
written under another name and renamed when it is complete. FOLDER/.n2k-fleet records what each file was made of: a file is made
again if its log, a day before it, the table or the program has changed. One call at a time works in a FOLDER.

    --scheduler ADDRESS   the address of a scheduler of Dask, as tcp://10.0.0.2:8786 [default: DASK_SCHEDULER_ADDRESS or Dask's
                          configuration; if neither has one, or ADDRESS is empty, this computer does the work]
    --table FILE          the table [default: the installed table]
    --also FILE           add the messages and names of your own table, as n2k --also does (may be repeated)
    --columns LIST        write a table NAME.csv for each boat instead of JSON, as `n2k --csv` does with these columns,
                          each of the first thing in the log
    --joined              with --columns: also write all boats into one table, fleet.csv, whose first column is the boat
    --parquet FOLDER      instead of JSON Parquet files boat=BOAT/pgn=PGN/day=DATE/part.0.parquet, with a row for each message;
                          reports and states are in FOLDER/.n2k-fleet. It needs pyarrow, here and on each worker

If a day cannot be read, n2k-fleet names it and decodes the next day from no state. At the end a table lists days, lines and
counts of each boat. The status is 1 if lines were bad, 2 if an argument or the table is refused, 3 if a log failed or the
work stopped; n2k-fleet names each fault and continues with the other boats.

In a notebook `bag(logs)` is a Dask bag of messages; `n2kdec.frame` gives a Dask data frame of one PGN.
"""
from __future__ import annotations

import argparse
import collections
import contextlib
import copy
import datetime
import fcntl
import functools
import getpass
import gzip
import hashlib
import importlib.util
import io
import itertools
import json
import logging
import multiprocessing
import multiprocessing.connection
import os
import pathlib
import pickle
import platform
import re
import signal
import socket
import subprocess
import sys
import tempfile
import time
import types
import urllib.parse
import uuid
from collections.abc import Callable, Iterator, Sequence
from typing import Any, BinaryIO, NamedTuple, Optional

try:
    import n2kdec
    from n2kdec._frame import STAMP, text_of, types_of
    from n2kdec._logs import PIECE, Boat, Chain, Log, LogError, boats_of, is_remote, messages_of, names_of, opened, read_table, store_of
    MISSING = ""
except ImportError as _error:  # a worker gets this file even without the library, and reports that it is missing
    MISSING = str(_error)

HERE = pathlib.Path(__file__).resolve().parent
# The folder of records within a folder of results, and the names of incomplete files.
OWN = ".n2k-fleet"
# On a worker, the text of the recipe that makes CSV.
CONVERT = globals().get("CONVERT", "")
UNFINISHED = re.compile(r"\..+\.new-.+-\d+-\d+")
NUMBERS = itertools.count()
TRIES = 3
# The maximum number of waiting rows of Parquet files.
MOST_ROWS = 50_000
# A day is decoded ahead if its file has so many bytes. The bytes at the end of the day before that give the state: two windows
# of lines of 200 bytes.
LEAST, TAIL = 1 << 20, 4 << 20
# The counts of a state that each line may change.
COUNTED = ("messages", "bad", "unknown", "broken")


class Program(NamedTuple):
    """The library that decodes: its version, its processor, and the digest of its files."""

    version: str
    machine: str
    digest: str


class Job(NamedTuple):
    """The settings of a call, the same for all boats."""

    toml: bytes
    program: Program
    folder: str
    columns: tuple[str, ...]
    call: str
    has_parquet: bool = False
    # The number of other processes that decode days of a boat ahead.
    ahead: int = 0

    def key(self, before: str, log: Log) -> str:
        """The inputs of a part: the parts before it, its log, the table, the program and the columns."""
        own = [before, log.mark, digest_of(self.toml), self.program.digest, *self.columns, *["parquet"][:self.has_parquet]]
        return hashlib.sha256("\n".join(own).encode()).hexdigest()


class Done(NamedTuple):
    """The result of a boat: the number of finished parts, the counts after the last one, the lines and seconds of this
    call, the parts that cannot be read, and why and from which part on the others are missing."""

    boat: str
    days: int
    counts: n2kdec.Counts
    lines: int
    seconds: float
    faults: tuple[str, ...]
    stop: Optional[tuple[str, str]]


class Lost(Exception):
    """The scheduler does not respond, or no longer responds."""


class Busy(Exception):
    """Another call works in the folder."""


@functools.lru_cache(1)
def digest_of(toml: bytes) -> str:
    return hashlib.sha256(toml).hexdigest()


@functools.lru_cache(None)
def program() -> Program:
    """The program of this computer. OSError if there is no library."""
    if MISSING:
        raise OSError(MISSING)
    n2kdec.Decoder(b"format = 3").close()
    with open("/proc/self/maps", encoding="utf-8", errors="surrogateescape") as maps:
        loaded = {line.split(None, 5)[5].rstrip("\n") for line in maps if "libn2kdec" in line}
    digest = hashlib.sha256()
    for file in [*sorted(pathlib.Path(n2kdec.__file__).parent.glob("*.py")), *sorted(loaded)]:
        digest.update(pathlib.Path(str(file)).read_bytes())
    return Program(n2kdec.__version__, platform.machine(), digest.hexdigest())


def difference(job: Job) -> str:
    """The reason why this computer cannot do such a job, or an empty text."""
    wanted = job.program
    try:
        own = program()
    except Exception as error:  # also those of a missing n2kdec
        return f"has no n2kdec: {error}"
    if own.version != wanted.version:
        return f"has n2kdec {own.version}, and this computer {wanted.version}"
    if own.machine == wanted.machine and own.digest != wanted.digest:
        return f"has other files of n2kdec {own.version} than this computer"
    if job.has_parquet and not importlib.util.find_spec("pyarrow"):
        return "has no pyarrow"
    return ""


class Folder:
    """A folder of this computer for the results. Names in it are relative."""

    def __init__(self, name: str) -> None:
        self.name = name

    def path(self, name: str) -> str:
        return os.path.join(self.name, name)

    def names(self, folder: str) -> set[str]:
        """The contents of one of its folders, which may not exist."""
        try:
            return set(os.listdir(self.path(folder)))
        except FileNotFoundError:
            return set()

    def read(self, name: str) -> Optional[bytes]:
        try:
            return pathlib.Path(self.path(name)).read_bytes()
        except FileNotFoundError:
            return None

    def open(self, name: str) -> BinaryIO:
        return open(self.path(name), "rb")

    @contextlib.contextmanager
    def new(self, name: str, is_kept: bool = True) -> Iterator[BinaryIO]:
        """A file that gets its name when it is complete; if `is_kept`, a power cut after that does not undo it."""
        new = self.path(unfinished(name))
        for it in (new, self.path(name)):
            os.makedirs(os.path.dirname(it), exist_ok=True)
        try:
            with open(new, "w+b") as file:
                yield file
                file.flush()
                if is_kept:
                    os.fsync(file.fileno())
            os.replace(new, self.path(name))
        finally:
            with contextlib.suppress(FileNotFoundError):
                os.unlink(new)

    def remove(self, name: str) -> None:
        with contextlib.suppress(FileNotFoundError):
            os.unlink(self.path(name))

    def clean(self) -> None:
        """Removes the files that a killed process has left."""
        for name in filter(UNFINISHED.fullmatch, self.names(OWN)):
            self.remove(f"{OWN}/{name}")

    @contextlib.contextmanager
    def held(self, call: str) -> Iterator[None]:
        """Keeps the folder for this call. Busy if another call has it."""
        name = self.path(f"{OWN}/lock")
        os.makedirs(os.path.dirname(name), exist_ok=True)
        while True:
            file = open(name, "a+", encoding="utf-8")
            try:
                fcntl.flock(file, fcntl.LOCK_EX | fcntl.LOCK_NB)
            except BlockingIOError:
                raise Busy(f"{self.name}: another call works there: {holder_of(self.read(f'{OWN}/lock'))}") from None
            # The previous call may have removed the file in the meantime.
            with contextlib.suppress(FileNotFoundError):
                if os.fstat(file.fileno()).st_ino == os.stat(name).st_ino:
                    break
            file.close()
        with file:
            file.truncate(0)
            file.write(this_call(call))
            file.flush()
            try:
                yield
            finally:
                self.remove(f"{OWN}/lock")


class RemoteFolder(Folder):
    """A folder in a store of fsspec."""

    def __init__(self, name: str) -> None:
        super().__init__(name.rstrip("/"))
        self.store, self.root = store_of(self.name)

    def path(self, name: str) -> str:
        return f"{self.root}/{name}".rstrip("/")

    @contextlib.contextmanager
    def asked(self) -> Iterator[None]:
        """Each store has errors of its own."""
        try:
            yield
        except Exception as error:
            raise OSError(f"{self.name}: {error}") from error

    def has(self, name: str) -> bool:
        self.store.invalidate_cache()
        return bool(self.store.exists(self.path(name)))

    def names(self, folder: str) -> set[str]:
        with self.asked():
            found = self.store.ls(self.path(folder), detail=False) if self.has(folder) else []
            return {it.rstrip("/").rpartition("/")[2] for it in found}

    def read(self, name: str) -> Optional[bytes]:
        with self.asked():
            return bytes(self.store.cat_file(self.path(name))) if self.has(name) else None

    def open(self, name: str) -> BinaryIO:
        with self.asked():
            file: BinaryIO = self.store.open(self.path(name), "rb")
            return file

    @contextlib.contextmanager
    def new(self, name: str, is_kept: bool = True) -> Iterator[BinaryIO]:
        """A file that is made here, sent under another name, and renamed there."""
        new = self.path(unfinished(name))
        with tempfile.NamedTemporaryFile() as file:
            yield file  # type: ignore[misc]
            file.flush()
            with self.asked():
                for it in (new, self.path(name)):
                    self.store.makedirs(os.path.dirname(it), exist_ok=True)
                self.store.put_file(file.name, new)
                self.store.mv(new, self.path(name))

    def remove(self, name: str) -> None:
        if self.has(name):
            with self.asked():
                self.store.rm_file(self.path(name))

    @contextlib.contextmanager
    def held(self, call: str) -> Iterator[None]:
        """A store has no locks: the lock of another call counts if its process may still exist."""
        name = f"{OWN}/lock"
        lock = self.read(name)
        if lock and not has_ended(lock):
            raise Busy(f"{self.name}: another call works there: {holder_of(lock)}; if it has ended, remove {self.name}/{name}")
        with self.new(name) as file:
            file.write(this_call(call).encode())
        check_call(self, call)
        try:
            yield
        finally:
            self.remove(name)


def unfinished(name: str) -> str:
    """The name of a file of a folder until it is complete."""
    return f"{OWN}/.{os.path.basename(name)}.new-{socket.gethostname()}-{os.getpid()}-{next(NUMBERS)}"


def folder_of(name: str) -> Folder:
    return RemoteFolder(name) if is_remote(name) else Folder(name)


def has_ended(lock: bytes) -> bool:
    """Whether the call that wrote this was one of this computer, and its process has ended."""
    try:
        it = json.loads(lock)
        if it["host"] == socket.gethostname():
            os.kill(it["process"], 0)
    except ProcessLookupError:
        return True
    except (ValueError, KeyError, OSError):
        pass
    return False


def this_call(call: str) -> str:
    """The content of the lock for this call."""
    try:
        user = getpass.getuser()
    except (KeyError, OSError):
        user = str(os.getuid())
    since = time.strftime("%Y-%m-%dT%H:%M:%SZ", time.gmtime())
    return json.dumps({"call": call, "host": socket.gethostname(), "process": os.getpid(), "user": user, "since": since})


def holder_of(lock: Optional[bytes]) -> str:
    """The holder of a folder."""
    try:
        it = json.loads(lock or b"")
        return f"process {it['process']} of {it['user']} on {it['host']}, since {it['since']}"
    except (ValueError, KeyError):
        return "it has just begun"


class Record:
    """The inputs of a boat's files: for each part its key, its counts and the names of its tables."""

    def __init__(self, folder: Folder, name: str) -> None:
        self.folder, self.name = folder, f"{OWN}/{name}.json"
        try:
            self.parts = json.loads(folder.read(self.name) or b"{}")
        except ValueError:
            self.parts = {}
        self.saved = 0.0

    def counts(self, part: str, key: str) -> Optional[n2kdec.Counts]:
        """The counts of a part, if it was made from these inputs."""
        known, counts, _ = self.parts.get(part, ("", None, ()))
        return n2kdec.Counts(*counts) if known == key else None

    def forget(self, part: str) -> None:
        """A part is made again: while its files change, the record does not name them."""
        if old := self.parts.pop(part, None):
            self.save()
            for name in old[2]:
                self.folder.remove(name)

    def put(self, part: str, key: str, counts: n2kdec.Counts, tables: Sequence[str] = ()) -> None:
        self.parts[part] = key, counts, tables
        # A boat may have thousands of short days. If a worker is killed, its last second is repeated.
        if time.monotonic() - self.saved > 1:
            self.save()

    def save(self) -> None:
        with self.folder.new(self.name, is_kept=False) as file:
            file.write(json.dumps(self.parts).encode())
        self.saved = time.monotonic()


def added(one: n2kdec.Counts, other: n2kdec.Counts) -> n2kdec.Counts:
    return n2kdec.Counts(*(it + its for it, its in zip(one, other)))


def line_of(counts: n2kdec.Counts) -> bytes:
    return (" ".join(f"{name} {number}" for name, number in counts._asdict().items()) + "\n").encode()


def packed(file: BinaryIO) -> gzip.GzipFile:
    """A gzip writer into a file. The same text gives the same bytes."""
    return gzip.GzipFile(filename="", fileobj=file, mode="wb", compresslevel=1, mtime=0)


def check_call(folder: Folder, call: str) -> None:
    """OSError if another call has begun to work in the folder: then no further file gets its name in this call."""
    with contextlib.suppress(ValueError):
        if json.loads(folder.read(f"{OWN}/lock") or b"{}").get("call", call) != call:
            raise OSError(f"{folder.name}: another call works there now")


class Work:
    """The work on a boat, and its result."""

    def __init__(self, boat: Boat, job: Job) -> None:
        self.boat, self.job, self.start = boat, job, time.monotonic()
        self.folder = folder_of(job.folder)
        self.record = Record(self.folder, boat.name + (".csv" if job.columns else ".parquet" if job.has_parquet else ""))
        self.chain = Chain(job.toml)
        self.days = self.lines = 0
        # The counts of the previous part, and of parts that ended because the next one cannot be read.
        self.counts = self.ended = n2kdec.Counts(0, 0, 0, 0, 0, 0)
        self.faults: list[str] = []
        self.is_broken = False
        # The Parquet files of the current part.
        self.tables: list[str] = []

    def base(self, log: Log) -> str:
        """The beginning of the names of a part's files."""
        own = [OWN][:self.job.has_parquet]
        return "/".join([*own, *[self.boat.name][:self.boat.has_days], log.part])

    def done(self, stop: Optional[tuple[str, str]] = None) -> Done:
        self.chain.end()
        return Done(self.boat.name, self.days, added(self.counts, self.ended), self.lines, time.monotonic() - self.start, tuple(self.faults), stop)

    def put(self, log: Log, counts: n2kdec.Counts, lines: int) -> None:
        """A part is made."""
        if self.is_broken:
            self.faults[-1] += f"; {log.part} begins from no state"
        self.is_broken, self.counts = False, counts
        self.days, self.lines = self.days + 1, self.lines + lines

    def fail(self, error: LogError) -> None:
        """A part cannot be read."""
        self.faults.append(str(error))
        self.is_broken = True
        self.ended = added(self.counts, self.ended)
        self.counts = n2kdec.Counts(0, 0, 0, 0, 0, 0)


def stop_of(error: Exception, where: str) -> tuple[str, str]:
    """Why a boat's work ends, and at which part: the same cause gives the same text."""
    return (error.strerror if isinstance(error, OSError) and error.strerror else str(error)), where


def decode_boat(boat: Boat, job: Job, may_work: bool = True) -> Optional[Done]:
    """Makes the missing files of a boat; None if there are some and it may not work."""
    work, key, before, names = Work(boat, job), "", "", None
    ahead = Ahead(boat, job)
    try:
        for at, log in enumerate(boat.logs):
            base = work.base(log)
            if names is None:
                names = work.folder.names(os.path.dirname(base))
            files = [f"{log.part}{end}" for end in (*[".json.gz"][job.has_parquet:], ".reports", *[".state"][:boat.has_days])]
            key = job.key(key, log)
            counts = None if log.fault else work.record.counts(log.part, key)
            if counts is not None and names.issuperset(files):
                work.chain.end()
                work.put(log, counts, 0)
            elif not may_work:
                return None
            else:
                try:
                    if counts is None:
                        work.record.forget(log.part)
                        ahead.start(at)
                    counts = decode_part(work, log, base, before, ahead)
                    work.record.put(log.part, key, counts, work.tables)
                    work.put(log, counts, counts.lines - work.counts.lines)
                except LogError as error:
                    work.fail(error)
                    key = before = ""
                    continue
            before = f"{base}.state"
        if may_work:
            work.record.save()
        return work.done()
    except (OSError, n2kdec.Error) as error:
        return work.done(stop_of(error, f"{boat.name} from {log.part} on" if boat.has_days else boat.name))
    finally:
        ahead.end()


def decode_part(work: Work, log: Log, base: str, before: str, ahead: Ahead) -> n2kdec.Counts:
    """Makes the files of a part, whose names begin with `base`; `before` is the state that it goes on from."""
    folder, chain = work.folder, work.chain
    if chain.decoder is None:
        chain.begin(folder.read(before) if before else None)
    if not ahead.take(work, log):
        make_part(work, log, base)
    if work.boat.has_days:
        with folder.new(f"{base}.state") as state:
            state.write(chain.save())
    return chain.counts


def make_part(work: Work, log: Log, base: str) -> None:
    """Makes the messages and reports of a part."""
    folder, chain = work.folder, work.chain
    with folder.new(f"{base}.reports") as reports, messages_file(work, log) as put:
        for printed, told in chain.decode(log):
            put(printed)
            reports.write("".join(f"{it}\n" for it in told).encode())
        reports.write(line_of(chain.counts))
        check_call(folder, work.job.call)


class Ahead:
    """The processes that decode days of a boat before their turn, each from an assumed state. A day's files get their names at its
    turn, if its assumed state has the open groups of the state after the day before, at the same distance. Otherwise, or if the
    process has failed, the day is decoded at its turn."""

    def __init__(self, boat: Boat, job: Job) -> None:
        self.boat, self.job = boat, job
        self.days: dict[str, tuple[Any, Any]] = {}

    def start(self, at: int) -> None:
        """Decodes days after this one, as far as there are processors."""
        # While a day is awaited, the processor of this process is free.
        most = self.job.ahead + (self.boat.logs[at].part in self.days) if self.job.ahead else 0
        for place in range(at + 1, len(self.boat.logs)):
            if len(self.days) >= most:
                break
            before, log = self.boat.logs[place - 1:place + 1]
            if log.part not in self.days and is_file(before, 0) and is_file(log, LEAST):
                context = multiprocessing.get_context("fork")
                mine, its = context.Pipe()
                process = context.Process(target=run_ahead, args=(its, os.getpid(), self.boat, self.job, before, log), daemon=True)
                process.start()
                its.close()
                self.days[log.part] = process, mine

    def take(self, work: Work, log: Log) -> bool:
        """Whether the messages and reports of a day are made by now; then the chain goes on after it."""
        if log.part not in self.days:
            return False
        process, pipe = self.days.pop(log.part)
        before = work.chain.save()
        try:
            assumed, after, state = map(json.loads, (*pipe.recv(), before))
            # The first line of a log has a rule of its own.
            if not state["lines"] or groups_of(assumed) != groups_of(state):
                pipe.send(None)
                return False
            distance = state["lines"] - assumed["lines"]
            groups = [{**it, "first": it["first"] + distance} for it in after["groups"]]
            after.update(lines=after["lines"] + distance, groups=groups, **{it: state[it] + after[it] for it in COUNTED})
            work.chain.begin(json.dumps(after).encode())
            pipe.send((distance, work.chain.counts))
            return bool(pipe.recv())
        except (EOFError, OSError):
            work.chain.begin(before)
            return False
        except BaseException:
            process.kill()
            raise
        finally:
            pipe.close()
            process.join()

    def end(self) -> None:
        for process, pipe in self.days.values():
            process.kill()
            process.join()
            pipe.close()


def is_file(log: Log, least: int) -> bool:
    return not log.fault and os.path.isfile(log.file) and os.path.getsize(log.file) >= least


def groups_of(state: dict[str, Any]) -> list[dict[str, Any]]:
    """The open groups of a state, with their distances from its end."""
    return [{**it, "first": it["first"] - state["lines"]} for it in state["groups"]]


def run_ahead(pipe: multiprocessing.connection.Connection, parent: int, boat: Boat, job: Job, before: Log, log: Log) -> None:
    """The work of a process that decodes a day before its turn. It ends soon after the process that started it."""
    def check() -> None:
        if os.getppid() != parent:
            os._exit(3)

    # A process that fails does not answer: the day is decoded again, which reports the fault.
    with contextlib.suppress(Exception):
        make_ahead(Work(boat, job), log, assumed_state(job.toml, before, check), pipe, check)


def assumed_state(toml: bytes, log: Log, check: Callable[[], None]) -> bytes:
    """The state that the end of a log gives, with nothing counted but lines."""
    tail: collections.deque[bytes] = collections.deque(maxlen=TAIL // PIECE)
    with opened(log.file) as text:
        if isinstance(getattr(text, "raw", None), io.FileIO):
            text.seek(max(0, os.path.getsize(log.file) - TAIL))
        while piece := text.read(PIECE):
            check()
            tail.append(piece)
    with n2kdec.Decoder(read_table(toml), in_order=True) as decoder:
        for piece in tail:
            decoder.feed(piece)
            decoder.take()
            decoder.reports()
        if decoder.pending:
            decoder.feed(b"\n")
            decoder.take()
        return json.dumps({**json.loads(decoder.save()), **dict.fromkeys(COUNTED, 0)}).encode()


def make_ahead(work: Work, log: Log, assumed: bytes, pipe: multiprocessing.connection.Connection, check: Callable[[], None]) -> None:
    """Makes the messages and reports of a day from an assumed state. They get their names if the answer is that it was right."""
    folder, chain = work.folder, work.chain
    chain.begin(assumed)
    with folder.new(f"{work.base(log)}.reports") as reports, tempfile.TemporaryFile(dir=folder.path(OWN)) as kept, messages_file(work, log) as put:
        for printed, told in chain.decode(log):
            check()
            put(printed)
            kept.write("".join(f"{it}\n" for it in told).encode())
        pipe.send((assumed, chain.save()))
        while not pipe.poll(0.5):
            check()
        answer = pipe.recv()
        if answer is None:
            raise EOFError
        distance, counts = answer
        kept.seek(0)
        for line in kept:
            reports.write(moved(line, distance))
        reports.write(line_of(counts))
        check_call(folder, work.job.call)
    pipe.send(True)


def moved(report: bytes, distance: int) -> bytes:
    """A report with its numbers of lines moved."""
    return re.sub(rb"(^line | first (?=\d+$))(\d+)", lambda it: b"%s%d" % (it[1], int(it[2]) + distance), report)


@contextlib.contextmanager
def messages_file(work: Work, log: Log) -> Iterator[Callable[[bytes], Any]]:
    """Takes the lines of a part; its files get their names at the end."""
    if work.job.has_parquet:
        with Tables(work, log) as tables:
            yield tables.put
    else:
        with work.folder.new(f"{work.base(log)}.json.gz") as out, packed(out) as text:
            yield text.write


class Tables:
    """The Parquet files of a part of a log, one for each PGN. A log without days has them for each of its days."""

    def __init__(self, work: Work, log: Log) -> None:
        self.work, self.day = work, log.part if work.boat.has_days else ""
        self.pyarrow, self.parquet = importlib.import_module("pyarrow"), importlib.import_module("pyarrow.parquet")
        self.rows: dict[int, list[dict[str, Any]]] = {}
        self.writers: dict[int, Any] = {}
        self.files = contextlib.ExitStack()
        self.waiting = 0
        work.tables = []

    def __enter__(self) -> Tables:
        return self

    def __exit__(self, *error: Any) -> None:
        try:
            if not error[0]:
                self.finish()
        except BaseException:
            error = sys.exc_info()
            raise
        finally:
            if error[0]:
                self.files.__exit__(*error)
                for name in self.work.tables:
                    self.work.folder.remove(name)

    def put(self, printed: bytes) -> None:
        for line in printed.split(b"\n"):
            if line:
                message = json.loads(line)
                time_of, day = when(message["timestamp"])
                if not self.work.boat.has_days and day != self.day:
                    self.finish()
                    self.day = day
                pgn, texts = message["pgn"], {"src": message["src"], "description": message["description"], "time": time_of}
                self.rows.setdefault(pgn, []).append({**message["fields"], **texts})
                self.waiting += 1
                if self.waiting == MOST_ROWS:
                    self.write(max(self.rows, key=lambda it: len(self.rows[it])))

    def write(self, pgn: int) -> None:
        """Writes the waiting rows of a PGN."""
        rows, types = self.rows.pop(pgn), types_of(self.work.job.toml, pgn, None)
        self.waiting -= len(rows)
        if pgn not in self.writers:
            kinds, text = {"float64": self.pyarrow.float64(), "Int64": self.pyarrow.int64()}, self.pyarrow.string()
            schema = self.pyarrow.schema([("time", self.pyarrow.timestamp("ns", tz="UTC")), ("src", self.pyarrow.int16()), ("description", text),
                                          *((name, kinds.get(its, text)) for name, its in types.items())])
            file = self.files.enter_context(self.work.folder.new(self.name_of(pgn)))
            self.writers[pgn] = schema, self.files.enter_context(self.parquet.ParquetWriter(file, schema))
        schema, writer = self.writers[pgn]
        columns = {it: [row.get(it) for row in rows] for it in schema.names}
        for name, its in types.items():
            if its not in ("float64", "Int64"):
                columns[name] = [text_of(it, its) for it in columns[name]]
        writer.write_table(self.pyarrow.table(columns, schema=schema))

    def name_of(self, pgn: int) -> str:
        """The name of the next file of a PGN and day."""
        boat = urllib.parse.quote(self.work.boat.name, safe=" ")
        folder = f"boat={boat}/pgn={pgn}/day={self.day}/"
        name = f"{folder}part.{sum(it.startswith(folder) for it in self.work.tables)}.parquet"
        self.work.tables.append(name)
        return name

    def finish(self) -> None:
        """Writes the waiting rows; the files get their names."""
        for pgn in list(self.rows):
            self.write(pgn)
        self.files.close()
        self.writers = {}


def when(stamp: str) -> tuple[Optional[int], str]:
    """A timestamp in nanoseconds since 1970, and its day as in Parquet's partitions; missing if it is not a time."""
    with contextlib.suppress(ValueError):
        if it := STAMP.fullmatch(stamp):
            clock, _, fraction = it[4].partition(".")
            whole = datetime.datetime.fromisoformat(f"{it[1]}-{it[2]}-{it[3]}T{clock}+00:00")
            return int(whole.timestamp()) * 10**9 + int(fraction.ljust(9, "0")), str(whole.date())
    return None, "__HIVE_DEFAULT_PARTITION__"


@functools.lru_cache(None)
def convert() -> Any:
    """The recipe that makes CSV: beside this file, or the text that was sent to a worker."""
    module = types.ModuleType("n2k_convert")
    module.__file__ = str(HERE / "convert")
    exec(compile(CONVERT or (HERE / "convert").read_text(encoding="utf-8"), module.__file__, "exec"), module.__dict__)
    return module


class Rows:
    """The rows of a boat, as `n2k --csv` makes them of the columns."""

    def __init__(self, columns: Sequence[str]) -> None:
        self.recipe = convert()
        self.csv = self.recipe.Csv(list(columns), True)
        self.head: str = self.csv.head

    def of(self, printed: bytes) -> str:
        lines = printed.decode("utf-8", "surrogateescape").split("\n")
        return "".join(self.csv.lines(self.recipe.found_in(lines, [0], self.csv.sieve)))


def tabulate_boat(boat: Boat, job: Job, may_work: bool = True) -> Optional[Done]:
    """Makes NAME.csv and NAME.reports of a boat if they are missing; None if they are and it may not work."""
    work, key = Work(boat, job), ""
    for log in boat.logs:
        key = job.key(key, log)
    made = work.record.counts("csv", key)
    if made is not None and work.folder.names("").issuperset([f"{boat.name}.csv", f"{boat.name}.reports"]):
        work.counts, work.days = made, len(boat.logs)
        return work.done()
    if not may_work:
        return None
    try:
        work.record.forget("csv")
        with work.folder.new(f"{boat.name}.csv") as out, work.folder.new(f"{boat.name}.reports") as reports:
            tabulate_parts(work, out, reports)
            check_call(work.folder, job.call)
        if not work.faults:
            work.record.put("csv", key, work.counts)
            work.record.save()
        return work.done()
    except (OSError, n2kdec.Error) as error:
        return work.done(stop_of(error, boat.name))


def tabulate_parts(work: Work, out: BinaryIO, reports: BinaryIO) -> None:
    """Writes rows and reports of all parts of a boat; none of a part that cannot be read."""
    rows = Rows(work.job.columns)
    out.write(rows.head.encode("utf-8", "surrogateescape"))
    for log in work.boat.logs:
        began, before = (out.tell(), reports.tell()), copy.deepcopy(rows.csv)
        try:
            for printed, told in work.chain.decode(log):
                out.write(rows.of(printed).encode("utf-8", "surrogateescape"))
                reports.write("".join(f"{it}\n" for it in told).encode())
            counts = work.chain.counts
            reports.write(line_of(counts))
            work.put(log, counts, counts.lines - work.counts.lines)
        except LogError as error:
            work.fail(error)
            for file, place in zip((out, reports), began):
                file.seek(place)
                file.truncate()
            rows.csv = before


def work_on(boat: Boat, job: Job) -> Done:
    """Makes a call's results for a boat."""
    done = (tabulate_boat if job.columns else decode_boat)(boat, job)
    assert done
    return done


def failed(boat: Boat, text: str) -> Done:
    return Done(boat.name, 0, n2kdec.Counts(0, 0, 0, 0, 0, 0), 0, 0.0, (text,), None)


def join(boats: Sequence[str], folder: Folder) -> None:
    """One table of all boats, whose first column is the boat."""
    with folder.new("fleet.csv") as out:
        for at, name in enumerate(sorted(boats)):
            with folder.open(f"{name}.csv") as file:
                head = file.readline()
                if not at:
                    out.write(b'"boat",' + head)
                cell = os.fsencode(convert().Csv.cell(json.dumps(name)) + ",")
                for line in file:
                    out.write(cell + line)


def shipped(name: str) -> pathlib.Path:
    """The path of a file that is installed above the recipes; in the sources it is in another folder."""
    places = HERE.parent / name, HERE.parents[1] / "tables" / name, HERE.parents[1] / "tools" / name
    return next((it for it in places if it.exists()), places[0])


def bag(logs: Sequence[str], table: Any = None) -> Any:
    """A Dask bag of the messages of logs, as dicts: a partition for each boat. Workers need only the library."""
    import dask
    import dask.bag
    boats, toml = boats_of(logs), dask.delayed(pathlib.Path(table or shipped("n2k.toml")).read_bytes())
    return dask.bag.from_sequence(boats, npartitions=len(boats)).map(messages_of, toml).flatten()


def say(text: str) -> None:
    print(f"n2k-fleet: {text}", file=sys.stderr)


def table_text(done: Sequence[Done], seconds: float) -> str:
    """The table at the end: a row for each boat, and the total."""
    head = ("boat", "days", "lines", "messages", "bad", "broken", "unknown", "seconds", "lines/s")

    def row(name: str, all_of: Sequence[Done], took: float) -> tuple[str, ...]:
        numbers = [sum(it.days for it in all_of), *(sum(getattr(it.counts, name) for it in all_of) for name in head[2:7])]
        lines = sum(it.lines for it in all_of)
        return (name, *map(str, numbers), f"{took:.1f}", f"{lines / took:.0f}" if lines and took else "-")

    rows = [head, *(row(it.boat, [it], it.seconds) for it in done), row(f"{len(done)} boats", done, seconds)]
    widths = [max(map(len, column)) for column in zip(*rows)]
    return "".join("  ".join(cell.ljust(width) if not at else cell.rjust(width)
                             for at, (cell, width) in enumerate(zip(row, widths))) + "\n" for row in rows)


def run_child(writer: multiprocessing.connection.Connection, boat: Boat, job: Job) -> None:
    """The work of a process of this computer."""
    # Ctrl-C reaches all processes; the parent ends its children.
    signal.signal(signal.SIGINT, signal.SIG_IGN)
    signal.signal(signal.SIGTERM, signal.SIG_DFL)
    try:
        writer.send(work_on(boat, job))
    except Exception as error:  # pylint: disable=broad-except
        writer.send(failed(boat, f"{boat.name}: {error!r}"))


def on_this_computer(boats: Sequence[Boat], job: Job) -> Iterator[Done]:
    """The result of each boat. If a boat's process died it gets another, three in all."""
    # fsspec has threads, and a process with threads cannot be forked.
    is_plain = not any(map(is_remote, [job.folder, *(log.file for boat in boats for log in boat.logs)]))
    context: Any = multiprocessing.get_context("fork" if is_plain else "spawn")
    waiting, tries = collections.deque(boats), collections.Counter[str]()
    busy: dict[Any, tuple[Any, Boat]] = {}
    processors = len(os.sched_getaffinity(0))
    # The processors that are left when each boat has one are spread over the boats.
    each, more = divmod(max(0, processors - len(boats)) if is_plain and not job.has_parquet else 0, len(boats))
    ahead = {it.name: each + (at < more) for at, it in enumerate(boats)}
    try:
        while waiting or busy:
            while waiting and len(busy) < processors:
                boat = waiting.popleft()
                reader, writer = context.Pipe(duplex=False)
                # A daemon may not have processes of its own.
                process = context.Process(target=run_child, args=(writer, boat, job._replace(ahead=ahead[boat.name])), daemon=False)
                process.start()
                writer.close()
                busy[reader] = process, boat
            for reader in multiprocessing.connection.wait(list(busy)):
                process, boat = busy.pop(reader)
                try:
                    done = reader.recv()  # type: ignore[union-attr]
                except EOFError:
                    done = None
                process.join()
                tries[boat.name] += 1
                if done is None and tries[boat.name] < TRIES:
                    waiting.append(boat)
                else:
                    yield done or failed(boat, f"{boat.name}: its process died {TRIES} times, the last time with status {process.exitcode}")
    finally:
        for process, _ in busy.values():
            process.kill()
            process.join()


def by_worker(boat: bytes, handed: tuple[str, str, str, tuple[Any, ...]]) -> tuple[Any, ...]:
    """The call on a worker of a cluster: it runs this file, which is sent as text, since a worker has only the library.
    This function is sent as code and uses nothing of this file."""
    import sys
    import types
    name, source, convert, job = handed
    if name not in sys.modules:
        module = types.ModuleType(name)
        module.__dict__.update(__file__="fleet.py", CONVERT=convert)
        exec(compile(source, "fleet.py", "exec"), module.__dict__)
        sys.modules.setdefault(name, module)
    return sys.modules[name].work_for(boat, job)  # type: ignore[no-any-return]


def work_for(boat: bytes, plain: tuple[Any, ...]) -> tuple[Any, ...]:
    """The result of a boat, or the worker and what it lacks. The boat is pickled, since a worker may lack the module
    that defines it."""
    job = Job(*plain)._replace(program=Program(*plain[1]))
    if text := difference(job):
        import distributed
        return distributed.get_worker().address, text
    return tuple(work_on(pickle.loads(boat), job))


def on_cluster(address: str, boats: Sequence[Boat], job: Job) -> Iterator[Done]:
    """The result of each boat. A boat whose worker died goes to another worker. Lost if the scheduler does not
    respond."""
    import distributed
    # A lost scheduler, which Dask logs, is reported here in one sentence.
    logging.disable(logging.CRITICAL)
    faults = OSError, distributed.TimeoutError, distributed.CancelledError
    try:
        client = distributed.Client(address)
    except (*faults, ValueError) as error:
        raise Lost(f"no scheduler answers at {address}: {error}") from error
    try:
        yield from by_client(client, boats, job)
    except faults as error:
        raise Lost(f"the scheduler at {address} is lost") from error
    finally:
        # A client whose scheduler is lost may not close in time; nothing waits for it.
        with contextlib.suppress(Exception):
            client.close(timeout=5)


def by_client(client: Any, boats: Sequence[Boat], job: Job) -> Iterator[Done]:
    import distributed
    if not client.scheduler_info()["workers"]:
        say("the scheduler has no worker yet: waiting for one")
        while not client.scheduler_info()["workers"]:
            if client.status != "running":
                raise distributed.CancelledError
            time.sleep(0.2)
    # Each worker gets the table once; a worker that died with the table does no harm, since it can be made again.
    sources = [(HERE / name).read_text(encoding="utf-8") for name in ("fleet.py", "convert")]
    digest = hashlib.sha256("".join(sources).encode()).hexdigest()
    handed = client.submit(tuple, [f"n2k_fleet_{digest}", *sources, (job.toml, tuple(job.program), *job[2:])])
    run = types.FunctionType(by_worker.__code__, {"__name__": "__main__"})
    boat_of = {client.submit(run, pickle.dumps(boat), handed, pure=False): boat for boat in boats}
    wrong: dict[str, str] = {}
    results = distributed.as_completed(list(boat_of))
    for future in results:
        boat = boat_of.pop(future)
        error = future.exception()
        found = failed(boat, fault_of(boat, error)) if error is not None else future.result()
        if len(found) > 2:
            yield Done(*found)
            continue
        worker, text = found
        if worker not in wrong:
            wrong[worker] = text
            say(f"the worker {worker} {text}: it gets no boat")
        able = [it for it in client.scheduler_info()["workers"] if it not in wrong]
        if able:
            again = client.submit(run, pickle.dumps(boat), handed, pure=False, workers=able)
            boat_of[again] = boat
            results.add(again)
        else:
            yield failed(boat, "")._replace(faults=(), stop=("no worker has this computer's n2kdec", boat.name))


def fault_of(boat: Boat, error: BaseException) -> str:
    import distributed
    if isinstance(error, distributed.scheduler.KilledWorker):
        return f"{boat.name}: its worker died, and so did those that it was given to then"
    return f"{boat.name}: {error!r}"


def scheduler_of(asked: Optional[str]) -> str:
    """The address of the scheduler: the requested one, or that of Dask's configuration, if there is one."""
    if asked is None:
        try:
            import dask.config
            return str(dask.config.get("scheduler-address", None) or "")
        except ImportError:
            return ""
    return asked


def parsed(words: Sequence[str]) -> argparse.Namespace:
    parser = argparse.ArgumentParser("n2k-fleet", description="Decodes the logs of many boats side by side: on this computer, or on a cluster of "
                                     "Dask. If this computer has more processors than boats, it decodes days of a boat in parallel.")
    parser.add_argument("--scheduler", metavar="ADDRESS", help="the address of a scheduler of Dask, as tcp://10.0.0.2:8786 [default: "
                        "DASK_SCHEDULER_ADDRESS or Dask's configuration; otherwise this computer does the work]")
    parser.add_argument("--table", metavar="FILE", default=str(shipped("n2k.toml")), help="the table [default: the installed table]")
    parser.add_argument("--also", metavar="FILE", action="append", default=[], help="add the messages and names of your own table")
    parser.add_argument("--columns", metavar="PGN/FIELD,..", default="", help="instead of JSON a CSV of these columns for each boat")
    parser.add_argument("--joined", action="store_true", help="with --columns: also all boats in fleet.csv")
    where = parser.add_mutually_exclusive_group(required=True)
    where.add_argument("--out", metavar="FOLDER", help="where the results go")
    where.add_argument("--parquet", metavar="FOLDER", help="where Parquet files go, instead of JSON: a folder for each boat, PGN and day")
    parser.add_argument("logs", metavar="LOG", nargs="+", help="a boat's log, or the folder of an n2k-logger --raw")
    options = parser.parse_args(words)
    options.columns = tuple(it for it in re.split(r",(?=\d+/)", options.columns) if it)
    if any(not re.fullmatch(r"\d+/.+", it) for it in options.columns):
        parser.error("--columns has a PGN and a field, as 128267/Depth, with commas between")
    if options.joined and not options.columns:
        parser.error("--joined goes with --columns")
    if options.parquet and options.columns:
        parser.error("--columns goes with --out")
    return options


def table_of(options: argparse.Namespace) -> bytes:
    """The table, with those of --also. ValueError gives its fault."""
    toml = pathlib.Path(options.table).read_bytes()
    if options.also:
        joined = subprocess.run([sys.executable, shipped("table_join.py"), options.table, *options.also], capture_output=True, check=False)
        told = joined.stderr.decode(errors="replace").splitlines()
        if joined.returncode:
            raise (ValueError if joined.returncode == 2 else OSError)("\nn2k-fleet: ".join(told))
        for line in told:
            say(line)
        toml = joined.stdout
    try:
        # The forked processes share it.
        read_table(toml)
    except n2kdec.ArgumentError as error:
        raise ValueError(f"{options.table}: {error}") from error
    return toml


def main(words: Sequence[str]) -> int:
    options = parsed(words)
    if MISSING:
        say(f"{MISSING}: the package python3-n2kdec has the library for Python")
        return 3
    start, call = time.monotonic(), uuid.uuid4().hex
    try:
        if options.parquet and not importlib.util.find_spec("pyarrow"):
            raise OSError("--parquet needs pyarrow, which is not installed: pip install pyarrow (Debian 12 has no package of it)")
        own, folder = program(), folder_of(names_of(options.parquet or options.out)[0])
        boats = boats_of(options.logs)
        if options.joined and any(it.name == "fleet" for it in boats):
            raise ValueError("a boat is called fleet, as the table of --joined is")
        job = Job(table_of(options), own, folder.name, options.columns, call, options.parquet is not None)
        # SIGTERM also ends the processes that this call has started.
        signal.signal(signal.SIGTERM, lambda *_: sys.exit(128 + signal.SIGTERM))
        with folder.held(call):
            return decode_all(boats, job, folder, options, start)
    except ValueError as error:
        say(str(error))
        return 2
    except (OSError, Busy, n2kdec.Error) as error:
        say(str(error))
    except KeyboardInterrupt:
        say("stopped: what is there is whole, and the next call makes the rest")
        return 128 + signal.SIGINT
    return 3


def decode_all(boats: Sequence[Boat], job: Job, folder: Folder, options: argparse.Namespace, start: float) -> int:
    """Makes all missing results, and reports them."""
    done: dict[str, Done] = {}

    def look() -> list[Boat]:
        """The boats without results."""
        for boat in boats:
            if boat.name not in done:
                made = failed(boat, boat.fault) if boat.fault else (tabulate_boat if job.columns else decode_boat)(boat, job, may_work=False)
                done.update({boat.name: made} if made else {})
        return [it for it in boats if it.name not in done]

    rest, lost = look(), ""
    if rest:
        address = scheduler_of(options.scheduler)
        try:
            for it in on_cluster(address, rest, job) if address else on_this_computer(rest, job):
                done[it.boat] = it
                if sys.stderr.isatty():
                    print(f"\r{len(done)} of {len(boats)} boats", end="\n" if len(done) == len(boats) else "", file=sys.stderr)
        except ImportError:
            lost = "Dask is not installed: sudo apt install python3-distributed"
        except Lost as error:
            lost = str(error)
            look()
        else:
            folder.clean()
    if options.joined and not lost:
        join([it.boat for it in done.values() if it.days and not it.stop], folder)
    ends = [done[it.name] for it in boats if it.name in done]
    sys.stdout.write(table_text(ends, time.monotonic() - start))
    return judged(ends, lost, len(boats))


def judged(done: Sequence[Done], lost: str, count: int) -> int:
    """Reports each fault once. The status."""
    for it in done:
        for fault in it.faults:
            say(fault)
    stops: dict[str, list[str]] = {}
    for it in done:
        if it.stop:
            stops.setdefault(it.stop[0], []).append(it.stop[1])
    for text, places in stops.items():
        say(f"{text}: not made: {', '.join(places)}")
    if lost:
        say(f"{lost}: {count - len(done)} of {count} boats are not finished; the next call goes on with them")
    return 3 if lost or stops or any(it.faults for it in done) else 1 if any(it.counts.bad for it in done) else 0
