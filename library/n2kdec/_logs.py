"""The logs of boats: their files, the marks that show changes of the files, and their contents.

A boat's log is one file, or a folder with a file a day, as `n2k-logger --raw` writes them. A file may be compressed by gzip
or zstd. A name with `://` is one of fsspec, as s3://bucket/boat. n2k-fleet and `n2kdec.frame` use this module; its names may
change.
"""
from __future__ import annotations

import errno
import functools
import glob
import gzip
import io
import os
import re
import zlib
from collections.abc import Iterator, Sequence
from importlib import import_module
from typing import Any, BinaryIO, NamedTuple, Optional

import n2kdec

DAY = re.compile(r"(\d{4}-\d\d-\d\d)\.log(\..+)?")
ENDING = re.compile(r"(\.log)?(\.gz|\.zst)?$")
PIECE = 1 << 20
# What a store says of a file that changes when the file does; the first that is there counts.
MARKS = ("ETag", "etag", "mtime", "modify", "LastModified", "last_modified", "modified", "updated", "created", "Content-MD5", "Digest")


class Log(NamedTuple):
    """A part of a boat's log: the name of the part, its file, a mark that changes when the file changes, and why the file
    cannot be read, if that is known."""

    part: str
    file: str
    mark: str
    fault: Optional[str] = None


class Boat(NamedTuple):
    """A boat: the parts of its log in order of time, whether they are days, and why there are none."""

    name: str
    logs: tuple[Log, ...]
    has_days: bool
    fault: Optional[str] = None


class LogError(OSError):
    """A log that cannot be read. The text names its file."""


def said(error: BaseException, file: str) -> str:
    """The text of an error, with the name of the file, once."""
    text = getattr(error, "strerror", None) or str(error) or type(error).__name__
    if isinstance(error, FileNotFoundError):
        text = os.strerror(errno.ENOENT)
    return text if file in text else f"{file}: {text}"


def is_remote(name: str) -> bool:
    return "://" in name


def store_of(name: str) -> tuple[Any, str]:
    """The file system of fsspec that a name leads to, and the name within it."""
    try:
        fsspec = import_module("fsspec")
    except ImportError as error:
        raise OSError(f"{name}: such names are read by python3-fsspec, which is not installed") from error
    store, path = fsspec.core.url_to_fs(name)
    return store, path


class Files:
    """Files of this computer."""

    def is_folder(self, name: str) -> bool:
        return os.path.isdir(name)

    def entries(self, folder: str) -> dict[str, tuple[str, str]]:
        """The file and the mark of each file in a folder, by name."""
        with os.scandir(folder) as found:
            return {it.name: (it.path, self.mark(it.path)) for it in found if not it.is_dir()}

    def mark(self, file: str) -> str:
        found = os.stat(file)
        return f"{found.st_size} {found.st_mtime_ns} {found.st_ctime_ns}"


class Remote(Files):
    """Files of a store."""

    def is_folder(self, name: str) -> bool:
        # Of a name without a slash at its end a web server gives the file, whole.
        store, path = store_of(name)
        return name.endswith("/") or not name.startswith("http") and store.isdir(path)

    def entries(self, folder: str) -> dict[str, tuple[str, str]]:
        store, path = store_of(folder)
        store.invalidate_cache()
        names = {it["name"].rstrip("/").rpartition("/")[2]: it for it in store.ls(path, detail=True) if it["type"] != "directory"}
        files = {name: f"{folder.rstrip('/')}/{name}" for name in names}
        return {name: (files[name], self.mark(files[name], it) if DAY.fullmatch(name) else "") for name, it in names.items()}

    def mark(self, file: str, info: Optional[dict[str, Any]] = None) -> str:
        found = info or {}
        if not any(it in found for it in MARKS):
            store, path = store_of(file)
            found = store.info(path)
        return f"{found['size']} {next((found[it] for it in MARKS if it in found), '')}"


def boat_of(path: str) -> Boat:
    """The boat of a file or folder."""
    files = Remote() if is_remote(path) else Files()
    name = path.rstrip("/").rpartition("/")[2]
    try:
        if files.is_folder(path):
            raw = f"{path.rstrip('/')}/raw{'/' if path.endswith('/') else ''}"
            found = files.entries(path)
            if not any(map(DAY.fullmatch, found)) and files.is_folder(raw):
                found = files.entries(raw)
            return boat_of_days(name, path, found)
        name = ENDING.sub("", name)
        return Boat(name, (Log(name, path, files.mark(path)),), False)
    except faults_of(path) as error:
        return Boat(name, (), False, said(error, path))


def faults_of(name: str) -> tuple[type[Exception], ...]:
    """The errors that reading may raise. Each store has its own."""
    return (Exception,) if is_remote(name) else (OSError, EOFError, zlib.error)


def names_of(name: str) -> list[str]:
    """The files and folders of a name, which may contain stars: a shell does not expand names of a store."""
    if name.startswith("file://"):
        name = name[7:]
    has_stars = re.search(r"[*?\[]", name) is not None
    if not is_remote(name):
        found = sorted(glob.glob(name)) if has_stars and not os.path.exists(name) else [name]
        return [os.path.abspath(it) for it in found or [name]]
    if not has_stars:
        return [name]
    store, path = store_of(name)
    begin = name[:len(name) - len(path)] if name.endswith(path) else ""
    return [begin + it for it in sorted(store.glob(path))] or [name]


def boat_of_days(name: str, folder: str, files: dict[str, tuple[str, str]]) -> Boat:
    days: dict[str, list[str]] = {}
    for file in sorted(files):
        if found := DAY.fullmatch(file):
            days.setdefault(found[1], []).append(file)
    logs = []
    for day, names in sorted(days.items()):
        fault = None
        if len(names) > 1:
            fault = f"{files[names[0]][0]}: {' and '.join(names[1:])} of the same day is there too"
        elif (ending := names[0][len(day):]) not in (".log", ".log.gz", ".log.zst"):
            fault = f"{files[names[0]][0]}: {ending[4:]} is not read: gzip and zstd are"
        logs.append(Log(day, files[names[0]][0], " ".join(files[it][1] for it in names), fault))
    return Boat(name, tuple(logs), True, None if logs else f"{folder}: there are no days in it, as DATE.log of n2k-logger --raw")


def boats_of(paths: Sequence[str]) -> list[Boat]:
    """The boats of files and folders. ValueError if two boats have the same name."""
    boats: dict[str, tuple[Boat, str]] = {}
    for whole in (it for path in paths for it in names_of(path)):
        boat = boat_of(whole)
        if boat.name in boats:
            raise ValueError(f"{boats[boat.name][1]} and {whole} are both called {boat.name}")
        boats[boat.name] = boat, whole
    return [boat for boat, _ in boats.values()]


class Zstd(io.RawIOBase):
    """The contents of a zstd file. A file that ends early raises EOFError, which zstandard's own reader does not."""

    def __init__(self, file: BinaryIO) -> None:
        try:
            zstandard = import_module("zstandard")
        except ImportError as error:
            raise OSError("zstd is read by python3-zstandard, which is not installed") from error
        self.fault = zstandard.ZstdError
        self.begin = zstandard.ZstdDecompressor().decompressobj
        self.file, self.frame, self.is_open, self.rest = file, self.begin(), False, b""

    def readable(self) -> bool:
        return True

    def readinto(self, room: Any) -> int:
        while not self.rest:
            piece = self.file.read(1 << 16)
            if not piece:
                if self.is_open:
                    raise EOFError("the compressed file ends early")
                return 0
            self.rest = self.decompressed(piece)
        count = min(len(room), len(self.rest))
        room[:count], self.rest = self.rest[:count], self.rest[count:]
        return count

    def decompressed(self, piece: bytes) -> bytes:
        """The contents of a piece of the file: of the open frame, and of whole frames after it."""
        texts = []
        try:
            while piece:
                self.is_open = True
                texts.append(self.frame.decompress(piece))
                if not self.frame.eof:
                    break
                piece, self.frame, self.is_open = self.frame.unused_data, self.begin(), False
        except self.fault as error:
            raise OSError(str(error)) from error
        return b"".join(texts)


def opened(file: str) -> BinaryIO:
    """The text of a log, decompressed."""
    if is_remote(file):
        store, path = store_of(file)
        raw = io.BufferedReader(store.open(path, "rb"), PIECE)
    else:
        raw = open(file, "rb")
    head = raw.peek(4)[:4]
    if head[:2] == b"\x1f\x8b":
        return gzip.GzipFile(fileobj=raw)  # type: ignore[return-value]
    if head == b"\x28\xb5\x2f\xfd":
        return io.BufferedReader(Zstd(raw), PIECE)
    return raw


def pieces(log: Log) -> Iterator[bytes]:
    """The text of a log as it comes. LogError if it cannot be read."""
    if log.fault:
        raise LogError(log.fault)
    try:
        with opened(log.file) as text:
            yield from iter(lambda: text.read(PIECE), b"")
    except faults_of(log.file) as error:
        raise LogError(said(error, log.file)) from error


@functools.lru_cache(2)
def read_table(toml: bytes) -> n2kdec.Table:
    """A table, which is read once in a process."""
    return n2kdec.Table(toml)


class Chain:
    """The decoder of a boat, which goes from one part of its log to the next."""

    def __init__(self, toml: bytes) -> None:
        self.toml = toml
        self.decoder: Optional[n2kdec.Decoder] = None

    def begin(self, state: Optional[bytes] = None) -> None:
        """Begins a log, or continues from a state."""
        self.end()
        self.decoder = n2kdec.Decoder(read_table(self.toml), state=state, in_order=True)

    def end(self) -> None:
        if self.decoder is not None:
            self.decoder.close()
        self.decoder = None

    def decode(self, log: Log) -> Iterator[tuple[bytes, list[str]]]:
        """The output and the reports of `n2kdec decode --in-order` for a part, as they come. LogError if the part cannot be read,
        or is the first part and has no line of a log; the decoder is closed then."""
        if self.decoder is None:
            self.begin()
        decoder = self.decoder
        assert decoder is not None
        is_first = decoder.counts.lines == 0
        try:
            for piece in pieces(log):
                decoder.feed(piece)
                yield decoder.take(), decoder.reports()
            # A line feed takes the last line, as the end of a log does, and the decoder goes on.
            if decoder.pending:
                decoder.feed(b"\n")
                yield decoder.take(), decoder.reports()
            counts = decoder.counts
            if is_first and counts.bad and not any((counts.messages, counts.unknown, counts.broken, counts.open)):
                raise LogError(f"no line of {log.file} is one of a log")
        except LogError:
            self.end()
            raise

    @property
    def counts(self) -> n2kdec.Counts:
        assert self.decoder is not None
        return self.decoder.counts

    def save(self) -> bytes:
        assert self.decoder is not None
        return self.decoder.save()


def messages_of(boat: Boat, toml: bytes) -> Iterator[n2kdec.Message]:
    """The messages of a boat, as they come. LogError if a part cannot be read."""
    if boat.fault:
        raise LogError(boat.fault)
    with n2kdec.Decoder(read_table(toml), in_order=True) as decoder:
        for log in boat.logs:
            for piece in pieces(log):
                decoder.feed(piece)
                yield from decoder.messages()
                decoder.reports()
            if decoder.pending:
                decoder.feed(b"\n")
                yield from decoder.messages()
