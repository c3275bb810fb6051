"""n2kdec's decoder: recorded NMEA 2000 traffic in, messages out; and its encoder: messages in, frames out.

    import n2kdec

    for message in n2kdec.decode("trip.log", in_order=True):
        print(message["description"], message["fields"])

    for identifier, data in n2kdec.frames({"pgn": 128267, "fields": {"Depth": 3.4}}):
        bus.send(can.Message(arbitration_id=identifier, data=data))

A log is what `candump -L` or canboat's readers write, or CAN frames of python-can. A message is one line of JSON of
`n2kdec decode`, as a dict: `Message` has its members. A number with a point is a float, or with `decimals=True` a Decimal
with exactly the printed digits. Numbers are in the units of the table, which the table's units.json names: metres,
seconds, radians, kelvins and so on. The default table is the one in the library.

The module calls the library libn2kdec.so.1: the file that the variable N2KDEC_LIBRARY names, or the one in this package,
or the system's. It needs only that and Python 3.9 or newer.
"""
from __future__ import annotations

import collections
import ctypes
import functools
import itertools
import json
import operator
import os
import pathlib
import sys
import threading
import types
from collections.abc import Callable, Iterable, Iterator
from decimal import Decimal
from typing import Any, BinaryIO, NamedTuple, Optional, Protocol, TypedDict, Union

__all__ = ["ArgumentError", "CanFrame", "Counts", "Decoder", "EncodeError", "Encoder", "Error", "FieldValue", "Message", "Table", "decode",
           "encode", "frame", "frames"]
__version__ = "1.1.0"

#: A number, a name or text, the names of flags, the sets of a message that repeats, or None if the field is absent
#: (only with `empty=True`). A flag without a name is its number.
FieldValue = Union[int, float, Decimal, str, list[Union[str, int]], list[dict[str, Any]], None]


class Message(TypedDict):
    """A message: the members of a line of `n2kdec decode`."""

    #: In UTC for a candump log, as "2025-07-04T06:00:00.114Z"; otherwise as the log has it.
    timestamp: str
    prio: int
    src: int
    dst: int
    pgn: int
    description: str
    #: The value of each field that has one, by the field's name.
    fields: dict[str, FieldValue]


class CanFrame(Protocol):
    """The members of a CAN frame that a decoder reads, as python-can's `can.Message` has them."""

    timestamp: float
    arbitration_id: int
    data: Union[bytes, bytearray]
    is_extended_id: bool
    is_error_frame: bool
    is_remote_frame: bool
    is_fd: bool


Bytes = Union[bytes, bytearray, memoryview]
Data = Union[Bytes, CanFrame]
Name = Union[str, "os.PathLike[str]"]
Source = Union[BinaryIO, Iterable[Data], Bytes, Name]
TableFile = Union[bytes, Name]
AnyTable = Union["Table", bytes, Name]

# Statuses of n2kdec.h.
_DONE, _ROOM, _WINDOW, _ENDED, _FRAME, _TABLE = 0, 1, 3, 7, 9, 100


class Error(Exception):
    """A refused call. Its text is the program's fault line, such as `n2kdec: table 3 Key`, or a sentence."""

    def __init__(self, text: str, status: Optional[int] = None) -> None:
        super().__init__(text, status)
        #: The library's status, if the library refused the call; n2kdec.h describes each.
        self.status = status

    def __str__(self) -> str:
        return str(self.args[0])


class ArgumentError(Error, ValueError):
    """A refused table, state or window."""


class Counts(NamedTuple):
    """The counts of the program's summary for all lines so far, including those before a resumed state."""

    lines: int
    messages: int
    bad: int
    unknown: int
    broken: int
    open: int


class _Frame(NamedTuple):
    """The arguments of n2k_frame after the decoder."""

    identifier: int
    data: bytes
    size: int
    seconds: int
    nanoseconds: int


class _Settings(ctypes.Structure):
    _fields_ = [
        ("window", ctypes.c_uint32),
        ("in_order", ctypes.c_bool),
        ("empty", ctypes.c_bool),
        ("whole", ctypes.c_bool),
        ("encode", ctypes.c_uint8),
        ("reserved", ctypes.c_uint8 * 24),
    ]


class _Handle(ctypes.Structure):
    _fields_ = [("live", ctypes.c_bool), ("at", ctypes.c_void_p)]


class _Counted(ctypes.Structure):
    _fields_ = [*((name, ctypes.c_uint64) for name in Counts._fields), ("reserved", ctypes.c_uint64 * 2)]


def _load() -> ctypes.CDLL:
    """The library, with the types of its calls. One of another version is refused."""
    within = pathlib.Path(__file__).resolve().with_name("libn2kdec.so.1")
    name = os.environ.get("N2KDEC_LIBRARY") or (str(within) if within.is_file() else within.name)
    try:
        library = ctypes.CDLL(name)
    except OSError as error:
        raise OSError(f"{error}: the package libn2kdec1 has the library, or N2KDEC_LIBRARY names it") from error
    version = int(getattr(library, "n2k_version", int)())
    major, minor, _ = (int(part) for part in __version__.split("."))
    if version // 10_000 != major or version // 100 % 100 < minor:
        found = f"{version // 10_000}.{version // 100 % 100}.{version % 100}"
        raise OSError(f"{name} is libn2kdec {found}, and this package needs {__version__} or a later {major}.x")
    text, size, handle = ctypes.c_char_p, ctypes.c_size_t, ctypes.POINTER(_Handle)
    moves = [handle, text, size, ctypes.POINTER(size)]
    calls: dict[str, list[Any]] = {
        "n2k_open": [text, size, ctypes.c_bool, text, size, ctypes.POINTER(_Settings), handle],
        "n2k_open_sharing": [handle, ctypes.c_bool, text, size, ctypes.POINTER(_Settings), handle],
        "n2k_feed": [handle, text, size],
        "n2k_frame": [handle, ctypes.c_uint32, text, size, ctypes.c_uint64, ctypes.c_uint32],
        "n2k_end": [handle],
        "n2k_take": moves,
        "n2k_take_reports": moves,
        "n2k_save": moves,
        "n2k_counts": [handle, ctypes.POINTER(_Counted)],
        "n2k_waiting": [handle, ctypes.POINTER(size)],
        "n2k_close": [handle],
        "n2k_table": [ctypes.POINTER(size)],
        "n2k_status_text": [ctypes.c_int32],
    }
    for name, types in calls.items():
        call = getattr(library, name)
        call.argtypes, call.restype = types, {"n2k_close": None, "n2k_status_text": text, "n2k_table": ctypes.c_void_p}.get(name, ctypes.c_int32)
    return library


# How many bytes are fed at once.
_PIECE = 1 << 16

_library: Optional[ctypes.CDLL] = None
_plain, _exact = json.JSONDecoder(), json.JSONDecoder(parse_float=Decimal)


def _loaded() -> ctypes.CDLL:
    global _library
    if _library is None:
        _library = _load()
    return _library


def _own_table() -> bytes:
    """The table in the library."""
    size = ctypes.c_size_t()
    return ctypes.string_at(_loaded().n2k_table(size), size.value)


def _bytes_of(data: Data) -> bytes:
    if isinstance(data, bytes):
        return data
    if isinstance(data, (bytearray, memoryview)):
        return bytes(data)
    if hasattr(data, "arbitration_id"):
        return _line_of(data)
    raise TypeError(f"a log is bytes, and not {type(data).__name__}: open its file with mode 'rb'")


def _line_of(frame: CanFrame) -> bytes:
    """The line that `candump -L` prints of a frame. What it prints of an error, a remote or an FD frame is skipped."""
    identifier = f"{frame.arbitration_id:08X}" if frame.is_extended_id else f"{frame.arbitration_id:03X}"
    if frame.is_error_frame:
        identifier = f"{0x20000000 | frame.arbitration_id:08X}"
    content = "R" if frame.is_remote_frame else f"{'#0' if frame.is_fd else ''}{frame.data.hex().upper()}"
    return f"({frame.timestamp:.6f}) can0 {identifier}#{content}\n".encode()


def _frame_of(identifier: int, data: Union[bytes, bytearray], timestamp: float) -> Optional[_Frame]:
    """The arguments of n2k_frame, of which C takes no others, or None: the time is the one that `candump -L` prints."""
    identifier, (seconds, _, micros) = operator.index(identifier), f"{timestamp:.6f}".partition(".")
    if not (0 <= identifier < 1 << 29 and len(data) <= 8 and seconds.isdigit() and int(seconds) <= 253_402_300_799):
        return None
    return _Frame(identifier, bytes(data), len(data), int(seconds), 1000 * int(micros))


def _frame_in(data: Union[Data, _Frame]) -> Optional[_Frame]:
    """The frame that C takes without text. Others are fed as what `candump -L` prints of them."""
    if isinstance(data, _Frame):
        return data
    if isinstance(data, (bytes, bytearray, memoryview)) or not hasattr(data, "arbitration_id"):
        return None
    if not data.is_extended_id or data.is_error_frame or data.is_remote_frame or data.is_fd:
        return None
    return _frame_of(data.arbitration_id, data.data, data.timestamp)


def _check(status: int) -> None:
    if status:
        text = _loaded().n2k_status_text(status).decode()
        raise (ArgumentError if status > _TABLE or status == _FRAME else Error)(f"n2kdec: {text}", status)


def _read(source: Union[BinaryIO, Iterable[Data], Bytes]) -> Iterator[Data]:
    """The bytes of a stream as they come, or those of anything that gives bytes or frames."""
    if isinstance(source, (bytes, bytearray, memoryview)):
        return iter((source,))
    # A pipe's `read` would wait until it has as many bytes as it is asked for.
    read: Optional[Callable[[int], bytes]] = getattr(source, "read1", None) or getattr(source, "read", None)
    return iter(source) if read is None else iter(functools.partial(read, _PIECE), b"")


# Interrupts. Python runs a signal's handler, which may raise KeyboardInterrupt, between two of its own instructions and
# never within a call of C. So each step that may happen only once is one assignment, or one call of C that also keeps the
# result (`deque.extend(map(call, ..))`). A method that was interrupted goes on from there when it is called again. What
# remains: before Python 3.11 a handler may run after `take`, `messages` or `reports` has emptied a queue and before it
# returns; then its result is lost. A loop over `decode` has no such gap.


class _Input(NamedTuple):
    """The part of the log that was passed in and is not fed yet."""

    #: How many bytes and frames were handed in so far.
    received: int
    #: Those that are not fed yet.
    rest: memoryview
    #: The status of feeding the next piece of them, and the next bytes of the source, once there is one.
    fed: collections.deque[int]
    arrived: collections.deque[Union[Data, _Frame]]


def _input(received: int, rest: Bytes = b"") -> _Input:
    return _Input(received, memoryview(rest), collections.deque(), collections.deque())


class _Moved(NamedTuple):
    """Lines that the library printed or reported, and the call that moves the next lines into a room."""

    lines: collections.deque[str]
    room: ctypes.Array[ctypes.c_char]
    size: ctypes.c_size_t
    #: The status of the call, once there is one.
    statuses: collections.deque[int]


def _moved(lines: Iterable[str], room: ctypes.Array[ctypes.c_char]) -> _Moved:
    return _Moved(collections.deque(lines), room, ctypes.c_size_t(), collections.deque())


class _Output:
    """The lines that one call moves out of the library, until they are returned."""

    def __init__(self, call: Callable[..., int]) -> None:
        self._call = call
        self.now = _moved((), ctypes.create_string_buffer(_PIECE))
        #: The first line, if a loop or a function has it already.
        self.handed_on: Optional[str] = None

    def fill(self, handle: _Handle) -> None:
        """Adds the lines that the library has. The room grows if they do not fit into it."""
        while True:
            now = self.now
            if not now.statuses:
                now.statuses.extend(map(self._call, (handle,), (now.room,), (len(now.room),), (now.size,)))
            if now.statuses[0] != _ROOM:
                break
            self.now = _moved(now.lines, ctypes.create_string_buffer(2 * now.size.value))
        if now.statuses[0] != _DONE:
            self.now = _moved(now.lines, now.room)
            _check(now.statuses[0])
        more = ctypes.string_at(now.room, now.size.value).decode().split("\n")[:-1]
        self.now = _moved(itertools.chain(now.lines, more), now.room)

    def lines(self) -> collections.deque[str]:
        """The lines that are not returned yet."""
        if self.now.lines and self.now.lines[0] is self.handed_on:
            self.now.lines.popleft()
        self.handed_on = None
        return self.now.lines

    def emptied(self) -> _Moved:
        return _moved((), self.now.room)


class _Turn:
    """Admits one thread at a time: the library's calls run without Python's lock, and two on one decoder would destroy it."""

    def __init__(self, close: Callable[[], object]) -> None:
        self._thread: dict[None, int] = {}
        # The functions that call, the innermost last: a signal's handler may call within another call.
        self._frames: list[types.FrameType] = []
        self._close, self._closes = close, False

    def _begins(self) -> bool:
        # `setdefault` is one step for other threads.
        return self._thread.setdefault(None, threading.get_ident()) == threading.get_ident()

    def __enter__(self) -> None:
        if not self._begins():
            raise RuntimeError("another thread is calling this decoder: make one call at a time")
        self._frames.append(sys._getframe(1))

    def __exit__(self, *_: object) -> None:
        # If an interrupt comes first, it stays this thread's turn until the end of its next call.
        frame: Optional[types.FrameType] = sys._getframe(1)
        while self._frames and self._frames.pop() is not frame:
            pass
        while self._frames and frame:
            frame = frame.f_back
            if frame in self._frames:
                return
        self._frames.clear()
        self._thread.clear()
        if self._closes:
            self.close()

    def close(self) -> None:
        """Closes the decoder now, or at the end of the call that another thread makes."""
        self._closes = True
        if self._begins():
            self._close()
            if not self._frames:
                self._thread.clear()

    def forget(self) -> None:
        """Ends a turn that an interrupt left, if no thread can be calling."""
        self._frames.clear()
        self._thread.clear()


# Held while a table opens a decoder, and during a fork: a child has no thread that would release it. A signal's handler may
# open a decoder while this thread opens one.
_opening = threading.RLock()
os.register_at_fork(before=_opening.acquire, after_in_parent=_opening.release, after_in_child=_opening.release)


class Table:
    """A table that is read once, for any number of decoders and encoders.

        table = n2kdec.Table("n2k.toml")
        for log in logs:
            for message in n2kdec.decode(log, table=table):
                ...

    Any thread may use a table, several at once too. Decoders and encoders keep what they need of it: its memory is freed with
    the last of them.
    """

    def __init__(self, table: Optional[TableFile] = None) -> None:
        """Reads a table: a file name or the bytes of a table; the default is the table in the library.

        Raises ArgumentError if the table is refused, Error if memory is refused, and OSError if the table's file can't be read
        or the library is missing.
        """
        # An encoder that is fed nothing.
        self._calls, self._handle = _loaded(), _Handle()
        toml = None if table is None else table if isinstance(table, bytes) else pathlib.Path(table).read_bytes()
        _check(self._calls.n2k_open(toml, len(toml or b""), False, b"", 0, _Settings(encode=1), self._handle))

    def _open(self, state: Optional[bytes], settings: _Settings, handle: _Handle) -> int:
        """Opens a decoder or an encoder; returns the status."""
        with _opening:
            status: int = self._calls.n2k_open_sharing(self._handle, state is not None, state, len(state or b""), settings, handle)
            return status

    def __reduce__(self) -> Any:
        raise TypeError("a table can't be copied: read it again")

    def __del__(self) -> None:
        if hasattr(self, "_handle"):
            self._calls.n2k_close(self._handle)


def _table_of(table: Optional[AnyTable]) -> Table:
    return table if isinstance(table, Table) else Table(table)


class Decoder:
    """A decoder that you feed: for all bytes fed to it, it prints what `n2kdec decode` prints.

        with n2kdec.Decoder(in_order=True) as decoder:
            for message in decoder.decode(log):
                ...
            print(decoder.counts)
            saved = decoder.save()

    Any thread may call a decoder, one call at a time (`await asyncio.to_thread(decoder.feed, data)`, for example). If two
    threads call it at once, one of them gets RuntimeError; a message that a loop over `decode` passes on then may come
    twice. A decoder is closed by `close`, by the end of a `with`, or when its last reference goes; if another thread is
    calling it then, at the end of that call. A closed decoder raises Error. A decoder can't be copied: `save` it.
    """

    def __init__(self, table: Optional[AnyTable] = None, *, state: Optional[Bytes] = None, window: int = 10_000, in_order: bool = False,
                 empty: bool = False, whole: bool = False) -> None:
        """Begins a log, or continues from a state.

        `table` is a Table, or a file name or the bytes of a table, which is read; the default is the table in the library. `state` is what `save`
        returned or `n2kdec decode --save` wrote, with the same table, window and order. `window` is 32 to 1,000,000 lines;
        `window`, `in_order`, `empty` and `whole` are the options of `n2kdec decode`.

        Raises ArgumentError if the table, the state or the window is refused, Error if memory is refused, and OSError if
        the table's file can't be read or the library is missing.
        """
        self._calls = _loaded()
        self._handle = _Handle()
        self._turn = _Turn(functools.partial(self._calls.n2k_close, self._handle))
        self._input = _input(0)
        # The files that were named and are not read to their end.
        self._files: collections.deque[BinaryIO] = collections.deque()
        self._printed, self._reported = _Output(self._calls.n2k_take), _Output(self._calls.n2k_take_reports)
        # The statuses of ending the log.
        self._ends: collections.deque[int] = collections.deque()
        saved = None if state is None else bytes(memoryview(state))
        settings = _Settings(window if 0 <= window < 1 << 32 else 0, in_order, empty, whole)
        status = _table_of(table)._open(saved, settings, self._handle)
        if status == _WINDOW:
            raise ArgumentError(f"a window has 32 to 1,000,000 lines, and not {window:,}", status)
        _check(status)

    def _check_not_ended(self) -> None:
        if self.ended and self._handle.live:
            _check(_ENDED)

    def _feed_piece(self) -> bool:
        """Feeds a piece of the input; returns whether there was one. A small piece has few messages."""
        now = self._input
        if now.arrived:
            try:
                frame = _frame_in(now.arrived[0])
                data = b"" if frame else _bytes_of(now.arrived[0])  # type: ignore[arg-type]
            except Exception:
                # It is neither bytes nor a frame. It is dropped, so that others can come.
                self._input = _input(now.received)
                raise
            if frame:
                if not now.fed:
                    now.fed.extend(map(self._calls.n2k_frame, (self._handle,), *((it,) for it in frame)))
                self._input = _input(now.received + 1)
                _check(now.fed[0])
                return True
            self._input = now = _input(now.received + len(data), data)
        elif not now.rest:
            return False
        if not now.fed:
            piece = bytes(now.rest[:_PIECE])
            now.fed.extend(map(self._calls.n2k_feed, (self._handle,), (piece,), (len(piece),)))
        self._input = _input(now.received, b"" if now.fed[0] else now.rest[_PIECE:])
        _check(now.fed[0])
        return True

    def _feed_rest(self) -> None:
        while self._feed_piece():
            pass

    def _feed_next(self) -> bool:
        with self._turn:
            return self._feed_piece()

    def feed(self, data: Bytes) -> None:
        """Takes bytes of the log, cut anywhere. A line is decoded when it is complete; an unfinished line waits.

        An unfinished line is kept whole, however long it is, so input without line feeds fills the memory. Messages and
        reports occupy memory until you take them. After an interrupt, `received` shows whether these bytes were taken.

        Raises Error if memory is refused or there are too many lines; the decoder is then closed, and waiting lines and
        messages are lost. Raises Error without a change if the log has ended.
        """
        piece = _bytes_of(data)
        self._check_not_ended()
        with self._turn:
            self._feed_rest()
            self._input = _input(self._input.received + len(piece), piece)
            self._feed_rest()

    def frame(self, identifier: int, data: Union[bytes, bytearray], timestamp: float) -> None:
        """Takes a CAN frame: the 29 bits of its identifier, up to 8 bytes of data, and its time in seconds since 1970.

        The decoder prints what it prints for the line that `candump -L` writes of the frame. Raises Error as `feed` does, or
        if an unfinished line waits, and ArgumentError if there is no such frame.
        """
        frame = _frame_of(identifier, data, timestamp)
        self._check_not_ended()
        with self._turn:
            self._feed_rest()
            if frame is None:
                _check(_FRAME)
            else:
                self._input.arrived.append(frame)
                self._feed_rest()

    def end(self) -> None:
        """Ends the log: its last line is decoded even without a line feed. Raises Error as `feed` does."""
        self._check_not_ended()
        with self._turn:
            self._feed_rest()
            self._ends.extend(map(self._calls.n2k_end, (self._handle,)))
            _check(self._ends[-1])

    def _collect(self, feeds: bool = False) -> None:
        """Moves the lines that were printed and reported out of the library, with `feeds` after feeding the rest."""
        with self._turn:
            if feeds:
                self._feed_rest()
            self._reported.fill(self._handle)
            self._printed.fill(self._handle)

    def take(self) -> bytes:
        """Returns the lines of JSON that were not returned yet, each with its line feed."""
        before = None
        try:
            with self._turn:
                self._collect(feeds=True)
                lines = "".join(f"{line}\n" for line in self._printed.lines()).encode()
                before, self._printed.now = self._printed.now, self._printed.emptied()
            return lines
        except BaseException:
            self._printed.now = before or self._printed.now
            raise

    def reports(self) -> list[str]:
        """Returns the reports that were not returned yet: a line for each bad line, and for each message that ended incomplete."""
        before = None
        try:
            with self._turn:
                self._collect()
                reports = list(self._reported.lines())
                before, self._reported.now = self._reported.now, self._reported.emptied()
            return reports
        except BaseException:
            self._reported.now = before or self._reported.now
            raise

    def messages(self, *, decimals: bool = False) -> list[Message]:
        """Returns the messages that were not returned yet, in order.

        A number with a point is a float, or with `decimals` a Decimal with exactly the printed digits. Whole numbers are
        always ints.
        """
        before = None
        try:
            with self._turn:
                self._collect(feeds=True)
                # One text of many lines is read faster than each line; no line has a line feed within.
                messages: list[Message] = (_exact if decimals else _plain).decode(f"[{','.join(self._printed.lines())}]")
                before, self._printed.now = self._printed.now, self._printed.emptied()
            return messages
        except BaseException:
            self._printed.now = before or self._printed.now
            raise

    def decode(self, source: Optional[Source] = None, *, decimals: bool = False,
               on_report: Optional[Callable[[str], object]] = None) -> Iterator[Message]:
        """Yields each message as soon as its last line is read, and ends the log when the source ends.

        `source` is a file name, a blocking binary stream (a file, a pipe, a socket's `makefile("rb")`), bytes, or anything
        that gives bytes or CAN frames (a `can.Bus`). After a `break`, or an exception in the loop's body, the decoder keeps
        the messages that it has not yielded and the rest of a named file: they come first in the next `decode`. Without a
        source, `decode` yields what the decoder kept and does not end the log. An interrupt (KeyboardInterrupt) loses
        nothing; one message may come twice.
        `on_report` is called with each report, before the messages of the same chunk; without it reports are dropped.
        `decimals` is that of `messages`. Raises Error as `feed` does, at once if the log has ended and there is a source;
        raises what the source raises.
        """
        return self._begun(source, decimals, on_report)

    def _begun(self, source: Optional[Source], decimals: bool, on_report: Optional[Callable[[str], object]],
               closes: bool = False) -> Iterator[Message]:
        if source is not None:
            self._check_not_ended()
        if isinstance(source, (str, os.PathLike)):
            self._files.append(open(source, "rb"))
        return self._yielded(source, decimals, on_report, closes)

    def _read_piece(self, source: Iterator[Data]) -> bool:
        """Reads from the named files, and then from the source; returns whether there was something."""
        arrived = self._input.arrived
        while self._files and not arrived:
            arrived.extend(itertools.islice(_read(self._files[0]), 1))
            if not arrived:
                self._files.popleft().close()
        if not arrived:
            arrived.extend(itertools.islice(source, 1))
        return bool(arrived)

    def _yielded(self, source: Optional[Source], decimals: bool, on_report: Optional[Callable[[str], object]],
                 closes: bool) -> Iterator[Message]:
        """The messages that were not yielded yet, and those of the named files and of the source, which ends the log."""
        read = (_exact if decimals else _plain).raw_decode
        ends = source is not None
        more = iter(()) if source is None or isinstance(source, (str, os.PathLike)) else _read(source)
        try:
            while True:
                self._collect()
                while reports := self._reported.lines():
                    try:
                        self._reported.handed_on = reports[0]
                        if on_report is not None:
                            on_report(reports[0])
                    except Exception:
                        raise
                    except BaseException:
                        self._reported.handed_on = None
                        raise
                while lines := self._printed.lines():
                    message = read(lines[0])[0]
                    try:
                        self._printed.handed_on = lines[0]
                        yield message
                    except GeneratorExit:
                        raise
                    except BaseException:
                        # It is not known whether the loop has this message: it comes again.
                        self._printed.handed_on = None
                        raise
                if not self._feed_next() and not (self._read_piece(more) and self._feed_next()):
                    if not ends:
                        return
                    self.end()
                    ends = False
        finally:
            if closes:
                self.close()

    @property
    def counts(self) -> Counts:
        """The counts of all complete lines so far."""
        counted = _Counted()
        with self._turn:
            _check(self._calls.n2k_counts(self._handle, counted))
        return Counts(*(getattr(counted, name) for name in Counts._fields))

    @property
    def pending(self) -> int:
        """The number of bytes of an unfinished line: the last bytes that were fed."""
        size = ctypes.c_size_t()
        with self._turn:
            _check(self._calls.n2k_waiting(self._handle, size))
        return size.value

    @property
    def received(self) -> int:
        """The number of bytes and frames that `feed`, `frame` and `decode` have taken since the decoder was made. (A frame
        of another kind than `frame` takes counts as the bytes that `candump -L` prints of it.)"""
        return self._input.received

    @property
    def ended(self) -> bool:
        """Whether the log has ended."""
        return _DONE in self._ends

    def save(self) -> bytes:
        """Returns the state after all complete lines, for a later Decoder or `n2kdec decode --resume`.

        The bytes that `pending` counts are not in the state: feed them again after it. Raises Error if a message was not
        returned yet, or if an interrupt left that unclear: the state counts the message, so it would be lost.
        """
        room, size = ctypes.create_string_buffer(_PIECE), ctypes.c_size_t()
        with self._turn:
            waits = self._input.rest or self._input.arrived or self._printed.lines() or self._printed.now.statuses
            if waits or self._calls.n2k_take(self._handle, room, 0, size) == _ROOM:
                raise Error("not all was handed on: decode(), messages() or take() gives what is left, and then it is saved")
            while (status := self._calls.n2k_save(self._handle, room, len(room), size)) == _ROOM:
                room = ctypes.create_string_buffer(2 * size.value)
            _check(status)
        return ctypes.string_at(room, size.value)

    def close(self) -> None:
        """Frees the decoder's memory, if another thread is calling it at the end of that call. Closing it again does nothing."""
        self._turn.close()
        self._input = _input(self._input.received)
        self._printed.now, self._reported.now = self._printed.emptied(), self._reported.emptied()
        while self._files:
            self._files.popleft().close()

    def __reduce__(self) -> Any:
        raise TypeError("a decoder can't be copied: save its state")

    def __enter__(self) -> Decoder:
        return self

    def __exit__(self, *_: object) -> None:
        self.close()

    def __del__(self) -> None:
        if hasattr(self, "_files") and self._handle.live:
            self._turn.forget()
            self.close()


def decode(source: Source, *, table: Optional[AnyTable] = None, state: Optional[Bytes] = None, window: int = 10_000, in_order: bool = False,
           empty: bool = False, whole: bool = False, decimals: bool = False,
           on_report: Optional[Callable[[str], object]] = None) -> Iterator[Message]:
    """Yields each message of a log as soon as its last line is read.

    The arguments are those of Decoder and of its `decode`. A table is read and the log's file is opened at once, and
    their errors are raised by this call. To continue after a `break` or an interrupt, or for the counts or the state, make
    a Decoder.
    """
    decoder = Decoder(table, state=state, window=window, in_order=in_order, empty=empty, whole=whole)
    return decoder._begun(source, decimals, on_report, closes=True)


def frame(logs: Union[Name, Iterable[Name]], pgn: int, fields: Optional[Iterable[str]] = None, *, table: Optional[TableFile] = None,
          divisions: bool = True, skip: bool = False) -> Any:
    """The messages of one PGN in the logs of boats, as a Dask data frame: a partition for each boat and day.

    `logs` are files, or folders of `n2k-logger --raw`, of this computer or of fsspec (`s3://bucket/boats/*`). The index is the
    time. The columns are `boat`, `src`, `description`, and the fields, of which None takes all: numbers, categories for
    lookups (a number without a name is its digits), texts for flags and everything else; sets that repeat are JSON in the column
    `list`. `table` is a file name or the bytes of a table.

    Of one boat with days, the days are the frame's divisions, and a time that is not in its day raises ValueError while it is
    computed; `divisions=False` takes any times. A part that cannot be read raises an error that names it, or is left out with
    `skip`. Raises ArgumentError if the table has no such PGN or field. It needs Dask and pandas, here and on each worker.
    """
    from . import _frame
    return _frame.frame(logs, pgn, None if fields is None else list(fields), table, divisions, skip)


# These use the names above.
from ._encode import EncodeError, Encoder, encode, frames  # noqa: E402
