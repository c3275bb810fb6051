"""`n2kdec.encode`, `n2kdec.frames` and `n2kdec.Encoder`: messages become plain lines and CAN frames."""
from __future__ import annotations

import collections
import ctypes
import functools
import itertools
import json
import math
import os
from collections.abc import Callable, Mapping
from decimal import Decimal
from typing import Any, Optional, Union

import n2kdec
from n2kdec import AnyTable, Bytes, Table

#: A message: a dict as `n2kdec.decode` gives it, or its text in JSON. Only `pgn` and `fields` are required.
Input = Union[Mapping[str, object], str, Bytes]

# How many open encoders are kept for the next calls.
_MOST_IDLE = 8
_text = json.JSONEncoder().encode
_WHITE_SPACE = b" \t\r\n"
_IN_ONE_LINE = bytes.maketrans(b"\r\n", b"\t\t")


class EncodeError(n2kdec.Error, ValueError):
    """A refused message. Its text is the end of the program's report, such as `B17 value "Depth"`."""

    def __init__(self, text: str, status: Optional[int] = None) -> None:
        super().__init__(text, status)
        code, word, *name = text.split(" ", 2)
        #: The code of the report, such as "B17", and its word, such as "value".
        self.code, self.word = code, word
        #: The name of the refused field, if the report has one.
        self.field: Optional[str] = json.loads(name[0]) if name else None


def _json(value: object) -> str:
    """The JSON text of a value: an int and a Decimal exactly, a float by its `repr`."""
    if value is None or isinstance(value, (str, bool)):
        return _text(value)
    if isinstance(value, int):
        return int.__repr__(value)
    if isinstance(value, (float, Decimal)):
        if not (value.is_finite() if isinstance(value, Decimal) else math.isfinite(value)):
            raise ValueError(f"no field has the value {value}: leave the field out")
        return str(value) if isinstance(value, Decimal) else float.__repr__(value)
    if isinstance(value, Mapping):
        return f"{{{','.join([f'{_json_name(name)}:{_json(it)}' for name, it in value.items()])}}}"
    if isinstance(value, (list, tuple)):
        return f"[{','.join(map(_json, value))}]"
    hint = ": bytes are written as data.hex(' ')" if isinstance(value, (bytes, bytearray, memoryview)) else ""
    raise TypeError(f"no field has a value of the type {type(value).__name__}{hint}")


def _json_name(name: object) -> str:
    if not isinstance(name, str):
        raise TypeError(f"the name of a field is a str, and not {type(name).__name__}")
    return _text(name)


def _line_of(message: Input) -> bytes:
    """The line for the library. A tab is white space of JSON where a line feed is, and both are refused within its strings."""
    if isinstance(message, Mapping):
        text = _json(message).encode()
    elif isinstance(message, str):
        text = message.encode("utf-8", "surrogatepass")
    elif isinstance(message, (bytes, bytearray, memoryview)):
        text = bytes(message)
    else:
        raise TypeError(f"a message is a dict or JSON text, and not {type(message).__name__}")
    text = text.strip(_WHITE_SPACE).translate(_IN_ONE_LINE)
    # The library skips empty lines and comments. After a space it refuses them.
    return (b" " if text[:1] in (b"", b"#") else b"") + text + b"\n"


class _Coder:
    """An open encoder of the library, for one call at a time."""

    def __init__(self, table: Table, nearest: bool) -> None:
        self._calls, self._handle = n2kdec._loaded(), n2kdec._Handle()
        self._room, self._size = ctypes.create_string_buffer(1 << 12), ctypes.c_size_t()
        n2kdec._check(table._open(None, n2kdec._Settings(encode=2 if nearest else 1), self._handle))

    def results(self, line: bytes) -> tuple[str, str]:
        """The plain line that the library prints for a line, and its report; one of them is empty."""
        n2kdec._check(self._calls.n2k_feed(self._handle, line, len(line)))
        return self._taken(self._calls.n2k_take), self._taken(self._calls.n2k_take_reports)

    def _taken(self, call: Callable[..., int]) -> str:
        while (status := call(self._handle, self._room, len(self._room), self._size)) == n2kdec._ROOM:
            self._room = ctypes.create_string_buffer(self._size.value)
        n2kdec._check(status)
        return ctypes.string_at(self._room, self._size.value).decode().rstrip("\n")

    def __del__(self) -> None:
        if hasattr(self, "_handle"):
            self._calls.n2k_close(self._handle)


class Encoder:
    """Turns messages into plain lines and CAN frames, by a table that is read once.

        encoder = n2kdec.Encoder("n2k.toml")
        for identifier, data in encoder.frames({"pgn": 128267, "src": 5, "fields": {"Depth": 3.4}}):
            bus.send(can.Message(arbitration_id=identifier, data=data))

    Any thread may call an encoder, several at once too. An encoder is closed when its last reference goes.
    """

    def __init__(self, table: Optional[AnyTable] = None, *, nearest: bool = False) -> None:
        """`table` is a Table, or a file name or the bytes of a table, which is read; the default is the table in the library.

        With `nearest` a number is rounded to the nearest one that its field can show; otherwise it is refused. Raises
        ArgumentError if the table is refused, Error if memory is refused, and OSError if the table's file can't be read or the
        library is missing.
        """
        self._opened = functools.partial(_Coder, n2kdec._table_of(table), nearest)
        # A call takes one of these, and puts it back if nothing went wrong, so none has results of an interrupted call.
        self._idle = collections.deque([self._opened()], _MOST_IDLE)
        self._is_fast: dict[int, bool] = {}
        self._sequences: dict[tuple[int, int, int], itertools.count[int]] = {}

    def encode(self, message: Input) -> str:
        """Returns the plain line of a message, without its line feed.

        A message is a dict as `n2kdec.decode` gives it, or JSON text. `pgn` and `fields` are required; the other members have
        the defaults of `n2kdec encode`. An int and a Decimal are exact, and a float is the number that `repr` shows. The message
        that `n2kdec.decode` gives for the line has exactly the given members and fields, and those fixed by the definition.

        Raises EncodeError if no data show the message, TypeError or ValueError if a value has no JSON text, and Error if
        memory is refused.
        """
        line = _line_of(message)
        try:
            coder = self._idle.pop()
        except IndexError:
            coder = self._opened()
        printed, report = coder.results(line)
        self._idle.append(coder)
        if report:
            raise EncodeError(report.split(" ", 3)[3])
        return printed

    def frames(self, message: Input, *, sequence: Optional[int] = None) -> list[tuple[int, bytes]]:
        """Returns the CAN frames of a message in their order: the 29 bits of the identifier, and the data.

        The frames of a fast packet have a sequence, 0 to 7. By default it is 0 for the first message of a source, PGN and
        destination, and then the next one, as `n2kdec frames` counts. Raises what `encode` raises.
        """
        if sequence is not None and not 0 <= sequence <= 7:
            raise ValueError(f"a sequence is 0 to 7, and not {sequence}")
        columns = self.encode(message).split(",")
        prio, pgn, src, dst = map(int, columns[1:5])
        data = bytes.fromhex("".join(columns[6:]))
        # A PDU format below 240 has a destination, in the place of the PGN's low byte, which is 0.
        to = dst if pgn >> 8 & 0xFF < 240 else 0
        identifier = prio << 26 | (pgn | to) << 8 | src
        if len(data) <= 8 and not self._is_fast_packet(pgn, dst):
            return [(identifier, data)]
        if sequence is None:
            sequence = next(self._sequences.setdefault((src, pgn, dst), itertools.count())) % 8
        content = bytes([len(data)]) + data
        parts = (content[at:at + 7].ljust(7, b"\xff") for at in range(0, len(content), 7))
        return [(identifier, bytes([sequence << 5 | number]) + part) for number, part in enumerate(parts)]

    def _is_fast_packet(self, pgn: int, dst: int) -> bool:
        """Whether the table calls a PGN `fast`: nine bytes are too many only for a single frame."""
        if pgn not in self._is_fast:
            try:
                self.encode({"pgn": pgn, "dst": dst, "description": "Unmatched", "fields": {"Data": bytes(9).hex(" ")}})
                self._is_fast[pgn] = True
            except EncodeError as error:
                self._is_fast[pgn] = error.code != "B9"
        return self._is_fast[pgn]


@functools.lru_cache(4)
def _kept(table: Optional[AnyTable], nearest: bool, *_: Any) -> Encoder:
    return Encoder(table, nearest=nearest)


def _encoder_of(table: Optional[AnyTable], nearest: bool) -> Encoder:
    """The encoder of a table, which is kept for the next calls; another one if the table's file was changed."""
    if table is None or isinstance(table, (bytes, Table)):
        return _kept(table, nearest)
    found = os.stat(table)
    return _kept(os.fspath(table), nearest, found.st_dev, found.st_ino, found.st_size, found.st_mtime_ns, found.st_ctime_ns)


def encode(message: Input, table: Optional[AnyTable] = None, *, nearest: bool = False) -> str:
    """Returns the plain line of a message, without its line feed.

    `message` is that of `Encoder.encode`; `table` and `nearest` are those of Encoder. The last four tables stay in memory: a
    table is read again if its file has changed. Any thread may call. Raises what Encoder and its `encode` raise.
    """
    return _encoder_of(table, nearest).encode(message)


def frames(message: Input, table: Optional[AnyTable] = None, *, nearest: bool = False, sequence: int = 0) -> list[tuple[int, bytes]]:
    """Returns the CAN frames of a message: pairs of the 29 bits of an identifier and of up to 8 bytes of data.

        for identifier, data in n2kdec.frames({"pgn": 128267, "fields": {"Depth": 3.4}}):
            bus.send(can.Message(arbitration_id=identifier, data=data))

    Consecutive fast packets of a source, PGN and destination should have different sequences, 0 to 7: an Encoder counts them. The
    other arguments are those of `encode`.
    """
    return _encoder_of(table, nearest).frames(message, sequence=sequence)
