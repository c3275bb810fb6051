"""`n2kdec.frame`: the messages of one PGN as a Dask data frame."""
from __future__ import annotations

import functools
import json
import os
import pathlib
import re
import sys
import warnings
from collections.abc import Sequence
from importlib import import_module
from typing import Any, Optional

import n2kdec
from ._logs import Boat, Chain, Log, LogError, boats_of, read_table

# A stamp as pandas can have it: to the nanosecond, the years 1678 to 2261. canboat's older forms have no T or Z.
STAMP = re.compile(r"(16(?:7[89]|[89]\d)|1[789]\d\d|2[01]\d\d|22(?:[0-5]\d|6[01]))-(\d\d)-(\d\d)[T Z-](\d\d:\d\d:\d\d(?:\.\d{1,9})?)\d*Z?")
# How many messages wait at most until they are rows.
MOST_MESSAGES = 10_000
# The values of a lookup of so many bits are all categories, also those without a name.
FEW_BITS = 8


@functools.lru_cache(4)
def read_toml(toml: bytes) -> dict[str, Any]:
    found: dict[str, Any] = import_module("tomllib" if sys.version_info >= (3, 11) else "tomli").loads(toml.decode())
    return found


def definitions_of(toml: bytes, pgn: int) -> tuple[list[dict[str, Any]], dict[str, list[Any]]]:
    """The definitions of a PGN in a table, and the entries of its lookups by name."""
    table = read_toml(toml)
    return [it for it in table.get("pgn", []) if it["number"] == pgn], {it["name"]: it["entries"] for it in table.get("lookup", [])}


def type_of(field: dict[str, Any], lookups: dict[str, list[Any]]) -> Any:
    """The type of a field's column: numbers, categories, or the texts and numbers of the JSON line."""
    if field["kind"] == "number":
        mantissa, _, decimals = field.get("resolution", "1").partition(".")
        if decimals:
            return "float64"
        most = (int(mantissa) << field["bits"]) + abs(int(str(field.get("offset", "0")).partition(".")[0]))
        return "Int64" if most < 1 << 63 else "object"
    if field["kind"] == "lookup":
        names: dict[int, str] = {value: name for value, name in lookups[field["lookup"]]}
        values = range(1 << field["bits"]) if field["bits"] <= FEW_BITS else ()
        return tuple(dict.fromkeys([*names.values(), *(str(it) for it in values if it not in names)])), field["bits"] <= FEW_BITS
    return "object"


def types_of(toml: bytes, pgn: int, fields: Optional[Sequence[str]]) -> dict[str, Any]:
    """The type of each requested column. ArgumentError if no message of the PGN has such a field."""
    definitions, lookups = definitions_of(toml, pgn)
    if not definitions:
        raise n2kdec.ArgumentError(f"the table has no PGN {pgn}")
    known: dict[str, Any] = {}
    for definition in definitions:
        for field in definition["fields"]:
            its = type_of(field, lookups)
            name = field["name"]
            known[name] = its if known.get(name, its) == its else "object"
        if "repeat" in definition:
            known["list"] = "sets"
    for name in [] if fields is None else fields:
        if name not in known:
            raise n2kdec.ArgumentError(f"no message {pgn} has the field {name}; they have: {', '.join(known)}")
    return {it: known[it] for it in (known if fields is None else fields)}


def stamps_of(stamps: list[str]) -> Any:
    """The times of timestamps; a timestamp that is not a time is missing."""
    numpy, pandas = import_module("numpy"), import_module("pandas")
    texts = [f"{it[1]}-{it[2]}-{it[3]}T{it[4]}" if (it := STAMP.fullmatch(text)) else "NaT" for text in stamps]
    try:
        times = numpy.array(texts, dtype="datetime64[ns]")
    except ValueError:
        times = pandas.to_datetime(pandas.Series(texts, dtype="object"), errors="coerce").to_numpy(dtype="datetime64[ns]")
    return pandas.DatetimeIndex(times, name="time").tz_localize("UTC")


def text_of(value: Any, its: Any) -> Optional[str]:
    """A value as a text: flags separated by commas, sets as in the line."""
    if value is None or isinstance(value, str):
        return value
    if its == "sets":
        return json.dumps(value, ensure_ascii=False, separators=(",", ":"))
    return ", ".join(map(str, value)) if isinstance(value, list) else str(value)


def column_of(values: list[Any], its: Any) -> Any:
    """A column of the values of JSON lines."""
    pandas = import_module("pandas")
    if isinstance(its, tuple):
        names, is_known = its
        texts = [text_of(it, its) for it in values]
        if not is_known:
            return pandas.Categorical(texts)
        return pandas.Categorical(texts, categories=names)
    if its in ("object", "sets"):
        return pandas.array([text_of(it, its) if isinstance(it, list) else it for it in values], dtype="object")
    return pandas.array([None if it is None else float(it) for it in values] if its == "float64" else values, dtype=its)


def table_of(boat: str, boats: Sequence[str], messages: list[dict[str, Any]], types: dict[str, Any], descriptions: Sequence[str]) -> Any:
    """The data frame of messages."""
    pandas = import_module("pandas")
    columns = {
        "boat": pandas.Categorical([boat] * len(messages), categories=boats),
        "src": pandas.array([it["src"] for it in messages], dtype="int16"),
        "description": pandas.Categorical([it["description"] for it in messages], categories=descriptions),
        **{name: column_of([it["fields"].get(name) for it in messages], its) for name, its in types.items()}}
    return pandas.DataFrame(columns, index=stamps_of([it["timestamp"] for it in messages]))


def joined(tables: list[Any], types: dict[str, Any]) -> Any:
    """One data frame of several, whose categories may differ."""
    if len(tables) == 1:
        return tables[0]
    for name, its in types.items():
        if isinstance(its, tuple) and not its[1]:
            names = sorted({it for table in tables for it in table[name].cat.categories})
            for table in tables:
                table[name] = table[name].cat.set_categories(names)
    return import_module("pandas").concat(tables)


def part_of(boat: str, boats: Sequence[str], log: Log, toml: bytes, pgn: int, types: dict[str, Any], descriptions: Sequence[str],
            state: Optional[bytes], bounds: Optional[tuple[Any, Any]], skip: bool) -> tuple[Any, Optional[bytes]]:
    """The data frame of a part of a log, and the state after it."""
    chain, mark = Chain(toml), b'"pgn":%d,' % pgn
    messages: list[dict[str, Any]] = []
    tables: list[Any] = []

    def put() -> None:
        tables.append(table_of(boat, boats, messages, types, descriptions))
        messages.clear()

    chain.begin(state)
    try:
        for printed, _ in chain.decode(log):
            found = (json.loads(it) for it in printed.split(b"\n") if mark in it)
            messages += [it for it in found if it["pgn"] == pgn]
            if len(messages) > MOST_MESSAGES:
                put()
        after = chain.save()
    except LogError as error:
        if not skip:
            raise
        warnings.warn(f"{error}; the next part begins from no state")
        tables, messages, after = [], [], None
    finally:
        chain.end()
    put()
    table = joined(tables, types)
    if bounds is not None and len(table):
        table = table.sort_index(kind="stable")
        if table.index.hasnans or table.index[0] < bounds[0] or table.index[-1] >= bounds[1]:
            raise ValueError(f"{log.file} has times of another day: divisions=False takes them")
    return table, after


def frame(logs: Any, pgn: int, fields: Optional[Sequence[str]], table: Any, divisions: bool, skip: bool) -> Any:
    """What `n2kdec.frame` says."""
    dask, dataframe, utils = map(import_module, ("dask", "dask.dataframe", "dask.dataframe.utils"))
    toml = n2kdec._own_table() if table is None else table if isinstance(table, bytes) else pathlib.Path(table).read_bytes()
    read_table(toml)
    types = types_of(toml, pgn, fields)
    descriptions = tuple(dict.fromkeys([*(it["description"] for it in definitions_of(toml, pgn)[0]), "Unmatched"]))
    boats = boats_of([os.fspath(logs)] if isinstance(logs, (str, os.PathLike)) else [os.fspath(it) for it in logs])
    names, handed, parts, days = tuple(it.name for it in boats), dask.delayed(toml), [], []
    decode = dask.delayed(part_of, nout=2, pure=False)
    for boat in boats:
        if boat.fault:
            raise LogError(boat.fault)
        starts = starts_of(boat) if divisions and len(boats) == 1 else []
        state: Any = None
        for at, log in enumerate(boat.logs):
            bounds = (starts[at], starts[at + 1]) if starts else None
            part, state = decode(boat.name, names, log, handed, pgn, types, descriptions, state, bounds, skip)
            parts.append(part)
        days += starts
    unknown = [name for name, its in types.items() if isinstance(its, tuple) and not its[1]]
    shape = utils.clear_known_categories(table_of(names[0], names, [], types, descriptions), cols=unknown)
    return dataframe.from_delayed(parts, meta=shape, divisions=tuple(days) if days else None, prefix=f"n2kdec-{pgn}")


def starts_of(boat: Boat) -> list[Any]:
    """The beginnings of the days of a boat, and the end of the last one; nothing if its log has no days."""
    pandas = import_module("pandas")
    if not boat.has_days:
        return []
    days = [pandas.Timestamp(it.part, tz="UTC") for it in boat.logs]
    return [*days, days[-1] + pandas.Timedelta(days=1)]
