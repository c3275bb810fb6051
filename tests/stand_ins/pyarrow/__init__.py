"""A stand-in for pyarrow, which Debian 12 lacks: tables of typed columns; each value is checked."""
import collections

__version__ = "0"
Type = collections.namedtuple("Type", "name has")


def float64():
    return Type("double", lambda it: isinstance(it, (int, float)))


def int64():
    return Type("int64", lambda it: isinstance(it, int) and -1 << 63 <= it < 1 << 63)


def int16():
    return Type("int16", lambda it: isinstance(it, int) and -1 << 15 <= it < 1 << 15)


def string():
    return Type("string", lambda it: isinstance(it, str))


def timestamp(unit, tz):
    return Type(f"timestamp[{unit}, tz={tz}]", int64().has)


class schema:
    def __init__(self, fields):
        self.names, self.types = [name for name, _ in fields], [its for _, its in fields]
        if len(set(self.names)) != len(self.names):
            raise ValueError(f"a name is there twice: {self.names}")


class table:
    def __init__(self, columns, schema):
        if list(columns) != schema.names or len(set(map(len, columns.values()))) != 1:
            raise ValueError(f"columns {list(columns)} and not {schema.names}")
        for (name, values), its in zip(columns.items(), schema.types):
            for it in values:
                if it is not None and (isinstance(it, bool) or not its.has(it)):
                    raise TypeError(f"{name} has {it!r}, which is no {its.name}")
        self.columns = columns
