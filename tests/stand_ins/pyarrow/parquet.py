"""Files of the stand-in's tables: a line of JSON with the schema, and one for each table."""
import json


class ParquetWriter:
    def __init__(self, where, schema):
        self.where, self.types = where, {name: its.name for name, its in zip(schema.names, schema.types)}
        self.tables = []

    def __enter__(self):
        return self

    def __exit__(self, *error):
        self.close()

    def write_table(self, table):
        assert list(table.columns) == list(self.types)
        self.tables.append(table.columns)

    def close(self):
        self.where.write("\n".join(map(json.dumps, [self.types, *self.tables])).encode())


class ParquetFile:
    def __init__(self, file):
        with open(file, encoding="utf-8") as lines:
            self.types, *self.tables = map(json.loads, lines)

    def read(self):
        return self

    def to_pydict(self):
        return {name: [it for table in self.tables for it in table[name]] for name in self.types}
