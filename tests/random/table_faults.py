#!/usr/bin/env python3
"""Prints the classes of the faults of tables of format 1, 2 and 3; nothing for a valid table.

    tests/random/table_faults.py TABLE..

The rules are those of tools/table_rules.py, which tools/table-check prints with their lines. They were written from
docs/PROFILE.md alone, independent of the program and of tools/from_canboat.py, so that a second reader can judge their
tables (Python 3.11 or newer).
"""
import os
import sys

sys.path.insert(0, os.path.join(os.path.dirname(os.path.abspath(__file__)), "..", "..", "tools"))
import table_rules


def faults(data):
    """The classes of all faults of a table's bytes, as a set of their names."""
    return {fault.name for fault in table_rules.faults(data)}


def main():
    if len(sys.argv) < 2:
        sys.exit(__doc__)
    status = 0
    for name in sys.argv[1:]:
        with open(name, "rb") as file:
            found = faults(file.read())
        if found:
            status = 1
            print(f"{name}: {' '.join(sorted(found))}")
    sys.exit(status)


if __name__ == "__main__":
    main()
