#!/usr/bin/env python3
"""The form of the repository's files: no line is longer than 140 columns; in sources no contract has more than two parts that no record
names, and none of more than 120 columns has two, no function has more than five parameters.

    form.py      says where it is otherwise

The lines are those of every file: of data, drawings and must-fail edits, too. A column is a character, or a byte where a file is not UTF-8.
Exit status 0: all have the form."""

import glob
import os
import re
import sys

import names

sys.path.insert(0, os.path.join(names.ROOT, "tests", "wrong"))

from edits import COLUMNS  # noqa: E402

PARTS, PARTED_COLUMNS, PARAMETERS = 2, 120, 5
CONTRACT = re.compile(r"(?:requires|ensures)\*?(?: \w+)? \{ (.*?) \}\n", re.S)
FUNCTION = re.compile(r"\bfn (\w+)(?:<[^>]*>)?\(([^)]*)\)")


def read(path):
    with open(path, encoding="utf-8") as file:
        return file.read()


def all_files():
    for folder, inner, files in os.walk("."):
        inner[:] = sorted(name for name in inner if name not in names.NOT_KEPT)
        yield from (os.path.join(folder, name)[2:] for name in sorted(files) if name not in names.NOT_KEPT)


def lines(path):
    with open(path, "rb") as file:
        data = file.read()
    try:
        return data.decode("utf-8").split("\n")
    except UnicodeDecodeError:
        return data.split(b"\n")


def too_long(path):
    return [f"{path}:{number}: {len(line)} columns" for number, line in enumerate(lines(path), 1) if len(line) > COLUMNS]


def too_many(path):
    """Of a source: the contracts and functions that want a record."""
    text = read(path)
    for found in CONTRACT.finditer(text):
        parts, columns = found[1].count("×") + 1, len(" ".join(found[0].split()))
        if parts > (PARTS if columns <= PARTED_COLUMNS else 1):
            yield f"{path}:{text.count(chr(10), 0, found.start()) + 1}: a contract of {parts} parts in {columns} columns"
    for name, parameters in FUNCTION.findall(text):
        if (count := sum(bool(parameter.strip()) for parameter in parameters.split(","))) > PARAMETERS:
            yield f"{path}: {name} has {count} parameters"


def main():
    os.chdir(names.ROOT)
    paths, sources = list(all_files()), sorted(glob.glob("crates/*/src/*.rt"))
    wrong = [line for path in paths for line in too_long(path)] + [line for path in sources for line in too_many(path)]
    print("\n".join(wrong) or f"no line of {len(paths)} files is longer than {COLUMNS} columns; in {len(sources)} sources "
          f"no contract has more than {PARTS} parts, none of more than {PARTED_COLUMNS} columns two, no function more than {PARAMETERS} "
          "parameters")
    return 1 if wrong else 0


if __name__ == "__main__":
    sys.exit(main())
