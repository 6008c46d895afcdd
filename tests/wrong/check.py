#!/usr/bin/env python3
"""Holds the must-fail edits, their twins, the crates and docs/MUST-FAIL.md together.

    check.py            says what does not hold
    check.py --write    writes the list in docs/MUST-FAIL.md first

Each edit fits its crate: what it replaces stands there, once, and nothing is left of the mark of a replacement that goes on. Its first line
is '# FUNCTIONS: WRONG PROGRAM': names of functions that the crate has, or of its definitions, separated by commas, and what the wrong
program does. Each public function has two edits at least, and each crate has one in the gate. Each edit of the gate has a twin in
tests/twins, which replaces no other lines. Behind its marker docs/MUST-FAIL.md lists what these first lines say, and nothing else.
That the prover refuses an edit is for rt must-fail to show, that it accepts a twin for make twins. Exit status 0: all holds."""

import collections
import glob
import os
import re
import sys

from edits import COLUMNS, about, applied, item, replacements

LIST = "docs/MUST-FAIL.md"
MARKER = "<!-- The rest is written by make must-fail-list. -->\n"

# Stands for the names of all public functions of the crate.
EVERY = "every public function"

# The crates of definitions and theorems: there an edit may name one of those, too.
STATED = ("model", "watch", "history")
STATEMENT = r"^(?:(?:abbrev|unfoldable|pub|data|record) )+([^\s(){}]+)|^([^\s(){}]+) :"
FUNCTION = r"^ *(pub )?(?:extern \"C\" )?fn (\w+)"

Edit = collections.namedtuple("Edit", "crate label gate names program")


def read(path):
    with open(path, encoding="utf-8") as file:
        return file.read()


class Crate:
    """What an edit of the crate may name, in the order of the source, and its public functions."""

    def __init__(self, name):
        self.names = []
        for folder in [f"crates/{name}/specs", f"crates/{name}/proofs"] if name in STATED else []:
            for module in re.findall(r"^pub mod (\w+)", read(f"{folder}/Lib.antt"), re.M):
                self.names += [a or b for a, b in re.findall(STATEMENT, read(f"{folder}/{module}.antt"), re.M)]
        functions = [found for path in sorted(glob.glob(f"crates/{name}/src/*.rt")) for found in re.findall(FUNCTION, read(path), re.M)]
        self.names += [function for _, function in functions]
        self.public = [function for public, function in functions if public]

    def named(self, edit):
        """The names of an edit, each by itself."""
        return [name for given in edit.names for name in (self.public if given == EVERY else [given])]

    def place(self, edit):
        """Where it stands among the crate's edits: by the first in the source of what it names, then by its label."""
        return min([self.names.index(name) for name in self.named(edit) if name in self.names], default=-1), edit.label


def listed(crates, edits):
    """The list: how many edits there are, and those of each crate."""
    gate = sum(edit.gate for edit in edits)
    text = f"\n{len(edits)} edits: {gate} in the gate, and {len(edits) - gate} in `tests/wrong`.\n"
    for name, crate in crates.items():
        text += f"\n## {name}\n\n"
        for edit in sorted((edit for edit in edits if edit.crate == name), key=crate.place):
            text += item(f"{', '.join(edit.names)}: {edit.program}; {edit.label if edit.gate else f'*{edit.label}*'}")
    return text


def twins_held(paths):
    """What does not hold of the twins of these edits."""
    wrong = []
    for path in paths:
        _, crate, _, name = path.split("/")
        twin = f"tests/twins/{crate}/{name}"
        if not os.path.isfile(twin):
            wrong.append(f"no twin for {path}")
            continue
        wrong += applied(twin, f"crates/{crate}")[1]
        if {found[:2] for found in replacements(twin)} - {found[:2] for found in replacements(path)}:
            wrong.append(f"{twin} replaces other lines than its edit")
    for twin in sorted(glob.glob("tests/twins/*/*.edit")):
        _, _, crate, name = twin.split("/")
        if f"crates/{crate}/must-fail/{name}" not in paths:
            wrong.append(f"{twin} is no edit's twin")
    return wrong


def main(arguments):
    os.chdir(os.path.join(os.path.dirname(os.path.abspath(__file__)), "..", ".."))
    crates = {name: Crate(name) for name in re.findall(r"^(\w+)[^\n:#]*:", read("crates.txt"), re.M)}
    in_gate, apart = sorted(glob.glob("crates/*/must-fail/*.edit")), sorted(glob.glob("tests/wrong/*/*.edit"))
    edits, counts, wrong = [], collections.Counter(), []
    for path in in_gate + apart:
        name, label = path.replace("/must-fail", "").removesuffix(".edit").split("/")[-2:]
        wrong += applied(path, f"crates/{name}")[1]
        said = about(path)
        if not said:
            wrong.append(f"{path}: its first line is not '# FUNCTIONS: WRONG PROGRAM', in {COLUMNS} columns")
        elif name not in crates:
            wrong.append(f"{path}: crates.txt has no {name}")
        else:
            edit = Edit(name, label, path in in_gate, *said)
            edits.append(edit)
            counts.update((name, function) for function in set(crates[name].named(edit)))
            wrong += [f"{path}: {name} has no {function}" for function in crates[name].named(edit) if function not in crates[name].names]
    wrong += twins_held(in_gate)
    wrong += [f"no edit of {name} is in the gate" for name in crates if not glob.glob(f"crates/{name}/must-fail/*.edit")]
    public = [(name, function) for name, crate in crates.items() for function in crate.public]
    wrong += [f"fewer than two edits for {name}::{function}" for name, function in public if counts[name, function] < 2]

    introduction, marker, list_there = read(LIST).partition(MARKER)
    if not marker:
        wrong.append(f"{LIST} has no line {MARKER.strip()}")
    elif "--write" in arguments:
        with open(LIST, "w", encoding="utf-8") as file:
            file.write(introduction + marker + listed(crates, edits))
    elif list_there != listed(crates, edits):
        wrong.append(f"{LIST} does not list what the edits say: make must-fail-list writes it")
    print("\n".join(wrong) or f"{len(edits)} must-fail edits fit, {len(in_gate)} of them in the gate, each with its twin; "
          f"each of the {len(public)} public functions has two or more; {LIST} lists them all")
    return 1 if wrong else 0


if __name__ == "__main__":
    sys.exit(main(sys.argv[1:]))
