#!/usr/bin/env python3
"""Counts, tables and lists in the documents that the tree itself gives.

    figures.py            writes them anew, as make figures does
    figures.py --check    says which are written otherwise, and where, as the beginning of make test does

A document, be it the README, tests/README or one of docs/*.md, has a count in front of its name, 36<!-- gate-edits -->, and a table between
the lines <!-- begin NAME --> and <!-- end NAME -->. The name of a count is one of counts() below, a number of document 01 as the model's
definitions name it (120<!-- given_up_at -->, 840<!-- longest_wait tightenings_held -->), or a file whose lines are counted
(56<!-- crates/frame/proofs/Answers.antt -->).

Besides it is told which table is derived and stands nowhere, and what is left out: a crate or a document by README, a file of the tests by
tests/README, a public function by PROVED.

Nothing has to be proved or built for it. Exit status 0: all is as it is derived."""

import glob
import importlib.util
import itertools
import os
import re
import sys

import names

sys.path[:0] = [os.path.join(names.ROOT, folder) for folder in ("tests/wrong", "tests/compare", "tools")]

import check  # noqa: E402, I001
import mutants  # noqa: E402
import house_records  # noqa: E402
from assumptions import bare  # noqa: E402
from check import read  # noqa: E402
from edits import item  # noqa: E402
from compare import FULLEST  # noqa: E402

COUNT = re.compile(r"(\d[\d,]*)<!-- ([\w./ -]+) -->")
TABLE = re.compile(r"(?<=<!-- begin )([a-z-]+)( -->\n)(.*?)(?=<!-- end \1 -->\n)", re.S)


def module(path):
    """A module of the tests by its path: some have the same name."""
    sys.path.insert(0, os.path.dirname(os.path.abspath(path)))
    spec = importlib.util.spec_from_file_location(path, path)
    loaded = importlib.util.module_from_spec(spec)
    spec.loader.exec_module(loaded)
    sys.path.pop(0)
    return loaded


os.chdir(names.ROOT)
HOST_TESTS = module("tests/host/run.py").NAMED
HOST_FAULTS = module("tests/host/faults.py").FAULTS
FAULTS = module("tests/compare/faults.py").all_faults()
VECTORS = module("tests/vectors/run.py")


# ---- what the tree has

def crates():
    return re.findall(r"^(\w+)(?: staticlib)?:", read("crates.txt"), re.M)


def entries(path, name):
    """How many entries the list of that name has, in a file of definitions: each has a ∷ behind it."""
    text = bare(read(path), ".antt")
    depth = count = 0
    for sign in re.search(r"^%s =\n(.*?)\n\n" % name, text, re.M | re.S)[1]:
        depth += (sign in "({") - (sign in ")}")
        count += sign == "∷" and depth == 0
    return count


def fields(path, begin, pattern):
    """How many lines are like the pattern, from the line that begins so up to the next empty line."""
    return len(re.findall(pattern, re.search(r"^%s.*?\n\n" % begin, read(path), re.M | re.S)[0], re.M))


def limits():
    """The numbers of document 01 by the names of the definitions: those that are given, and those that are reckoned from them."""
    given = re.findall(r"^([a-z_]+) = ([\d_]+)$", read("crates/model/specs/Limits.antt"), re.M)
    clauses = read("crates/model/proofs/Clauses.antt").replace("\n    ", " ")
    reckoned = re.search(r"^pub the_reckoned : (.*?) ∷ \[\] ≡ (.*?) ∷ \[\]$", clauses, re.M)
    return {name: int(number) for name, number in [*given, *zip(*(side.split(" ∷ ") for side in reckoned.groups()))]}


def counts():
    """Of each count its name, what it counts, and how many there are."""
    edits = [len(glob.glob(pattern)) for pattern in ("crates/*/must-fail/*.edit", "tests/wrong/*/*.edit")]
    long = sum(hasattr(test, "long") for test in HOST_TESTS.values())
    return [
        ("crates", "crates", len(crates())),
        ("public-functions", "public functions", sum(len(check.Crate(name).public) for name in crates())),
        ("edits", "must-fail edits, wrong programs that the prover is to refuse", sum(edits)),
        ("gate-edits", "of these in the gate, for `make test`", edits[0]),
        ("wrong-edits", "of these in `tests/wrong`, for `make wrong`", edits[1]),
        ("twins", "harmless twins of the gate's, which the prover is to accept, for `make twins`", len(glob.glob("tests/twins/*/*.edit"))),
        ("examples", "examples of the guide and of 004, computed on the model", entries("crates/model/proofs/Examples.antt", "examples")),
        ("clauses", "clauses of document 01, computed on the model", entries("crates/model/proofs/Clauses.antt", "clauses")),
        ("effects", "things that a call may do to pending notices (`watch/specs/Course`: `Eff`)",
         fields("crates/watch/specs/Course.antt", "pub data Eff ", r"^  [a-z_]+ :")),
        ("demand-fields", "fields of demand 3 (`watch/specs/Marks`: `Demand3`)",
         fields("crates/watch/specs/Marks.antt", "pub record Demand3 ", r"^  pub [a-z_]+ :")),
        ("vectors", "vectors and stories in files", len(VECTORS.all_files())),
        ("by-rule", "vectors by rule (`tests/vectors/every.py`)", len(VECTORS.every.BY_RULE)),
        *(("fullest-" + what.replace(" ", "-"), f"bytes of the fullest output of a call, {what}", size) for what, size in FULLEST.items()),
        ("faults", "planted faults of the second implementation, for `make soak`", len(FAULTS)),
        ("few-faults", "of these in `make test`", len(re.search(r"^FEW_FAULTS := (.*)$", read("tests/Makefile"), re.M)[1].split(","))),
        ("mutants", "mutants of the second implementation, for `make -C tests mutants`", len(mutants.mutants(read(mutants.SOURCE)))),
        ("host-tests", "tests of the host in `make test`", len(HOST_TESTS) - long),
        ("long-host-tests", "further ones in `make soak`", long),
        ("host-faults", "planted faults of the host, of watch and of ladder, for `make soak`", len(HOST_FAULTS)),
    ]


# ---- the tables

def table(head, rows):
    def line(row):
        return "| %s |\n" % " | ".join(row)
    return line(head) + "|---" * len(head) + "|\n" + "".join(map(line, rows))


def lines_of(crate):
    """How many lines of specs, code and proofs a crate has."""
    patterns = ("specs/**/*.antt", "src/**/*.rt", "proofs/**/*.antt")
    return [sum(read(path).count("\n") for path in glob.glob(f"crates/{crate}/{pattern}", recursive=True)) for pattern in patterns]


def sizes():
    sized = [(f"`{crate}`", lines_of(crate)) for crate in crates()]
    sized.append(("all", [sum(lines) for lines in zip(*(lines for _, lines in sized))]))
    return [(name, *(f"{number:,}" for number in lines)) for name, lines in sized]


def host_test(name, test):
    shows = " ".join((test.__doc__ or "").split())
    return item(f"`{name}` (`tests/host/{test.__module__}.py`): {shows}{' In `make soak` only.' if hasattr(test, 'long') else ''}")


def records():
    """The items of each house record's payload, as tools/house_records.py has them."""
    def values(item):
        return (f"to {item.greatest}" if item.greatest else item.sort) + (" or none" if item.sort == house_records.LIMIT else "")

    def items(payload):
        return ", ".join(f"{item.name.replace('_', ' ')} ({item.size}, {values(item)})" for item in payload.items.values())

    def name(kind):
        return next(name.lower() for name, value in vars(house_records).items() if name.isupper() and value == kind)
    return "".join(item(f"{name(kind)}, kind {kind}: {items(payload)}") for kind, payload in house_records.PAYLOADS.items())


def tables():
    return {
        "counts": table(("What", "How many"), [(what, f"{number:,}") for _, what, number in counts()]),
        "records": records(),
        "sizes": table(("Crate", "Specs", "Code", "Proofs"), sizes()),
        "host-tests": "".join(host_test(*named) for named in HOST_TESTS.items()),
        "host-faults": table(("Fault", "In", "Found by"), [(name, f"`{file}`", f"`{test}`") for name, test, file, *_ in HOST_FAULTS]),
    }


# ---- the documents

def derived_count(name, numbers):
    """The count of that name, as it is written; None where there is no such name."""
    count = read(name).count("\n") if os.path.isfile(name) else numbers.get(name)
    return None if count is None else f"{count:,}"


def written_anew(text, numbers, rows):
    text = TABLE.sub(lambda found: found[1] + found[2] + rows.get(found[1], found[3]), text)
    return COUNT.sub(lambda found: f"{derived_count(found[2], numbers) or found[1]}<!-- {found[2]} -->", text)


def wrong_counts(path, text, numbers):
    for line, said in enumerate(text.split("\n"), 1):
        for written, name in COUNT.findall(said):
            derived = derived_count(name, numbers)
            if written != derived:
                yield f"{path}:{line}: {name} is written {written}, derived is {derived or 'nothing of that name'}"


def wrong_tables(path, text, rows):
    for found in TABLE.finditer(text):
        first = text.count("\n", 0, found.start(3)) + 1
        both = itertools.zip_longest(found[3].split("\n"), rows.get(found[1], "").split("\n"), fillvalue="")
        for line, (written, derived) in enumerate(both, first):
            if written != derived:
                yield f"{path}:{line}: a row of {found[1]} is written\n  {written}\nderived is\n  {derived}"
                break


def functions_of(text):
    """The functions that a text names, as (crate, function). Up to the next colon or item `frame::row`, `measure` are two of frame."""
    found = set()
    for cell in re.split(r"[|]|: |\n(?! )", text):
        crate = None
        for name in re.findall(r"`([\w:]+)`", cell):
            crate, function = name.split("::") if name.count("::") == 1 else (crate, name)
            found.add((crate, function))
    return found


def left_out():
    """What README, tests/README and PROVED do not list, or list and is not there; which test of the host does not say what it shows."""
    readme, of_tests, said = read("README.md"), read("tests/README.md"), functions_of(read("docs/PROVED.md"))
    yield from (f"docs/PROVED.md: not a word of {crate}::{function}" for crate in crates() for function in check.Crate(crate).public
                if (crate, function) not in said)
    listed = set(re.findall(r"`(\w+)`", " ".join(re.findall(r"^- ((?:`\w+`(?:, )?)+):", readme, re.M))))
    yield from (f"README.md: the table of crates and crates.txt differ in {name}" for name in sorted(listed ^ set(crates())))
    yield from (f"README.md: no link to {path}" for path in sorted(glob.glob("docs/*.md")) if f"({path})" not in readme)
    for path in sorted(path for ending in ("py", "c", "h") for path in glob.glob(f"tests/*/*.{ending}")):
        beside_its_source = re.sub(r"tests/(.*)\.h$", r"`\1.c`, `.h`", path)
        if os.path.basename(path) not in of_tests and beside_its_source not in of_tests:
            yield f"tests/README.md: {path} is not listed"
    yield from (f"the test {name} of the host does not say what it shows" for name, test in HOST_TESTS.items() if not test.__doc__)


def main(arguments):
    texts = {path: read(path) for path in map(os.path.relpath, names.documents())}
    numbers, rows, wrong = {**limits(), **{name: count for name, _, count in counts()}}, tables(), []
    for path, text in texts.items():
        if "--check" in arguments:
            wrong += [*wrong_counts(path, text, numbers), *wrong_tables(path, text, rows)]
        elif (anew := written_anew(text, numbers, rows)) != text:
            with open(path, "w", encoding="utf-8") as file:
                file.write(anew)
            print(f"{path} is written anew")
    if wrong:
        wrong.append("make figures writes what is derived")
    marked, tabled = [[found for text in texts.values() for found in mark.findall(text)] for mark in (COUNT, TABLE)]
    wrong += [f"the table {name} is derived, and no document has it" for name in rows if name not in [found[0] for found in tabled]]
    wrong += left_out()
    print("\n".join(wrong) or f"docs: {len(marked)} counts and {len(tabled)} tables in {len(texts)} documents are as they are derived")
    return 1 if wrong else 0


if __name__ == "__main__":
    sys.exit(main(sys.argv[1:]))
