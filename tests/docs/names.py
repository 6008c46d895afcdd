#!/usr/bin/env python3
"""Whether what the documents name is there, and whether their links lead somewhere.

    names.py [FILE ..]      says which are not. FILE is a document: the README, tests/README and all of docs, where none is given

A document names in backquotes: a file (`tests/README.md`; tests/README names those beside it without the folder), a crate's file without
its ending (`model/specs/Frames`, `table/proofs/Says`), a function (`frame::put_copy`), a constant, a type, a definition or a law
(`OUTPUT_LEAST`, `event_frame`, `Demand3.equal`), a must-fail edit (`NUL_counted`), a function or an array of C (`put_record()`, `RULES[]`),
a test of the host (`a-slow-disk`, whose function is a_slow_disk), a command (`make test`; also where it stands indented). The pages of
docs/past and docs/landings, and PORT, the two DESIGN-PASS and LOOK-BACK, which tell of what was, and MUST-FAIL, which is derived, may
name what is gone: of them the links alone are looked at. Of links those count that lead to files here, with their #anchors.

Exit status 0: every name is there, and every link leads somewhere."""

import glob
import os
import re
import sys

ROOT = os.path.dirname(os.path.dirname(os.path.dirname(os.path.abspath(__file__))))
NOT_KEPT = (".git", "target", "out", "__pycache__")  # not in the repository: git's own, and what .gitignore names
DERIVED = "MUST-FAIL.md"
OF_A_MOVE = ("PORT.md", "DESIGN-PASS.md", "DESIGN-PASS-CONTRACTS.md", "LOOK-BACK.md")  # names as they were beside names as they are

# What stands in backquotes and is a name: not an option, a text or a byte.
CRATE_FILE = re.compile(r"([a-z_]+)/(specs|proofs)(?:/(\w+))?")
PATH = re.compile(r"([\w.]+)/[\w./*-]*")
FOLDERS = ("crates", "docs", "host", "include", "tests", "tools")
FUNCTION = re.compile(r"([a-z_]+)::(\w+)")
OF_C = re.compile(r"(\w+)(?:\(\)|\[\])")
COMMAND = re.compile(r"make (?:-C tests )?([a-z][a-z-]*).*")
DEFINITION = re.compile(r"[a-z][a-z0-9]*(?:-[a-z0-9]+)+|[A-Z]\w*[a-z]\w*'*(?:\.[a-z]\w*'*)*|\w+(?:_\w+)+'*(?:\.[a-z]\w*'*)*")

# A name as it is written in a file of definitions, and in any other.
NAME_OF_ANTT, NAME = r"[\w'-]+", r"[\w-]+"

LINK = re.compile(r"\]\(([^)\s#]*)(?:#([^)\s]*))?\)")


def read(path):
    with open(path, encoding="utf-8", errors="replace") as file:
        return file.read()


def documents():
    """Those that hold now."""
    return [os.path.join(ROOT, "README.md"), *sorted(glob.glob(os.path.join(ROOT, "docs", "*.md"))), os.path.join(ROOT, "tests/README.md")]


def past():
    """Those that tell of what was."""
    return sorted(path for folder in ("past", "landings") for path in glob.glob(os.path.join(ROOT, "docs", folder, "*.md")))


def words():
    """Every word of the crates, the header, the host, the tools and the tests: names as they are written there, and not in a document."""
    found = set()
    for folder in ("crates", "include", "host", "tools", "tests", ".ci"):
        for path, inner, files in os.walk(os.path.join(ROOT, folder)):
            inner[:] = [name for name in inner if name not in NOT_KEPT]
            for name in [name for name in files if not name.endswith((".md", ".pyc"))]:
                text = read(os.path.join(path, name))
                found.add(os.path.splitext(name)[0])
                found.update(re.findall(NAME_OF_ANTT if name.endswith(".antt") else NAME, text))
                found.update(test.replace("_", "-") for test in re.findall(r"^def (\w+)\(place\):$", text, re.M))
    for name in ("Makefile", "crates.txt"):
        found.update(re.findall(r"[\w-]+", read(os.path.join(ROOT, name))))
    return found


def targets():
    """What make makes, at the top of the repository and in tests."""
    makefiles = "\n".join(read(os.path.join(ROOT, folder, "Makefile")) for folder in ("", "tests"))
    return {name for line in re.findall(r"^([a-z][\w -]*):(?!=)", makefiles, re.M) for name in line.split()}


def missing(name, known, commands):
    """What of a name is not there, or None."""
    file = CRATE_FILE.fullmatch(name)
    if file:
        path = os.path.join("crates", file[1], file[2], file[3] + ".antt" if file[3] else "")
        return None if os.path.exists(os.path.join(ROOT, path)) else path
    function = FUNCTION.fullmatch(name)
    if function:
        source = "".join(map(read, glob.glob(os.path.join(ROOT, "crates", function[1], "src", "*.rt"))))
        return None if re.search(r"\b%s\b" % function[2], source) else name
    path = PATH.fullmatch(name)
    if path and (path[1] in FOLDERS or os.path.isdir(os.path.join(ROOT, "tests", path[1]))):
        pattern = re.sub(r"\b[A-Z]{4,}\b", "*", name)  # NAME stands for any
        return None if glob.glob(os.path.join(ROOT, pattern)) or glob.glob(os.path.join(ROOT, "tests", pattern)) else name
    of_c = OF_C.fullmatch(name)
    if of_c:
        return None if of_c[1] in known else name
    command = COMMAND.fullmatch(name)
    if command:
        return None if command[1] in commands else "target " + command[1]
    if DEFINITION.fullmatch(name):
        return next((part for part in name.split(".") if part not in known), None)
    return None


def anchors(path):
    """The anchors of a document's headings, as they are made of these: small letters, no signs, a hyphen for a space."""
    return {re.sub(r"[^\w -]", "", heading.lower()).strip().replace(" ", "-") for heading in re.findall(r"^#+ (.*)$", read(path), re.M)}


def astray(path, target, anchor):
    """What a link of that document leads to that is not there, or None."""
    if re.match(r"[a-z]+:", target):
        return None
    there = os.path.normpath(os.path.join(os.path.dirname(path), target)) if target else path
    if not os.path.exists(there):
        return os.path.relpath(there, ROOT)
    return None if not anchor or anchor in anchors(there) else "heading #%s in %s" % (anchor, os.path.relpath(there, ROOT))


def main():
    known, commands, wrong, names, links = words(), targets(), [], 0, 0
    paths = [os.path.abspath(path) for path in sys.argv[1:]] or documents() + past()
    for path in paths:
        of_the_past = os.path.basename(path) in (DERIVED, *OF_A_MOVE) or path in past()
        for number, line in enumerate(read(path).split("\n"), 1):
            place = "%s:%d" % (os.path.relpath(path, ROOT), number)
            for name in [] if of_the_past else re.findall(r"`([^`]+)`", line) + re.findall(r"^    (make .*)", line):
                names += 1
                lacks = missing(name, known, commands)
                wrong += ["%s: `%s`: there is no %s" % (place, name, lacks)] if lacks else []
            for target, anchor in LINK.findall(line):
                links += 1
                lacks = astray(path, target, anchor)
                wrong += ["%s: the link leads nowhere: there is no %s" % (place, lacks)] if lacks else []
    print("\n".join(wrong) or "docs: %d times something stands in backquotes in %d documents; as far as it is a name it is there; "
          "%d links lead somewhere" % (names, len(paths), links))
    return 1 if wrong else 0


if __name__ == "__main__":
    sys.exit(main())
