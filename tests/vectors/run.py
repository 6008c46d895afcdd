#!/usr/bin/env python3
"""Runs the vectors and the stories through a test program.

    run.py PROGRAM [FILE ...]      without files: all of tests/vectors and tests/stories, and those of every.py

Each file is a history in the line form of tools/history.py. Lines that begin with "> " are
the output expected, in order; the program must print exactly these lines and no more.
A file that expects nothing at all is wrong: it shows nothing."""

import os
import subprocess
import sys

HERE = os.path.dirname(os.path.abspath(__file__))
sys.path.insert(0, os.path.join(HERE, "..", "..", "tools"))

import every  # noqa: E402
import history  # noqa: E402

STORIES = os.path.join(HERE, "..", "stories")


def all_files():
    files = [os.path.join(HERE, name) for name in sorted(os.listdir(HERE)) if name.endswith(".txt")]
    stories = [os.path.join(STORIES, name) for name in sorted(os.listdir(STORIES))]
    if not files or not stories:
        sys.exit("vectors: none in tests/vectors, or none in tests/stories")
    return files + stories


def expected_output(text):
    lines = [line[2:] for line in history.whole_lines(text) if line.startswith("> ")]
    return "".join(line + "\n" for line in lines)


def case_of(path):
    """The name, the house records and the output expected of a file."""
    with open(path, encoding="latin-1") as file:
        text = file.read()
    return os.path.relpath(path, os.path.join(HERE, "..")), history.to_records(text), expected_output(text)


def all_cases():
    return [case_of(path) for path in all_files()] + every.cases()


def difference(program, records, wanted):
    """None if the output is right, else what differs."""
    if not records or not wanted:
        return "no records, or no output expected"
    done = subprocess.run([program], input=records, capture_output=True, timeout=60)
    got = done.stdout.decode("latin-1")
    if done.returncode != 0:
        return "exit status %d\n%s" % (done.returncode, done.stderr.decode("latin-1"))
    if got == wanted:
        return None
    return parting(wanted.split("\n"), got.split("\n"))


def parting(wanted, got):
    """The first line that differs, with the line before it."""
    at = next((at for at, (one, other) in enumerate(zip(wanted, got)) if one != other), min(len(wanted), len(got)))
    before = wanted[at - 1:at] if at else []
    return "at line %d of %d\n" % (at + 1, len(wanted)) + "".join(
        line + "\n" for line in before + ["expected: " + "".join(wanted[at:at + 1]), "printed:  " + "".join(got[at:at + 1])])


def main(arguments):
    if not arguments:
        sys.exit(__doc__)
    program, cases = arguments[0], [case_of(path) for path in arguments[1:]] or all_cases()
    wrong = 0
    for name, records, wanted in cases:
        differs = difference(program, records, wanted)
        print("%-40s %s" % (name, "right" if differs is None else "WRONG"))
        if differs is not None:
            wrong += 1
            print(differs)
    print("vectors: %d right, %d wrong" % (len(cases) - wrong, wrong))
    return 1 if wrong or not cases else 0


if __name__ == "__main__":
    sys.exit(main(sys.argv[1:]))
