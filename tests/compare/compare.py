#!/usr/bin/env python3
"""Compares two test programs, byte for byte, over seeded histories.

    compare.py A B [--count N] [--first-seed N] [--records N]
    compare.py --calls LIBRARY_A:PREFIX_A LIBRARY_B:PREFIX_B [...]
    compare.py --linked PROGRAM --least CALLS [...]

The first form compares what the programs print. The second calls two shared libraries
side by side and compares each call's four numbers and output bytes (see calls.c). The
third does the same with the program that has both libraries linked in, in one process,
over the vectors and the histories; as many calls as said must be made at least, and every
call's output must have been as full as the rules let it be.
The first difference is kept, made small and shown. Exit status 0: all equal."""

import argparse
import multiprocessing
import os
import re
import subprocess
import sys
import time

HERE = os.path.dirname(os.path.abspath(__file__))
BUILD = os.path.join(HERE, "..", "..", "target", "tests")
sys.path[:0] = [os.path.join(HERE, "..", *names) for names in (("histories",), ("vectors",), ("..", "tools"))]

import generate  # noqa: E402
import history  # noqa: E402
import run as vectors  # noqa: E402
from house_records import HEAD, record, split  # noqa: E402
from openprotocol import ACCEPTED, ALARM, IDENTIFIER, RESULT, longest  # noqa: E402

SECONDS = 60  # more than any history needs
EQUAL, DIFFERENT, BROKEN = "equal", "different", "broken"

# The fullest outputs that the rules allow: so many of the longest frames of these numbers, each with its NUL, in a record each.
FULLEST = {what: sum(HEAD.size + longest(mid) + 1 for mid in mids) for what, mids in {
    "received bytes": [ACCEPTED] + 4 * [IDENTIFIER], "tick": 4 * [IDENTIFIER, RESULT, ALARM], "tool record": 4 * [RESULT]}.items()}


def run(command, data):
    """What a program prints and how it ends, as one thing to compare."""
    try:
        done = subprocess.run(command, input=data, capture_output=True, timeout=SECONDS)
    except subprocess.TimeoutExpired:
        return b"", "no end within %d s" % SECONDS
    return done.stdout, done.returncode


class Programs:
    """Two programs that should print the same, and end well."""

    def __init__(self, first, second):
        self.first, self.second = first, second

    def judge(self, data, _seed):
        first, second = run([self.first], data), run([self.second], data)
        if first[1] != 0 or second[1] != 0:
            return BROKEN
        return EQUAL if first == second else DIFFERENT

    def show(self, data, _seed):
        out = []
        for name, program in (("A", self.first), ("B", self.second)):
            text, status = run([program], data)
            out.append("%s prints (exit status %s):\n%s" % (name, status, text.decode("latin-1")))
        return "".join(out)


class Calls:
    """A program of calls.c, with the words that run it: two libraries that should answer the same, call by call."""

    def __init__(self, *command):
        self.command = list(command)

    def judge(self, data, seed):
        return {0: EQUAL, 1: DIFFERENT}.get(run(self.command, generate.framed(data, seed))[1], BROKEN)

    def show(self, data, seed):
        return run(self.command, generate.framed(data, seed))[0].decode("latin-1")


def shared_libraries(first, second):
    """The pair of two shared libraries, each given as PATH:PREFIX."""
    words = [word for library in (first, second) for word in library.rsplit(":", 1)]
    return Calls(os.path.join(BUILD, "calls"), os.path.abspath(words[0]), words[1], os.path.abspath(words[2]), words[3])


def generated(arguments):
    """The history of a seed, by the seed's name."""
    seed, records = arguments
    return "seed %d" % seed, seed, generate.generate(seed, records)


def all_in_one(pair, seeds, records, progress):
    """One process over the vectors and all the histories: (the history that tells the two apart or None, what it said)."""
    given = [(name, number, data) for number, (name, data, _) in enumerate(vectors.all_cases())]
    with multiprocessing.Pool() as pool, \
            subprocess.Popen(pair.command, stdin=subprocess.PIPE, stdout=subprocess.PIPE) as process:
        try:
            for _, seed, data in given:
                process.stdin.write(generate.framed(data, seed))
            work = ((seed, records) for seed in seeds)
            for done, (_, seed, data) in enumerate(pool.imap(generated, work, chunksize=4), 1):
                process.stdin.write(generate.framed(data, seed))
                progress(done)
            process.stdin.close()
        except BrokenPipeError:
            pool.terminate()
        said = process.stdout.read().decode("latin-1")
    if process.returncode == 0:
        return None, said.strip()
    found = re.match(r"history (\d+), ", said)
    if not found:
        sys.exit("%s ended with status %d: %s" % (pair.command[0], process.returncode, said))
    number = int(found.group(1)) - 1
    return given[number] if number < len(given) else generated((seeds[number - len(given)], records)), said


def pieces(data):
    """The records of a history as bytes, with what is left behind the last whole one."""
    records, tail = split(data)
    parts = [record(record_kind, payload) for record_kind, payload in records]
    return parts + ([tail] if tail else [])


def shrink(parts, differ):
    """Leaves out records as long as the difference stays (delta debugging)."""
    size = max(1, len(parts) // 2)
    while True:
        at, shorter = 0, False
        while at < len(parts):
            fewer = parts[:at] + parts[at + size:]
            if fewer and differ(b"".join(fewer)):
                parts, shorter = fewer, True
            else:
                at += size
        if size == 1 and not shorter:
            return parts
        size = max(1, size // 2) if not shorter or size > 1 else 1


def judge(arguments):
    pair, seed, records = arguments
    return seed, pair.judge(generate.generate(seed, records), seed)


def first_difference(pair, seeds, records, progress):
    """The first history (in the order of the seeds) that tells the two apart, or None."""
    work = ((pair, seed, records) for seed in seeds)
    with multiprocessing.Pool() as pool:
        for done, (seed, judgement) in enumerate(pool.imap(judge, work, chunksize=4), 1):
            if judgement != EQUAL:
                pool.terminate()
                return generated((seed, records))
            progress(done)
    return None


def show_difference(pair, case):
    name, seed, data = case
    parts = shrink(pieces(data), lambda part: pair.judge(part, seed) != EQUAL)
    small = b"".join(parts)
    path = os.path.join(BUILD, "difference-%d.records" % seed)
    with open(path, "wb") as file:
        file.write(small)
    print("%s differs; %d of its %d records are enough (kept as %s):"
          % (name, len(parts), len(pieces(data)), os.path.relpath(path)))
    print(history.to_lines(small) + pair.show(small, seed))


def too_little(said, least):
    """What a comparison call by call, which found no difference, did not reach: a sentence, or none."""
    if int(said.split()[0]) < least:
        return "too few calls, %d were asked for" % least
    missing = ["%s %d" % full for full in FULLEST.items() if "%s %d (" % full not in said]
    return "an output as full as the rules allow was not reached: " + ", ".join(missing) if missing else None


def main():
    parser = argparse.ArgumentParser(description=__doc__.splitlines()[0])
    parser.add_argument("compared", nargs="+", metavar="A B")
    parser.add_argument("--calls", action="store_true")
    parser.add_argument("--linked", action="store_true")
    parser.add_argument("--least", type=int, default=0)
    parser.add_argument("--count", type=int, default=300)
    parser.add_argument("--first-seed", type=int, default=1)
    parser.add_argument("--records", type=int, default=500)
    options = parser.parse_args()
    pair = (Calls if options.linked else shared_libraries if options.calls else Programs)(*options.compared)
    seeds = range(options.first_seed, options.first_seed + options.count)
    began = time.monotonic()

    def progress(done):
        if done % 100 == 0 or done == options.count:
            print("%d of %d histories %s, %.0f s" % (done, options.count, "given" if options.linked
                                                     else "equal", time.monotonic() - began), flush=True)

    said = ""
    if options.linked:
        found, said = all_in_one(pair, seeds, options.records, progress)
    else:
        found = first_difference(pair, seeds, options.records, progress)
    if found:
        show_difference(pair, found)
        print("compare: DIFFERENT at %s" % found[0])
        return 1
    if options.linked:
        print("compare: " + said)
        missing = too_little(said, options.least)
        if missing:
            print("compare: " + missing)
            return 1
    print("compare: equal, %d histories of %d records, seeds %d to %d, %.0f s"
          % (options.count, options.records, seeds[0], seeds[-1], time.monotonic() - began))
    return 0


if __name__ == "__main__":
    sys.exit(main())
