#!/usr/bin/env python3
"""Shows that the comparison finds every planted fault.

    faults.py [--only N,N,..] [--count N] [--first-seed N] [--records N]
              [--program PROGRAM --archive ARCHIVE --compiler COMPILER --runner RUNNER]

Builds the test program once with each fault of independent/faults.h and compares it with
the faultless one over the histories; faults that its lines do not show are compared
call by call. In the second form it is compared with the product: with the lines of that
program, or call by call with that archive, linked in by the compiler and run by the runner.
The control comes first: built without a fault it must agree over every one of these
histories. A fault is found by a history that both sides answer to the end, differently; a
program that breaks finds nothing. --only says which faults, by their numbers. Exit status 0:
the control agreed and every fault was found."""

import argparse
import multiprocessing
import os
import re
import subprocess
import sys
import time

import compare

HERE = os.path.dirname(os.path.abspath(__file__))
SOURCE = os.path.join(HERE, "..", "independent")
FLAGS = ["-std=c11", "-Wall", "-Wextra", "-Werror", "-O0"]


def all_faults():
    """(name, number, how it is seen) of each fault: the names of faults.h, as FAULTS.md tells of them."""
    with open(os.path.join(SOURCE, "faults.h"), encoding="ascii") as file:
        planted = re.findall(r"^\s+([A-Z0-9_]+) = (\d+),?$", file.read(), re.M)
    with open(os.path.join(SOURCE, "FAULTS.md"), encoding="ascii") as file:
        told = re.findall(r"^\| (\d+) \| ([A-Z0-9_]+) \|.*\| (lines|calls) \|$", file.read(), re.M)
    if [(name, number) for number, name, _ in told] != planted[1:]:
        sys.exit("faults.h and FAULTS.md do not list the same faults")
    return [(name, int(number), seen) for number, name, seen in told]


def compile_fault(number, name, more, compiler="gcc"):
    path = os.path.join(compare.BUILD, name)
    source = os.path.join(SOURCE, "independent.c")
    subprocess.run([compiler, *FLAGS, "-DFAULT=%d" % number, "-o", path, source, *more], check=True)
    return path


def pair_with(number, seen, options):
    """The faulty program or library beside the right one, and what was built for it."""
    if seen == "lines":
        path = compile_fault(number, "fault-%d" % number, [os.path.join(SOURCE, "main.c")])
        return compare.Programs(options.program, path), path
    if options.archive:
        more = ["-DLINKED", "-static", os.path.join(HERE, "calls.c"), options.archive]
        path = compile_fault(number, "linked-fault-%d" % number, more, options.compiler)
        return compare.Calls(options.runner, path), path
    path = compile_fault(number, "libfault-%d.so" % number, ["-fPIC", "-shared"])
    right = os.path.join(compare.BUILD, "libindependent.so:independent")
    return compare.shared_libraries(right, path + ":independent"), path


def judged(arguments):
    """The fault, with the seeds of each judgement."""
    fault, options = arguments
    pair, path = pair_with(*fault[1:], options)
    seeds = {compare.EQUAL: [], compare.DIFFERENT: [], compare.BROKEN: []}
    for seed in range(options.first_seed, options.first_seed + options.count):
        seeds[compare.judge((pair, seed, options.records))[1]].append(seed)
    os.remove(path)
    return fault, seeds


def control_holds(pool, seen, options):
    """Does the faultless program agree wherever a fault is looked for?"""
    control = [("the faultless program's " + way, 0, way) for way in seen]
    holds = True
    for (name, _, _), seeds in pool.imap(judged, ((fault, options) for fault in control)):
        print("control: %s: %d equal, %d different, %d broken"
              % (name, *(len(seeds[way]) for way in (compare.EQUAL, compare.DIFFERENT, compare.BROKEN))), flush=True)
        holds = holds and len(seeds[compare.EQUAL]) == options.count
    return holds


def main():
    parser = argparse.ArgumentParser(description=__doc__.splitlines()[0])
    parser.add_argument("--only", type=lambda text: [int(number) for number in text.split(",")])
    parser.add_argument("--program", default=os.path.join(compare.BUILD, "independent"))
    parser.add_argument("--archive")
    parser.add_argument("--compiler", default="gcc")
    parser.add_argument("--runner")
    parser.add_argument("--count", type=int, default=100)
    parser.add_argument("--first-seed", type=int, default=1)
    parser.add_argument("--records", type=int, default=500)
    options = parser.parse_args()
    began, missed = time.monotonic(), 0
    faults = [fault for fault in all_faults() if not options.only or fault[1] in options.only]
    with multiprocessing.Pool() as pool:
        if not control_holds(pool, sorted({seen for _, _, seen in faults}), options):
            print("faults: the control does not hold, so that nothing is found")
            return 1
        print("%3s  %-32s %-10s %s" % ("n", "fault", "first seed", "of %d histories find it" % options.count))
        for (name, number, _), seeds in pool.imap(judged, ((fault, options) for fault in faults)):
            finding, broken = seeds[compare.DIFFERENT], len(seeds[compare.BROKEN])
            missed += not finding
            print("%3d  %-32s %-10s %d%s" % (number, name, finding[0] if finding else "NOT FOUND", len(finding),
                                             ", %d broken" % broken if broken else ""), flush=True)
    print("faults: %d of %d found within %d histories, %.0f s"
          % (len(faults) - missed, len(faults), options.count, time.monotonic() - began))
    return 1 if missed or not faults else 0


if __name__ == "__main__":
    sys.exit(main())
