#!/usr/bin/env python3
"""Bytes a second through the test programs, and the memory that they take.

    stream.py PRODUCT INDEPENDENT [--megabytes N]

Histories of the generator, one behind another, are given as standard input until there are
so many megabytes. What the programs print must be equal."""

import argparse
import hashlib
import os
import subprocess
import sys
import tempfile
import time

HERE = os.path.dirname(os.path.abspath(__file__))
sys.path.insert(0, os.path.join(HERE, "..", "compare"))

import compare  # noqa: E402
from house_records import PAYLOAD_LONGEST, record, split  # noqa: E402

SEEDS = 200


def whole_records(seed):
    """A history without what would end the run."""
    records, _ = split(compare.generate.generate(seed, 500))
    return b"".join(record(record_kind, payload) for record_kind, payload in records if len(payload) <= PAYLOAD_LONGEST)


def make_input(path, size):
    part = b"".join(whole_records(seed) for seed in range(1, SEEDS + 1))
    with open(path, "wb") as file:
        while file.tell() < size:
            file.write(part)
        return file.tell()


def memory_of(process):
    """The most memory that the program has had so far, in KB; 0 once it has ended."""
    try:
        with open("/proc/%d/status" % process.pid, encoding="ascii") as file:
            return max([int(line.split()[1]) for line in file if line.startswith("VmHWM")], default=0)
    except OSError:
        return 0


def run(program, path):
    """Seconds, the most memory in KB, and a digest of what was printed."""
    printed, memory = hashlib.sha256(), 0
    with open(path, "rb") as file, tempfile.TemporaryFile() as out:
        began = time.monotonic()
        process = subprocess.Popen([program], stdin=file, stdout=out)
        while process.poll() is None:
            memory = max(memory, memory_of(process))
            time.sleep(0.005)
        seconds = time.monotonic() - began
        out.seek(0)
        for block in iter(lambda: out.read(1 << 20), b""):
            printed.update(block)
    if process.returncode != 0:
        sys.exit("%s ended with status %d" % (program, process.returncode))
    return seconds, memory, printed.hexdigest()


def main():
    parser = argparse.ArgumentParser(description=__doc__.splitlines()[0])
    parser.add_argument("product")
    parser.add_argument("independent")
    parser.add_argument("--megabytes", type=int, default=100)
    options = parser.parse_args()
    digests = set()
    with tempfile.TemporaryDirectory() as room:
        for megabytes in (options.megabytes // 10, options.megabytes):
            path = os.path.join(room, "input")
            size = make_input(path, megabytes * 1000000)
            digests.clear()
            for name, program in (("replay", options.product), ("independent", options.independent)):
                seconds, memory, digest = run(program, path)
                digests.add(digest)
                print("%-12s %6.1f MB in %6.2f s, %7.1f MB a second, %5d KB of memory at most"
                      % (name, size / 1e6, seconds, size / 1e6 / seconds, memory))
            if len(digests) != 1:
                print("stream: the programs print DIFFERENT lines")
                return 1
    print("stream: equal lines")
    return 0


if __name__ == "__main__":
    sys.exit(main())
