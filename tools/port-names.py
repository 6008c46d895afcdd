#!/usr/bin/env python3
"""Brings the repository's own names in antt to today's spelling: words in snake case, types in camel case. Run once, after the
toolchain's port.py, at the top; docs/PORT.md says when. Names that the kit's sources have too stay as they are, but for those below
that the repository defines itself; so do functions of src/, exported names, strings, inputs and outputs, none of which has a dash."""

import glob
import os
import re
import shutil

KIT = os.path.join(os.path.dirname(os.path.dirname(os.path.realpath(shutil.which("rt")))), "rattle")
NAME = re.compile(r"[^\s(){}\[\].,;:λ⌜⌝\"`]+")
COMMENT = re.compile(r"(?:^|\s)--(?:\s|$)|//")

# Defined here, and by chance a word of the kit's sources too.
OURS = {"all-at", "consumed-is", "count-is", "decimal-digits", "digits-test", "erase-sub", "first-is", "if-seen", "keep-alive", "kept-is",
        "last-is", "length-places", "one-step", "repeat-none", "rest-is", "step-1", "step-at", "well-formed"}

# Types.
CAMEL = {"Is-whole": "IsWhole", "All-there": "AllThere"}

# English words of comments that are names as well.
ENGLISH = {"hang-up", "time-out", "well-made", "keep-alive"}


def read(path):
    with open(path, encoding="utf-8") as file:
        return file.read()


def dashed(text):
    return {word for word in NAME.findall(text) if re.search(r"\w-\w", word) and re.fullmatch(r"[A-Za-z0-9_'₀-₉-]+", word)}


def kit_words():
    words = set()
    for folder, _, files in os.walk(KIT):
        for name in files:
            if name.endswith((".antt", ".rt")):
                words |= dashed(read(os.path.join(folder, name)))
    return words


def code(line):
    return COMMENT.split(line, maxsplit=1)[0]


def main():
    stated = [path for pattern in ("specs/*.antt", "proofs/*.antt", "src/*.rt") for path in sorted(glob.glob("crates/*/" + pattern))]
    own = set().union(*(dashed(code(line)) for path in stated for line in read(path).split("\n"))) - (kit_words() - OURS)
    turned = {word: CAMEL.get(word, word.replace("-", "_")) for word in own}

    def name(found, kept=frozenset()):
        word = found.group(0)
        return word if word in kept else turned.get(word, word)

    def turn(line):
        front = code(line)
        return NAME.sub(name, front) + NAME.sub(lambda found: name(found, ENGLISH), line[len(front):])

    for path in sorted(glob.glob("crates/*/**/*.antt", recursive=True) + glob.glob("crates/*/src/*.rt")):
        if "/out/" in path:
            continue
        before = read(path)
        after = "\n".join(map(turn, before.split("\n")))
        if after != before:
            with open(path, "w", encoding="utf-8") as file:
                file.write(after)
    print(len(turned), "names")


main()
