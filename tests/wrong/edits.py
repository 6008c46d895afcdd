"""Must-fail edits and their twins as texts: what they say of themselves, which lines of which files they replace, and whether they fit."""

import os
import re
import textwrap

COLUMNS = 140

# What stands at the end of a replacement that goes on: the next one replaces it by the next piece.
MORE = "<more>"


def item(text):
    """An item of a list in a document."""
    return textwrap.fill("- " + text, COLUMNS, subsequent_indent="  ", break_long_words=False, break_on_hyphens=False) + "\n"


def about(path):
    """What the first line of an edit says, '# FUNCTIONS: WRONG PROGRAM': the names, and what the wrong program does. None where the
    line has another form, or is too long."""
    with open(path, encoding="utf-8") as file:
        line = file.readline().rstrip("\n")
    found = re.fullmatch(r"# ([^:|]+): (\S[^|]*)", line)
    return (found[1].split(", "), found[2]) if found and len(line) <= COLUMNS else None


def replacements(path):
    """(file, old, new) for each replacement of an edit, in its order."""
    found, name, old = [], None, None
    with open(path, encoding="utf-8") as file:
        for line in file.read().split("\n"):
            if line.startswith("file: "):
                name = line[len("file: "):]
            elif line.startswith("old: "):
                old = line[len("old: "):]
            elif line.startswith("new:"):
                found.append((name, old, line[len("new:"):].removeprefix(" ")))
    return found


def applied(path, crate):
    """The texts of the files in the crate's folder that an edit changes, as they are then, and what keeps it from being
    applied: its replacements are made one after the other."""
    texts, misfits = {}, []
    for name, old, new in replacements(path):
        file = os.path.join(crate, name)
        if file not in texts:
            texts[file] = open(file, encoding="utf-8").read() if os.path.isfile(file) else ""
        count = texts[file].count(old)
        if count != 1:
            misfits.append(f"{path}: what it replaces stands {count} times in {file}: {old}")
        texts[file] = texts[file].replace(old, new)
    misfits += [f"{path}: it leaves {MORE} in {file}" for file, text in texts.items() if MORE in text]
    return texts, misfits if texts else [f"{path}: it replaces nothing"]
