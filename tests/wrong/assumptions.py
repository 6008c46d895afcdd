#!/usr/bin/env python3
"""Says once, of every file under crates/, that it assumes nothing.

    assumptions.py [FOLDER]     says what is assumed, and where. FOLDER has crates/ and crates.txt: this repository, where it is left out

Outside comments and texts no file has a word that takes something for true without a proof:

- `axiom`, or the module `Axiom`, which has the logic's own two, excluded middle and choice;
- a hole, `?` or `?name`, or a probe, `{! .. !}`; the `?` behind an expression of Rattle, which hands an error on, is none;
- an `extern "C"` block, whose contracts nothing proves; `unsafe`, but for the mark of a name that C calls, `#[unsafe(no_mangle)]`.

No function that C calls has a `requires`: nothing would prove that C keeps it.

Each crate stands on the repository's crates and the toolchain's std alone; a program might name the kit's io, libc and os, which rest on
contracts of C functions.

A law of a proof by hand may take the logic's rules as an argument, `𝓛` of today's or `Given` of older files. Where a file does not hand
them in itself (`givenOf`), its head says that, and no other head does.

The prover refuses these words too, and rt builds only what it proves: docs/PROVED.md. Exit status 0: all holds."""

import glob
import os
import re
import sys

KIT = ("io", "libc", "os")

# A name of antt's, and where one begins and ends.
NAME = r'[^\s(){}.;,@"«»]+'
BEGINS, ENDS = r'(?<![^\s(){}.;,@"«»])', r'(?![^\s(){}.;,@"«»])'

# Comments, texts, names, and all else, by a file's ending.
PIECES = {
    ".antt": re.compile(r'(?P<comment>--[^\n]*|\{-.*?-\})|(?P<text>"(?:\\.|[^"\\])*")|' + NAME + "|.", re.S),
    ".rt": re.compile(r"""(?P<comment>//[^\n]*|/\*.*?\*/)|(?P<text>"(?:\\.|[^"\\])*"|'(?:\\.|[^'\\])')|\w+|.""", re.S),
}

# What no file may have.
ASSUMES = {
    ".antt": [(BEGINS + "axiom" + ENDS, "an axiom"), (BEGINS + "Axiom" + ENDS, "an axiom of the logic"), (BEGINS + r"\?", "a hole"),
              (r"\{!", "a probe")],
    ".rt": [(r'\bextern\s*(?:"")?\s*\{', "contracts of C functions"), (r"\bunsafe\b(?!\(no_mangle\)\])", "what is unsafe"),
            (r"""(?<![\w)\]}>?"])\?""", "a hole")],
}

# A function that C calls, up to the next one.
EXPORT = re.compile(r'\bextern\s*""\s*fn (\w+)((?:(?!\bfn\b).)*)', re.S)

# The goals of a loop, in a function or in a method of a type, which today's toolchain calls so too.
GOALS = re.compile(r"^use Rattle\.\w+\.proofs\.[\w+]+(?:\.[\w+]+)?\.Given as goal$", re.M)

SAYS = re.compile(r"Assumes (.*?)\.(?: |$)")
NOTHING = ()
RULES = "the logic's rules, nothing else"


def bare(text, ending):
    """The text without its comments and with empty texts, as many lines as it was."""
    return PIECES[ending].sub(lambda found: "\n" * found[0].count("\n") if found["comment"] else '""' if found["text"] else found[0], text)


def head(text):
    """What the comment at the beginning of a file says, in one line."""
    return " ".join(line.removeprefix("--").strip() for line in re.match(r"(?:--.*\n)*", text)[0].split("\n"))


def held(path):
    """What is assumed in a file, and what its head says of that and is not so."""
    ending = os.path.splitext(path)[1]
    with open(path, encoding="utf-8") as file:
        text = file.read()
    code, wrong = bare(text, ending), []
    for pattern, what in ASSUMES[ending]:
        wrong += [f"{path}:{code.count(chr(10), 0, found.start()) + 1}: {what}" for found in re.finditer(pattern, code)]
    wrong += [f"{path}: {name} requires something of C" for name, rest in EXPORT.findall(code) if re.search(r"\brequires\b", rest)]
    if ending == ".antt":
        names = re.findall(NAME, code)
        given = "Given" in re.findall(NAME, GOALS.sub("", code))
        takes = ("𝓛" in names or given) and "givenOf" not in names
        said = SAYS.findall(head(text))
        wrong += [f"{path}: its head says that it assumes {what}" for what in said if what not in ((RULES,) if takes else NOTHING)]
        wrong += [f"{path}: its head does not say that it takes {RULES}"] if takes and not said else []
    return wrong


def main(arguments):
    os.chdir(arguments[0] if arguments else os.path.join(os.path.dirname(os.path.abspath(__file__)), "..", ".."))
    paths = sorted(path for ending in PIECES for path in glob.glob(f"crates/**/*{ending}", recursive=True) if "/out/" not in path)
    wrong = [what for path in paths for what in held(path)]
    with open("crates.txt", encoding="utf-8") as file:
        crates = {name: set(uses.split()) for name, uses in re.findall(r"^(\w+)[^\n:#]*:(.*)$", file.read(), re.M)}
    on_c = [name for name, uses in crates.items() if uses & set(KIT)]
    wrong += [f"crates.txt: {name} is a library, and the kit's io, libc and os rest on contracts of C functions" for name in on_c
              if not os.path.isfile(f"crates/{name}/src/main.rt")]
    print("\n".join(wrong) or f"{len(paths)} files assume nothing: no axiom, no hole, no contract of a C function, nothing required of C; "
          f"programs that call C through the kit: {', '.join(on_c) or 'none'}")
    return 1 if wrong or not paths else 0


if __name__ == "__main__":
    sys.exit(main(sys.argv[1:]))
