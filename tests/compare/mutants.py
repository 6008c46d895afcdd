#!/usr/bin/env python3
"""Alters the independent implementation mechanically and lists what the comparison does not find.

    mutants.py --archive ARCHIVE [--compiler COMPILER] [--runner RUNNER] [--count N] [--jobs N] [--lines A,B,..]

A mutant has one constant by one more or less, one comparison, sign or connective another, one
'not' left out or one statement left out. Those whose machine code is the unaltered one's are
left out: they mean the same. Each other is linked with the product and runs over the vectors
and COUNT histories, call by call (calls.c), then, built with the sanitizers, over tables of garbage
(garbage.c). One that answers alike to the end survives and is listed. The control is the
program itself, which must survive. --lines tries those of these lines of independent.c only.
No part of the gate: it takes an hour of one processor."""

import argparse
import collections
import multiprocessing
import os
import re
import resource
import subprocess
import sys
import tempfile
import time

import compare
import generate

HERE = os.path.dirname(os.path.abspath(__file__))
SOURCE = os.path.join(HERE, "..", "independent", "independent.c")
# A function that ends without its answer is no program, and what nobody has written is no lucky zero.
FLAGS = ["-std=c11", "-O1", "-Werror=return-type", "-ftrivial-auto-var-init=pattern", "-I", os.path.dirname(SOURCE)]
SANITIZE = ["-fsanitize=address,undefined", "-fno-sanitize-recover=all"]
SECONDS = 10  # of the processor: more than what all of it needs
GARBAGE_HISTORIES = 100

OTHERWISE = {"<": ["<=", ">"], "<=": ["<", "=="], ">": [">=", "<"], ">=": [">", "=="], "==": ["!="], "!=": ["=="], "&&": ["||"],
             "||": ["&&"], "+": ["-"], "-": ["+"], "*": ["+"], "%": ["/"], "/": ["%"], "+=": ["-="], "-=": ["+="],
             "true": ["false"], "false": ["true"], "<<": [">>"], ">>": ["<<"], "|": ["&"], "&": ["|"], "!": [""]}
TOKEN = re.compile(r"/\*.*?\*/|\"(?:[^\"\\]|\\.)*\"|^#.*?$|(?P<char>'(?:[^'\\]|\\.)')|(?P<number>\b(?:0x[0-9a-fA-F]+|\d+)\b)"
                   r"|(?P<operator>->|\+\+|<<=|>>=|<<|>>|<=|>=|==|!=|&&|\|\||\+=|-=|\|=|/=|\b(?:true|false)\b|[-+*/%<>!&|])",
                   re.S | re.M)
STATEMENT = re.compile(r"^ +(?!(?:return [^;]*|static|const|enum|struct|unsigned|bool|size_t|uint\w+|case|default|else|if|for|while|switch)"
                       r"\b[^=;(]*[ ;])[a-z*][^;{}]*;|^ +return\b[^;{}]*;", re.M)

Mutant = collections.namedtuple("Mutant", "line start end text")


def is_binary(text, start):
    """Is the sign at this place between two terms, not before one?"""
    before = text[:start].rstrip()
    return before[-1:].isalnum() or before[-1:] in ")]_'"


def replacements(text, found):
    """What may stand in place of a token."""
    token = found.group()
    if found.group("char"):
        code = ord(token[1:-1]) if len(token) == 3 else None
        return [str(code + by) for by in (1, -1)] if code else []
    if found.group("number"):
        value = int(token, 0)
        return [str(value + 1)] + ([str(value - 1)] if value else [])
    if not found.group("operator") or (token in "+-*&" and not is_binary(text, found.start())):
        return []
    return OTHERWISE.get(token, [])


def mutants(text):
    """All of them, in the order of their lines."""
    found = []
    for token in TOKEN.finditer(text):
        found += [(token.start(), token.end(), other) for other in replacements(text, token)]
    masked = re.sub(r"/\*.*?\*/", lambda comment: re.sub(r"[^\n]", " ", comment.group()), text, flags=re.S)
    for statement in STATEMENT.finditer(masked):
        start = statement.start() + len(statement.group()) - len(statement.group().lstrip())
        found.append((start, statement.end(), ";" + "\n" * statement.group().count("\n")))
    return [Mutant(text.count("\n", 0, start) + 1, start, end, other) for start, end, other in sorted(found)]


def made(*command):
    return subprocess.run(command, capture_output=True, check=False).returncode == 0


def bound_time():
    resource.setrlimit(resource.RLIMIT_CPU, (SECONDS, SECONDS))


def ends(command, given):
    """How a program ends over a file of histories."""
    with open(given, "rb") as file:
        return subprocess.run(command, stdin=file, stdout=subprocess.DEVNULL, stderr=subprocess.DEVNULL, preexec_fn=bound_time,
                              env=dict(os.environ, ASAN_OPTIONS="detect_leaks=0"), check=False).returncode


class Judge:
    """What every mutant is linked with and run over, made once in a folder."""

    def __init__(self, options, folder):
        self.options, self.folder = options, folder
        with open(SOURCE, encoding="ascii") as file:
            self.text = file.read()
        self.calls = self.compiled("calls", [options.compiler, *FLAGS, "-DLINKED"])
        self.garbage = self.compiled("garbage", ["gcc", *FLAGS, *SANITIZE])
        self.plain = self.assembly(self.text, "plain")
        cases = [(data, number) for number, (_, data, _) in enumerate(compare.vectors.all_cases())]
        histories = [(generate.generate(seed), seed) for seed in range(1, max(options.count, GARBAGE_HISTORIES) + 1)]
        self.histories = self.written("histories", histories[:20] + cases + histories[20:options.count])
        self.near = self.written("near", histories[:GARBAGE_HISTORIES])

    def path(self, name):
        return os.path.join(self.folder, name)

    def compiled(self, name, words):
        path = self.path(name + ".o")
        subprocess.run([*words, "-c", "-o", path, os.path.join(HERE, name + ".c")], check=True)
        return path

    def written(self, name, histories):
        with open(self.path(name), "wb") as file:
            file.writelines(generate.framed(data, seed) for data, seed in histories)
        return self.path(name)

    def assembly(self, text, name):
        """The machine code in words, or None where the text is no program."""
        source, path = self.path(name + ".c"), self.path(name + ".s")
        with open(source, "w", encoding="ascii") as file:
            file.write('#line 1 "independent.c"\n' + text)  # which an assertion names
        if not made(self.options.compiler, *FLAGS, "-S", "-o", path, source):
            return None
        with open(path, encoding="latin-1") as file:
            return "".join(line for line in file if not line.lstrip().startswith((".file", ".ident")))

    def judge(self, number, mutant):
        """One of: no program, the same, found, broken, found by garbage, survives."""
        name = "mutant-%d" % number
        code = self.assembly(self.text[:mutant.start] + mutant.text + self.text[mutant.end:], name)
        if code is None or code == self.plain:
            return "no program" if code is None else "the same"
        return self.judge_program(name)

    def judge_program(self, name):
        program = self.path(name)
        if not made(self.options.compiler, "-static", "-o", program, program + ".s", self.calls, self.options.archive):
            return "no program"
        status = ends([*self.options.runner, program], self.histories)
        if status != 0:
            return "found" if status == 1 else "broken"
        if not made("gcc", *FLAGS, *SANITIZE, "-o", program, program + ".c", self.garbage):
            return "no program"
        return "survives" if ends([program], self.near) == 0 else "found by garbage"

    def judged(self, work):
        number, mutant = work
        judgement = self.judge(number, mutant)
        for ending in ("", ".c", ".s"):
            if os.path.exists(self.path("mutant-%d%s" % (number, ending))):
                os.remove(self.path("mutant-%d%s" % (number, ending)))
        return mutant, judgement


def shown(text, mutant):
    """The line of a mutant, with what is altered in it."""
    begin = text.rfind("\n", 0, mutant.start) + 1
    end = text.find("\n", mutant.start)
    old, rest = text[mutant.start:mutant.end], text[mutant.end:end] if mutant.end < end else ""
    new = mutant.text.strip()
    return "%d: %s[%s -> %s]%s" % (mutant.line, text[begin:mutant.start].lstrip(), " ".join(old.split()), new, rest)


def main():
    parser = argparse.ArgumentParser(description=__doc__.splitlines()[0])
    parser.add_argument("--archive", required=True)
    parser.add_argument("--compiler", default="gcc")
    parser.add_argument("--runner", nargs="*", default=[])
    parser.add_argument("--count", type=int, default=300)
    parser.add_argument("--jobs", type=int, default=1)
    parser.add_argument("--lines", type=lambda text: {int(line) for line in text.split(",")})
    options = parser.parse_args()
    began, counts = time.monotonic(), collections.Counter()
    with tempfile.TemporaryDirectory(dir=compare.BUILD) as folder:
        judge = Judge(options, folder)
        if judge.judge_program("plain") != "survives":
            sys.exit("mutants: the control does not hold: the unaltered program is %s" % judge.judge_program("plain"))
        work = [one for one in enumerate(mutants(judge.text)) if not options.lines or one[1].line in options.lines]
        with multiprocessing.Pool(options.jobs) as pool:
            for done, (mutant, judgement) in enumerate(pool.imap(judge.judged, work), 1):
                counts[judgement] += 1
                if judgement == "survives":
                    print(shown(judge.text, mutant), flush=True)
                if done % 100 == 0:
                    print("%d of %d, %.0f s" % (done, len(work), time.monotonic() - began), file=sys.stderr, flush=True)
    print("mutants: %d, %s, %.0f s" % (len(work), ", ".join("%d %s" % (counts[way], way) for way in sorted(counts)),
                                       time.monotonic() - began))
    return 1 if counts["survives"] or not work else 0


if __name__ == "__main__":
    sys.exit(main())
