#!/usr/bin/env python3
"""Tries the harmless twins of the gate's must-fail edits: the prover must accept each.

    run.py [CRATE ...]      without crates: all of them

A must-fail edit shows something only where the prover refuses it for what it does, and not for
where it stands. So beside each edit of the gate, crates/CRATE/must-fail/NAME.edit, stands a twin,
tests/twins/CRATE/NAME.edit: it replaces lines of the same by others that mean what they meant.
tests/wrong/check.py sees that they fit. Each is tried in a copy of the tree, outside of it, where rt
begins with what it has proved of the same files. Exit status 0: all were accepted."""

import glob
import os
import shutil
import subprocess
import sys
import tempfile

sys.path.insert(0, os.path.join(os.path.dirname(os.path.abspath(__file__)), "..", "wrong"))

from edits import applied  # noqa: E402

os.chdir(os.path.join(os.path.dirname(os.path.abspath(__file__)), "..", ".."))
LEFT_OUT = shutil.ignore_patterns("out", "must-fail")


def refusal(twin, folder):
    """None if the prover accepts the twin in the crate's folder, else what it said first."""
    texts, misfits = applied(twin, folder)
    if misfits:
        return misfits[0]
    for name, text in texts.items():
        with open(name, "w", encoding="utf-8") as file:
            file.write(text)
    done = subprocess.run(["rt", "check"], cwd=folder, capture_output=True, text=True, check=False)
    for name in texts:
        shutil.copy(os.path.join("crates", os.path.basename(folder), os.path.relpath(name, folder)), name)
    if done.returncode == 0:
        return None
    return next((line for line in (done.stdout + done.stderr).split("\n") if "error" in line), "it was refused")


def main(crates):
    twins = [path for path in sorted(glob.glob("tests/twins/*/*.edit")) if not crates or path.split("/")[2] in crates]
    refused = 0
    with tempfile.TemporaryDirectory() as copy:
        shutil.copytree("crates", os.path.join(copy, "crates"), ignore=LEFT_OUT)
        for name in filter(os.path.isfile, ("crates.txt", "HANDLES")):
            shutil.copy(name, copy)
        for twin in twins:
            why = refusal(twin, os.path.join(copy, "crates", twin.split("/")[2]))
            refused += why is not None
            print("%s: %s" % (twin, why or "accepted"), flush=True)
    print("twins: %d of %d accepted" % (len(twins) - refused, len(twins)))
    return 1 if refused or not twins else 0


if __name__ == "__main__":
    sys.exit(main(sys.argv[1:]))
