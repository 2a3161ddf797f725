#!/usr/bin/env python3
"""Tries planted mistakes that the gate leaves to whoever changes their crate: the prover must refuse each.

usage: tools/planted.py [CRATE..]   tries those of these crates, or of all; the last line is 'N refused, M not'

A crate with a mistake in its must-fail/ is proved once more by the gate. Those in planted/CRATE/ are of the crates whose
proofs are the longest. Each has the form of a must-fail edit, and .ci/docs.py looks that it still can be made.
"""

import os
import re
import shutil
import subprocess
import sys

TOP = os.path.dirname(os.path.dirname(os.path.abspath(__file__)))
PLANTED = os.path.join(TOP, "planted")


def tried(crate):
    """What `rt must-fail` says of the crate with its planted mistakes beside those of the gate, and how many they are."""
    edits = sorted(os.listdir(os.path.join(PLANTED, crate)))
    folder = os.path.join(TOP, "crates", crate, "must-fail")
    is_new = not os.path.isdir(folder)
    os.makedirs(folder, exist_ok=True)
    try:
        for edit in edits:
            shutil.copyfile(os.path.join(PLANTED, crate, edit), os.path.join(folder, edit))
        ran = subprocess.run(["rt", "must-fail", crate], cwd=TOP, capture_output=True, text=True, check=False)
    finally:
        for edit in edits:
            os.remove(os.path.join(folder, edit))
        if is_new:
            os.rmdir(folder)
    return ran.stdout + ran.stderr, edits


def main(names):
    refused, others = 0, 0
    for crate in names or sorted(os.listdir(PLANTED)):
        said, edits = tried(crate)
        print(said, end="", flush=True)
        for edit in edits:
            is_refused = re.search(rf"must-fail {crate}/{re.escape(edit)}: refused, as it must be", said)
            refused, others = refused + bool(is_refused), others + (not is_refused)
    print(f"{refused} refused, {others} not")
    return 1 if others else 0


if __name__ == "__main__":
    sys.exit(main(sys.argv[1:]))
