#!/usr/bin/env python3
"""Shows that each mutant of tests/mutants and of crates/*/must-fail can still be made: its old texts stand exactly once in their
files, each over what the pairs before it made. No prover runs, so this is no word on whether it is refused: see tests/mutants.sh.

The last line is "N passed, M failed".
"""

import glob
import os
import sys

from mutant import mutated, pairs_of

ROOT = os.path.dirname(os.path.dirname(os.path.abspath(__file__)))


def crate_of(mutant):
    """The name of the crate that the mutant changes."""
    folder = os.path.dirname(mutant)
    if os.path.basename(folder) == "must-fail":
        folder = os.path.dirname(folder)
    return os.path.basename(folder)


def why_not(mutant):
    """Why the mutant can't be made; nothing where it can."""
    pairs = pairs_of(mutant)
    if not pairs:
        return "it has no old and new text"
    return mutated(f"{ROOT}/crates/{crate_of(mutant)}", pairs)[1]


def main():
    failed = 0
    mutants = sorted(glob.glob(f"{ROOT}/tests/mutants/*/*") + glob.glob(f"{ROOT}/crates/*/must-fail/*"))
    for mutant in mutants:
        why = why_not(mutant)
        if why:
            failed += 1
            print(f"FAILED: {os.path.relpath(mutant, ROOT)} can't be made: {why}")
    print(f"{len(mutants) - failed} passed, {failed} failed")
    return 0 if mutants and not failed else 1


if __name__ == "__main__":
    sys.exit(main())
