#!/usr/bin/env python3
"""Runs lrat-check and reference.cpp on many small inputs, right and damaged ones, and compares lines and statuses.

    python3 bench/compare.py [RUNS]

The inputs are the examples and small pigeonhole proofs, with a few tokens, lines or bytes changed. Where a proof is
verified, all assignments of the formula's variables are tried, and none may satisfy it. LRAT_CHECK names another program
than bin/lrat-check, REFERENCE another than bench/out/reference. The changes depend on RUNS alone.
"""

import glob
import os
import sys

from common import TOP, compare, damaged, pigeonhole, program, read


def sources(room):
    """The pairs of formula and proof that are changed."""
    pairs = []
    for proof in sorted(glob.glob(f"{TOP}/examples/*.lrat")):
        if os.path.getsize(proof) < 1000:
            for formula in ("e", "g", "group_with_hints", "empty_clause", "comments"):
                pairs.append((f"{TOP}/examples/{formula}.cnf", proof))
    for holes in (1, 2, 2, 2, 3):
        pairs += [pigeonhole(room, holes)] * 12
    return [(read(formula), read(proof)) for formula, proof in pairs]


def inputs(rng, room):
    pairs = sources(room)
    while True:
        formula, proof = damaged(rng, *rng.choice(pairs))
        yield formula, proof, ["--trace"] * rng.randrange(2)


if __name__ == "__main__":
    sys.exit(compare(sys.argv[1:], (program("LRAT_CHECK", "bin/lrat-check"), program("REFERENCE", "bench/out/reference")), inputs))
