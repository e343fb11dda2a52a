#!/usr/bin/env python3
"""Writes the pigeonhole formula of HOLES holes, and a DRAT proof with listed sets (for `--pr`) that it has no model.

    python3 pigeonhole_pr.py HOLES FORMULA PROOF

The formula says that HOLES + 1 pigeons sit in HOLES holes, no two in the same one. The proof is that of Heule, Kiesl and
Biere, *Short proofs without new variables* (2017), and needs no new variable. Where the last hole is m, pigeons i and m + 1
may be exchanged: whoever sits in m may be taken to be pigeon m + 1. So of each other pigeon i and each hole k below m the
clause "not (i in m and m + 1 in k)" is redundant, by the set that puts i into k and m + 1 into m. From these clauses
follows that no pigeon but m + 1 sits in m, which leaves the formula with one hole and one pigeon less.
"""

import sys


def variable(pigeon, hole, holes):
    """Returns the variable which says that the pigeon sits in the hole; both are counted from 1."""
    return (pigeon - 1) * holes + hole


def formula(holes):
    """Returns the clauses: each pigeon sits somewhere, and no two sit in the same hole."""
    pigeons = range(1, holes + 2)
    clauses = [[variable(p, h, holes) for h in range(1, holes + 1)] for p in pigeons]
    for h in range(1, holes + 1):
        clauses += [[-variable(p, h, holes), -variable(q, h, holes)] for p in pigeons for q in range(1, p)]
    return clauses


def proof(holes):
    """Returns the added clauses, each with the set that it lists."""
    steps = []
    for m in range(holes, 0, -1):
        def at(pigeon, hole):
            return variable(pigeon, hole, holes)
        for i in range(1, m + 1):
            for k in range(1, m):
                clause = [-at(i, m), -at(m + 1, k)]
                steps.append((clause, [-at(i, m), -at(m + 1, k), at(i, k), at(m + 1, m)]))
            # pigeon m + 1 is left no hole but m
            steps.append(([-at(i, m)], []))
    steps.append(([], []))
    return steps


def main():
    holes = int(sys.argv[1])
    clauses = formula(holes)
    with open(sys.argv[2], "w", encoding="ascii") as file:
        file.write(f"p cnf {holes * (holes + 1)} {len(clauses)}\n")
        for clause in clauses:
            file.write(" ".join(map(str, clause)) + " 0\n")
    with open(sys.argv[3], "w", encoding="ascii") as file:
        for clause, witness in proof(holes):
            file.write(" ".join(map(str, clause + witness + [0])) + "\n")


main()
