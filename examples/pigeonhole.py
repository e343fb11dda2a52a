#!/usr/bin/env python3
"""Writes the pigeonhole formula of HOLES holes, and an LRAT proof that it has no model.

    python3 pigeonhole.py HOLES FORMULA PROOF

The formula says that HOLES + 1 pigeons sit in HOLES holes, no two in the same one. Its proofs by resolution alone are
of exponential size. This one follows Cook (1976): new variables say where the pigeons sit once the last hole is taken away
and whoever sat there moves to the place of the last pigeon. They are introduced by clauses that are RAT, and not RUP. From
them the same formula with one hole less is derived by RUP steps, and so on down to one hole.

Hints are found by unit propagation, and only those that the conflict needs are written. What is no longer needed is
deleted. The output depends on HOLES alone.
"""

import sys


class Proof:
    """The live clauses by identifier, and the steps that are written."""

    def __init__(self, file):
        self.file = file
        self.live = {}
        self.holding = {}
        self.top = 0

    def input(self, clause):
        self.top += 1
        self.live[self.top] = clause
        for literal in clause:
            self.holding.setdefault(literal, set()).add(self.top)
        return self.top

    def hints(self, assumed, among):
        """Returns the identifiers of clauses, in order, whose unit propagation from the assumed literals ends in a conflict,
        or None where there is none. Only the clauses `among` are used."""
        reason = {literal: None for literal in assumed}
        order, waiting, last = [], list(among), None
        if any(-literal in reason for literal in reason):
            return []
        while last is None:
            later = []
            for key in waiting:
                left = [it for it in self.live[key] if -it not in reason]
                if not left:
                    last = key
                    break
                if len(left) > 1:
                    later.append(key)
                elif left[0] not in reason:
                    reason[left[0]] = key
                    order.append(key)
            if last is None and len(later) == len(waiting):
                return None
            waiting = later
        # from the conflict back, what it needs
        needed, open_keys = {last}, [last]
        while open_keys:
            for literal in self.live[open_keys.pop()]:
                key = reason.get(-literal)
                if key is not None and key not in needed:
                    needed.add(key)
                    open_keys.append(key)
        return [key for key in order if key in needed and key != last] + [last]

    def write(self, clause, hints):
        words = [self.top + 1, *clause, 0, *hints, 0]
        self.file.write(" ".join(map(str, words)) + "\n")
        return self.input(clause)

    def rup(self, clause, among):
        found = self.hints([-it for it in clause], among)
        assert found is not None, f"no conflict for {clause}"
        return self.write(clause, found)

    def rat(self, clause, among):
        """Adds a clause by RAT on its first literal: each candidate has a group."""
        pivot, words = clause[0], []
        for key in sorted(self.holding.get(-pivot, ())):
            rest = [-it for it in self.live[key] if it != -pivot]
            found = self.hints([*(-it for it in clause), *rest], among)
            assert found is not None, f"no conflict for {clause} with {key}"
            words += [-key, *found]
        return self.write(clause, words)

    def delete(self, keys):
        for key in keys:
            for literal in self.live.pop(key):
                self.holding[literal].discard(key)
        self.file.write(" ".join(map(str, [self.top, "d", *keys, 0])) + "\n")


def sits(first, holes):
    """The variables of a level: pigeon i sits in hole j, both from 0."""
    return [[first + i * holes + j for j in range(holes)] for i in range(holes + 1)]


def formula(at, holes):
    """The clauses of a level: those of the pigeons, and then those of the holes."""
    for i in range(holes + 1):
        yield ("pigeon", i), at[i]
    for j in range(holes):
        for i in range(holes + 1):
            for k in range(i + 1, holes + 1):
                yield ("hole", i, k, j), [-at[i][j], -at[k][j]]


def one_hole_less(proof, at, named, holes, variables):
    """Derives the formula of one hole less, and deletes this level. `named` has the identifiers of this level's clauses."""
    last = holes - 1  # the hole that goes away, and `holes` the pigeon that does
    new = sits(variables + 1, holes - 1)
    meant = {}
    for i in range(holes):
        for j in range(holes - 1):
            here, moved, home = at[i][j], at[i][last], at[holes][j]
            meant[i, j] = (
                proof.rat([new[i][j], -here], ()),
                proof.rat([new[i][j], -moved, -home], ()),
                proof.rat([-new[i][j], here, moved], ()),
                proof.rat([-new[i][j], here, home], ()),
            )
    then = {}
    for i in range(holes):
        among = [meant[i, j][k] for j in range(holes - 1) for k in (0, 1)]
        among += [named["pigeon", i], named["pigeon", holes], named["hole", i, holes, last]]
        then["pigeon", i] = proof.rup(list(new[i]), among)
    for j in range(holes - 1):
        for i in range(holes):
            for k in range(i + 1, holes):
                among = [*meant[i, j][2:], *meant[k, j][2:], named["hole", i, k, j], named["hole", i, k, last]]
                among += [named["hole", i, holes, j], named["hole", k, holes, j]]
                step = proof.rup([-at[i][j], -new[k][j]], among)
                then["hole", i, k, j] = proof.rup([-new[i][j], -new[k][j]], [step, *among])
                proof.delete([step])
    proof.delete(sorted([*named.values(), *(key for keys in meant.values() for key in keys)]))
    return new, then


def main(words):
    holes = int(words[0])
    at = sits(1, holes)
    variables = holes * (holes + 1)
    clauses = list(formula(at, holes))
    with open(words[2], "w", encoding="ascii") as file:
        proof = Proof(file)
        named = {name: proof.input(list(clause)) for name, clause in clauses}
        with open(words[1], "w", encoding="ascii") as it:
            it.write(f"c {holes + 1} pigeons in {holes} holes, by pigeonhole.py\n")
            it.write(f"p cnf {variables} {len(clauses)}\n")
            for _, clause in clauses:
                it.write(" ".join(map(str, clause)) + " 0\n")
        while holes > 1:
            at, named = one_hole_less(proof, at, named, holes, variables)
            variables += holes * (holes - 1)
            holes -= 1
        proof.rup([], list(named.values()))


if __name__ == "__main__":
    if len(sys.argv) != 4 or not sys.argv[1].isdigit() or int(sys.argv[1]) < 1:
        sys.exit("usage: pigeonhole.py HOLES FORMULA PROOF")
    main(sys.argv[1:])
