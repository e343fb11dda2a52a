#!/usr/bin/env python3
"""Runs drat-forward and reference_drat.cpp on many small inputs, right and damaged ones, and compares lines and statuses.

    python3 bench/compare_drat.py [RUNS]

The inputs are the examples, small pigeonhole proofs, and random formulas with steps of which most are accepted, with many
deletions, also past a clash of what follows from the live clauses alone; as text and in the binary form, with and without
--strict, --trace and --keep-units, and with a few tokens, lines or bytes changed. Where a proof is verified, all assignments
of the formula's variables are tried, and none may satisfy it. DRAT_FORWARD names another program than bin/drat-forward,
REFERENCE_DRAT another than bench/out/reference_drat. The inputs depend on RUNS alone.
"""

import glob
import os
import sys

from common import TOP, compare, damaged, pigeonhole, program, read
from generate import drat_steps, in_text

PIECES = [b"\x00", b"\x01", b"\x02\x00", b"\x80\x00", b"\x84\x00", b"\x80\x80\x01", b"\xff", b"\xff" * 9 + b"\x7f", b"a", b"d"]
PIECES += [b"A", b"a\x00", b"d\x00", b"a\x04\x00", b"\xff\xff\xff\xff\x01", b"\x80\x80\x80\x80\x02", b"\x80" * 12 + b"\x01"]


# ---- Both forms of a proof. A step is a deletion or not, and its literals.


def steps_of(text):
    """The whole steps of a proof as text."""
    steps, words = [], []
    for line in text.split(b"\n"):
        for word in [] if line.startswith(b"c") else line.split():
            words.append(word)
            if word == b"0":
                is_deletion = words[0] == b"d"
                steps.append((is_deletion, [int(it) for it in words[is_deletion:-1]]))
                words = []
    return steps


def in_binary(steps):
    data = bytearray()
    for is_deletion, literals in steps:
        data += b"d" if is_deletion else b"a"
        for literal in literals:
            number = 2 * abs(literal) + (literal < 0)
            while number > 127:
                data.append(128 + number % 128)
                number //= 128
            data.append(number)
        data.append(0)
    return bytes(data)


def changed_bytes(rng, data):
    """A binary proof with one thing changed."""
    at = rng.randrange(len(data) + 1)
    kind = rng.randrange(4)
    if kind == 0:
        return data[:at]
    if kind == 1:
        return data[:at] + data[at + 1 :]
    return data[:at] + rng.choice(PIECES) + data[at + kind - 2 :]


# ---- Random formulas, with steps of which most are accepted


def closure(clauses, assumed):
    """What unit propagation makes true from the assumed literals, by passes over the clauses. It may have both signs."""
    true, size = set(assumed), -1
    while len(true) > size:
        size = len(true)
        for clause in clauses:
            left = [it for it in clause if -it not in true]
            if len(left) < 2:
                true.update(left or clause)
    return true


def clashes(clauses, assumed):
    true = closure(clauses, assumed)
    return any(-it in true for it in true)


def is_kept(clauses, clause):
    """Whether a deletion of a live clause is ignored with --keep-units."""
    true = closure(clauses, [])
    return any(it in true and all(-other in true for other in clause if other != it) for it in clause)


def has_rup(clauses, literals):
    return clashes(clauses, [-it for it in literals])


def has_rat(clauses, literals):
    candidates = [clause - {-it} for it in literals[:1] for clause in clauses if -it in clause]
    return bool(literals) and all(has_rup(clauses, [*literals, *rest]) for rest in candidates)


def some_literals(rng, variables, sizes):
    return [rng.choice((1, -1)) * rng.randint(1, variables) for _ in range(rng.choice(sizes))]


def addition(rng, live, variables, sizes):
    """The first one of some clauses that has RUP, or RAT; where there is none, the last one."""
    if rng.random() < 0.1 and has_rup(live, []):
        return []
    has = has_rup if rng.randrange(3) else has_rat
    for _ in range(40):
        literals = some_literals(rng, variables + 1, sizes)
        if live and rng.randrange(2):
            known = sorted(rng.choice(live))
            literals += known[: rng.randint(1, len(known))]
        if has(live, literals):
            break
    return literals


def deletion(rng, live, variables, sizes):
    """A clause that is alive, short ones above all, or now and then another one."""
    if not live or rng.random() < 0.1:
        return some_literals(rng, variables, [0, *sizes])
    literals = list(min(rng.choices(live, k=2), key=len))
    rng.shuffle(literals)
    return literals + literals[: rng.random() < 0.05]


def planted_clause(rng, variables):
    """A clause by which one of the lower variables follows from others, or that they bring to two literals."""
    half = (variables + 1) // 2
    first, second, third = (rng.randint(1, half) for _ in range(3))
    free = [rng.choice((1, -1)) * rng.randint(half, variables) for _ in range(2)]
    return rng.choice(([first], [-first, second], [-first, second], [-first, -second, third], [-first, *free], [-first, *free]))


def clashing_clauses(rng, variables):
    """Clauses that clash where nothing is assumed, by a unit clause or two."""
    first, second = some_literals(rng, variables, [2])
    implied = [-first, second]
    return rng.choice(([[first], [-first]], [[first], implied, [-second]], [[first], implied, [-first, -second]]))


def walk(rng, keeps_units):
    """A formula, and the steps of a proof over it."""
    variables, most_steps = rng.choice(((rng.randint(1, 9), 40), (rng.randint(10, 15), 200)))
    sizes = rng.choice(([1, 2, 2], [1, 2, 2, 2, 2, 3, 3], [1, 2, 3, 3, 3], [2, 3, 3, 3]))
    is_planted, count = rng.randrange(4) > 0, rng.randint(1, 3 * variables)
    clauses = [planted_clause(rng, variables) if is_planted else some_literals(rng, variables, sizes) for _ in range(count)]
    if rng.randrange(4) == 0:
        clauses += clashing_clauses(rng, variables)
        rng.shuffle(clauses)
    live, steps = [frozenset(it) for it in clauses], []
    for _ in range(rng.randint(0, most_steps)):
        is_deletion = rng.random() < 0.4
        literals = (deletion if is_deletion else addition)(rng, live, variables, sizes)
        steps.append((is_deletion, literals))
        if not is_deletion and not literals:
            break
        if not is_deletion:
            live.append(frozenset(literals))
        elif frozenset(literals) in live and not (keeps_units and is_kept(live, literals)):
            live.remove(frozenset(literals))
    lines = (" ".join(map(str, [*clause, 0])) + "\n" for clause in clauses)
    return f"p cnf {variables} {len(clauses)}\n{''.join(lines)}".encode(), steps


# ---- The inputs


def sources(room):
    """Formulas and proofs as text that are changed."""
    pairs = []
    for proof in sorted(glob.glob(f"{TOP}/examples/*.drat")):
        if os.path.getsize(proof) < 1000:
            for formula in ("e", "g", "copies", "empty_clause", "comments"):
                pairs.append((read(f"{TOP}/examples/{formula}.cnf"), read(proof)))
    for holes in (1, 2, 2, 2, 3):
        made = [read(name) for name in pigeonhole(room, holes)]
        pairs += [(made[0], in_text(drat_steps(*made)))] * 12
    return pairs


def inputs(rng, room):
    pairs = sources(room)
    while True:
        flags = [flag for flag in ("--trace", "--strict", "--keep-units") if rng.randrange(2)]
        if rng.randrange(3):
            formula, steps = walk(rng, "--keep-units" in flags)
            proof = in_text(steps)
        else:
            formula, proof = rng.choice(pairs)
            steps = steps_of(proof)
        if rng.randrange(3) == 0:
            formula, proof = damaged(rng, formula, in_binary(steps), changed_bytes)
            flags.append("--binary")
        elif rng.randrange(2):
            formula, proof = damaged(rng, formula, proof)
        yield formula, proof, flags


if __name__ == "__main__":
    programs = program("DRAT_FORWARD", "bin/drat-forward"), program("REFERENCE_DRAT", "bench/out/reference_drat")
    sys.exit(compare(sys.argv[1:], programs, inputs))
