#!/usr/bin/env python3
"""Compares model-check with a plain checker of models on small random inputs, right and damaged ones.

    python3 bench/compare_models.py TIMES [SEED]

The plain checker follows docs/FORMATS.md and docs/RULES.md, holds its inputs whole and shares no code with model-check.
MODEL_CHECK names the program; it is bin/model-check otherwise.
"""

import random
import subprocess
import sys
import tempfile

from common import program, write

MOST = 268435455
WORDS = [b"s", b"v", b"c", b"p", b"cnf", b"SATISFIABLE", b"UNSATISFIABLE", b"UNKNOWN", b"x", b"\x00"]
NUMBERS = [b"0", b"1", b"-1", b"2", b"-2", b"3", b"+1", b"01", b"-0", b"268435455", b"-268435456", b"9" * 23]
SPACES = [b" ", b"\n", b"\t", b"\r\n", b"  ", b"\n\n"]


class Fault(Exception):
    """What is wrong, with its line and column."""

    def __str__(self):
        text, line, column = self.args
        return f"{line}:{column}: {text}"


def lines_of(data):
    """The tokens of each line that is no comment, each with its place, and the place of the line's end."""
    for number, line in enumerate(data.split(b"\n"), 1):
        tokens, column = [], 1
        if not line.startswith(b"c"):
            for part in line.replace(b"\t", b" ").replace(b"\r", b" ").split(b" "):
                if part:
                    tokens.append((part, number, column))
                column += len(part) + 1
        yield tokens, (number, len(line) + 1)


def number_of(token):
    """The number that a token writes, or None."""
    digits = token[1:] if token.startswith(b"-") else token
    if token == b"0" or (digits.isdigit() and not digits.startswith(b"0")):
        return int(token)
    return None


def claim_of(data):
    """The listed literals of a solver's output."""
    listed, has_status, is_ended, end = set(), False, False, (1, 1)
    for tokens, end in lines_of(data):
        if not tokens:
            continue
        first, *place = tokens[0]
        if first == b"s" and has_status:
            raise Fault("second status line", *place)
        if first not in (b"s", b"v"):
            raise Fault("bad line", *place)
        if first == b"s":
            has_status = True
            if len(tokens) == 1:
                raise Fault("bad line", *end)
            status, *place = tokens[1]
            if status in (b"UNSATISFIABLE", b"UNKNOWN"):
                raise Fault("no model claimed", *place)
            if status != b"SATISFIABLE":
                raise Fault("bad line", *place)
            if len(tokens) > 2:
                raise Fault("bad line", *tokens[2][1:])
            continue
        for token, *place in tokens[1:]:
            number = number_of(token)
            if number is None:
                raise Fault("bad token", *place)
            if abs(number) > MOST:
                raise Fault("literal too large", *place)
            if is_ended:
                raise Fault("token after the end of the model", *place)
            if -number in listed:
                raise Fault("literal and its complement", *place)
            is_ended = number == 0
            listed |= {number} - {0}
    if not has_status:
        raise Fault("no status line", *end)
    if not is_ended:
        raise Fault("unterminated model", *end)
    return listed


def header_of(tokens, end):
    """The header's two numbers."""
    counts = []
    for at in range(5):
        if at == len(tokens):
            if at == 4:
                break
            raise Fault("bad header", *end)
        token, *place = tokens[at]
        number = None if token.startswith(b"-") else number_of(token)
        is_right = token == (b"p", b"cnf")[at] if at < 2 else at < 4 and number is not None
        if not is_right:
            raise Fault("bad header", *place)
        if at >= 2:
            if number > (MOST, 4294967295)[at - 2]:
                raise Fault("number too large", *place)
            counts.append(number)
    return counts


def clauses_of(data):
    """The clauses of a formula, one by one."""
    header, complete, clause, end = None, 0, [], (1, 1)
    for tokens, end in lines_of(data):
        if header is None:
            if tokens:
                header = header_of(tokens, end)
            continue
        for token, *place in tokens:
            number = number_of(token)
            if number is None:
                raise Fault("bad token", *place)
            if abs(number) > MOST:
                raise Fault("number too large", *place)
            if complete == header[1]:
                raise Fault("too many clauses", *place)
            if abs(number) > header[0]:
                raise Fault("literal out of range", *place)
            if number:
                clause.append(number)
            else:
                yield clause
                complete, clause = complete + 1, []
    if header is None:
        raise Fault("bad header", *end)
    if clause:
        raise Fault("unterminated clause", *end)
    if complete < header[1]:
        raise Fault("too few clauses", *end)


def report(formula, output):
    """The line that decides, and the status."""
    try:
        listed = claim_of(output)
    except Fault as fault:
        is_refused = fault.args[0] in ("no model claimed", "literal and its complement")
        return f"c output {fault}", 1 if is_refused else 2
    count = 0
    try:
        for count, clause in enumerate(clauses_of(formula), 1):
            if not listed.intersection(clause):
                return f"c clause {count} is not satisfied", 1
    except Fault as fault:
        return f"c formula {fault}", 2
    return f"c clauses {count}", 0


def damaged(data, source):
    """The bytes with some taken away, put in or cut off; often as they were."""
    for _ in range(source.choice((0, 0, 0, 1, 1, 2))):
        at = source.randrange(len(data) + 1)
        kind = source.randrange(4)
        if kind == 0:
            data = data[:at] + data[at + 1 :]
        elif kind == 1:
            data = data[:at]
        else:
            words = WORDS + NUMBERS
            put = source.choice(SPACES) + source.choice(words) + source.choice(SPACES) if kind == 2 else source.choice(words + SPACES)
            data = data[:at] + put + data[at:]
    return data


def inputs(source):
    """A small formula, and a solver's output that is often a model of it."""
    count = source.randint(1, 4)
    model = [source.choice((v, -v)) for v in range(1, count + 1)]
    clauses = [[source.choice((1, -1)) * source.randint(1, count) for _ in range(source.randint(1, 3))] for _ in range(source.randint(0, 4))]
    for clause in clauses:
        if source.random() < 0.9:
            clause[0] = source.choice(model)
    formula = f"p cnf {count} {len(clauses)}\n" + "".join(" ".join(map(str, clause)) + " 0\n" for clause in clauses)
    values = [v for v in model if source.random() < 0.9] + [0]
    lines = ["s SATISFIABLE\n"]
    while values:
        width = source.randint(0, 3)
        lines.append("v " + " ".join(map(str, values[:width])) + "\n")
        values = values[width:]
    if source.random() < 0.3:
        lines.append(lines.pop(0))
    return damaged(formula.encode(), source), damaged("".join(lines).encode(), source)


def main(words):
    if len(words) not in (1, 2) or not all(word.isdigit() for word in words):
        sys.exit(__doc__)
    checker = program("MODEL_CHECK", "bin/model-check")
    source, seen = random.Random(int(words[1]) if len(words) == 2 else 1), {}
    with tempfile.TemporaryDirectory() as room:
        for _ in range(int(words[0])):
            formula, output = inputs(source)
            write(f"{room}/formula.cnf", formula)
            ran = subprocess.run([checker, f"{room}/formula.cnf"], input=output, stdout=subprocess.PIPE)
            line, status = report(formula, output)
            sentence = "s MODEL VERIFIED" if status == 0 else "s MODEL NOT VERIFIED"
            if (ran.stdout.decode(), ran.returncode) != (f"{line}\n{sentence}\n", status):
                sys.exit(f"differ: {formula!r} {output!r}: {ran.stdout!r}, {ran.returncode}, and not {line!r}, {status}")
            seen[status] = seen.get(status, 0) + 1
    print("alike:", ", ".join(f"{seen[status]} with status {status}" for status in sorted(seen)))


if __name__ == "__main__":
    main(sys.argv[1:])
