#!/usr/bin/env python3
"""Writes the inputs that run.sh measures with. The output depends on the words of the command alone.

    python3 generate.py chain VARIABLES WIDTH STEPS FORMULA PROOF
        A chain of implications 1 -> 2 -> .. -> VARIABLES with both ends fixed against each other, and a proof of about STEPS
        steps: each adds a clause that leaps over WIDTH implications, by as many hints, and 1000 of them are alive at a time.
    python3 generate.py formula BYTES FORMULA
        A formula of clauses with three literals, of about that many bytes.
    python3 generate.py literals BYTES FORMULA
        A header, and then the literals of one clause that no 0 ends. Reading it stores no clause, and ends with a fault.
    python3 generate.py model BYTES FORMULA OUTPUT
        A formula as above of which each clause has a true literal where the even variables are true and the odd ones are
        false, and a solver's output that lists this model.
    python3 generate.py leaps VARIABLES WIDTH STEPS FORMULA PROOF
        Implications 1 -> 2 -> .. -> VARIABLES -> -1, and back to 1 by way of as many other variables. A DRAT proof of about
        STEPS steps: each second one adds a clause that leaps over WIDTH implications, and the next one deletes it.
    python3 generate.py units VARIABLES FORMULA PROOF
        The unit clause 1 and implications 1 -> 2 -> .. -> VARIABLES. A DRAT proof that adds the unit clauses that follow, one
        by one. After each it deletes the implication that its literal came from and a clause that no literal came from, and
        after each hundredth one the unit clause before it.
    python3 generate.py drat FORMULA LRAT PROOF
        The additions and deletions of an LRAT proof with a step a line, as a DRAT proof.
"""

import sys

WINDOW = 1000


def chain(variables, width, steps, formula, proof):
    with open(formula, "w", encoding="ascii") as it:
        it.write(f"p cnf {variables} {variables + 1}\n1 0\n")
        # the implication from v has the identifier v + 1
        it.writelines(f"-{v} {v + 1} 0\n" for v in range(1, variables))
        it.write(f"-{variables} 0\n")
    first = top = variables + 1
    with open(proof, "w", encoding="ascii") as it:
        for step in range(steps):
            v = 1 + step * 7919 % (variables - width)
            top += 1
            hints = " ".join(str(u + 1) for u in range(v, v + width))
            it.write(f"{top} -{v} {v + width} 0 {hints} 0\n")
            if top - first > WINDOW:
                it.write(f"{top} d {top - WINDOW} 0\n")
        # the literals themselves, one after the other
        unit, v = 1, 1
        while v < variables:
            far = min(v + width, variables)
            top += 1
            hints = " ".join(str(u + 1) for u in range(v, far))
            it.write(f"{top} {far} 0 {unit} {hints} 0\n")
            unit, v = top, far
        it.write(f"{top + 1} 0 {unit} {variables + 1} 0\n")


def numbers(seed):
    """Numbers below 2^31 (a linear congruence, so that every machine has the same)."""
    while True:
        seed = (seed * 1103515245 + 12345) % 2**31
        yield seed


VARIABLES = 1000000


def literals(seed):
    for n in numbers(seed):
        literal = 1 + (n >> 8) % 2**22 % VARIABLES
        yield -literal if n >> 30 else literal


def clauses(size, formula, source, last=lambda literal: literal):
    """Clauses of three literals, of which the last one is changed so."""
    text, written = [], 0
    while written < size:
        line = f"{next(source)} {next(source)} {last(next(source))} 0\n"
        text.append(line)
        written += len(line)
    with open(formula, "w", encoding="ascii") as it:
        it.write(f"p cnf {VARIABLES} {len(text)}\n")
        it.writelines(text)


def one_clause(size, formula):
    source = literals(2)
    with open(formula, "w", encoding="ascii") as it:
        written = it.write(f"p cnf {VARIABLES} 1\n")
        while written < size:
            written += it.write(" ".join(str(next(source)) for _ in range(10)) + "\n")


def model_of(number):
    return number if number % 2 == 0 else -number


def model(size, formula, output):
    clauses(size, formula, literals(3), lambda literal: model_of(abs(literal)))
    with open(output, "w", encoding="ascii") as it:
        it.write("s SATISFIABLE\n")
        for first in range(1, VARIABLES + 1, 10):
            it.write("v " + " ".join(str(model_of(v)) for v in range(first, first + 10)) + "\n")
        it.write("v 0\n")


def leap_words(words):
    variables, width, steps = map(int, words)
    if not 0 < width < variables:
        sys.exit("generate.py: WIDTH is from 1 to VARIABLES - 1")
    return variables, width, steps


# ---- DRAT. A step is a deletion or not, and its literals.


def in_text(steps):
    lines = (" ".join(map(str, ["d"] * is_deletion + literals + [0])) + "\n" for is_deletion, literals in steps)
    return "".join(lines).encode()


def write_both(clauses, steps, formula, proof):
    variables = max(abs(literal) for clause in clauses for literal in clause)
    with open(formula, "wb") as it:
        it.write(f"p cnf {variables} {len(clauses)}\n".encode() + in_text((False, clause) for clause in clauses))
    with open(proof, "wb") as it:
        it.write(in_text(steps))


def implications(literals):
    return [[-before, after] for before, after in zip(literals, literals[1:])]


def leaps(variables, width, steps):
    """The clauses of the formula, and the steps."""
    there, back = range(1, variables + 1), range(variables + 1, 2 * variables + 1)
    clauses = implications([*there, -1, *back, 1])
    taken = []
    for step in range(steps // 2):
        v = 1 + step * 7919 % (variables - width)
        taken += [(False, [-v, v + width]), (True, [-v, v + width])]
    return clauses, taken + [(False, [-1]), (False, [])]


def units(variables):
    """The clauses of the formula, and the steps. That the last variable is true is refuted over two further ones."""
    last, one, other = range(variables, variables + 3)
    clauses = [[1]] + implications(range(1, variables + 1)) + [[v, v + 1] for v in range(1, variables)]
    clauses += [[-last, one * sign, other * second] for sign in (1, -1) for second in (1, -1)]
    steps = []
    for v in range(2, variables + 1):
        steps += [(False, [v]), (True, [1 - v, v]), (True, [v - 1, v])]
        if v % 100 == 0:
            steps.append((True, [v - 1]))
    return clauses, steps + [(False, [one]), (False, [])]


def drat_steps(formula, lrat):
    """The steps of an LRAT proof with a step a line, without identifiers and hints. Both are given as bytes."""
    lines = [line for line in formula.split(b"\n") if line[:1] not in (b"c", b"p", b"")]
    live = {number: list(map(int, line.split()[:-1])) for number, line in enumerate(lines, 1)}
    steps = []
    for line in lrat.split(b"\n")[:-1]:
        identifier, *words = line.split()
        if words[0] == b"d":
            steps += [(True, live.pop(int(it))) for it in words[1:-1]]
        else:
            live[int(identifier)] = list(map(int, words[: words.index(b"0")]))
            steps.append((False, live[int(identifier)]))
    return steps


def drat(formula, lrat, proof):
    with open(formula, "rb") as one, open(lrat, "rb") as other:
        steps = drat_steps(one.read(), other.read())
    with open(proof, "wb") as it:
        it.write(in_text(steps))


def main(words):
    if len(words) == 6 and words[0] == "chain":
        chain(*leap_words(words[1:4]), *words[4:])
    elif len(words) == 3 and words[0] == "formula":
        clauses(int(words[1]), words[2], literals(1))
    elif len(words) == 3 and words[0] == "literals":
        one_clause(int(words[1]), words[2])
    elif len(words) == 4 and words[0] == "model":
        model(int(words[1]), words[2], words[3])
    elif len(words) == 6 and words[0] == "leaps":
        write_both(*leaps(*leap_words(words[1:4])), *words[4:])
    elif len(words) == 4 and words[0] == "units":
        write_both(*units(int(words[1])), *words[2:])
    elif len(words) == 4 and words[0] == "drat":
        drat(*words[1:])
    else:
        sys.exit(__doc__)


if __name__ == "__main__":
    main(sys.argv[1:])
