#!/usr/bin/env python3
"""Runs each row of the table "Beside DRAT-trim" in docs/RULES.md, with our programs and with DRAT-trim's.

What ours have to say comes from the rules, and what DRAT-trim's say is written down as it was found. A row of the page without
a trial here is a failure, and so is a trial whose row the page has no more. DRAT_FORWARD and LRAT_CHECK name our programs; they
are those in bin/ otherwise. `drat-trim` and its lrat-check, which may have the name drat-trim-lrat-check, are those of the
folder SOLVERS or of the PATH; where one isn't there, that is said, and its runs are left out. The last line is "N passed, M
failed".
"""

import os
import re
import subprocess
import sys
import tempfile
from collections import namedtuple

TOP = os.path.dirname(os.path.dirname(os.path.abspath(__file__)))
TITLE = "## Beside DRAT-trim"

# the row's first cell; formula and proof; of ours and of theirs: the options, the status, None for any, and a pattern of the
# output
Trial = namedtuple("Trial", "row formula proof ours theirs")
Run = namedtuple("Run", "options status pattern")


def cnf(header, *clauses):
    """A formula of these clauses."""
    return "\n".join([f"p cnf {header}", *(f"{clause} 0" for clause in clauses), ""])


def steps(*lines):
    """A proof of these steps."""
    return "".join(f"{line} 0\n" for line in lines)


def ours(status, pattern, *options):
    """A run of our program, which says why in the line before the verdict."""
    verdict = "s VERIFIED" if status == 0 else "s NOT VERIFIED"
    return Run(options, status, f"(?m)^c {pattern}\n{verdict}$")


def theirs(status, pattern, *options):
    """A run of DRAT-trim's program."""
    return Run(options, status, f"(?m){pattern}")


# every assignment of two variables makes one of these false
SQUARE = ("1 2", "-1 2", "1 -2", "-1 -2")
PLAIN = cnf("2 4", *SQUARE)
REFUTED = ("2", "")
SATISFIABLE = cnf("2 1", "1 2")
# no resolvent of clause 5 with the clause 3 has RUP
WRONG = cnf("4 5", *SQUARE, "-3 4")
# 1 and 2 follow, and 5 and 6 then have no values; 4 stands for both
NAMED = cnf("8 8", "1 7", "1 -7", "2 8", "2 -8", "-1 -2 5 6", "-1 -2 5 -6", "-1 -2 -5 6", "-1 -2 -5 -6")
# without the clauses 1 and -1 4, propagation finds no conflict once 2 is true
UNIT = cnf("3 5", "1", "-1 2 3", "-1 2 -3", "-1 -2 3", "-1 -2 -3")
REASON = cnf("4 6", "1", "-1 4", "-4 2 3", "-4 2 -3", "-4 -2 3", "-4 -2 -3")
# 1 is true by its own clause, and so -4 1, though it is a reason too, is not what propagation had it from
SECOND = cnf("4 7", "1", "-1 4", "-4 1", "-4 2 3", "-4 2 -3", "-4 -2 3", "-4 -2 -3")
# steps of LRAT that refute PLAIN, and what is longer by one clause or two
LRAT = ("5 2 0 1 2", "6 0 5 3 4")
AFTER_5 = ("7 2 0 1 2", "8 0 7 3 4")
AFTER_6 = ("8 2 0 1 2", "9 0 8 3 4")
RAT = cnf("4 6", *SQUARE, "-3 1 2", "-3 1 2 4")
BLOCKED = cnf("4 5", *SQUARE, "-3 -4")

YES, NO = "^s VERIFIED$", "^s NOT VERIFIED$"
LRAT_YES, LRAT_NO = "^c VERIFIED$", "^c NOT VERIFIED$"


def verified(count):
    """What ours say in the line before the verdict."""
    return f"steps {count} peak [0-9]+"


DRAT_TRIM = [
    Trial("a wrong step, or candidate of RAT, that nothing needs", WRONG, steps("3", *REFUTED),
          [ours(1, "step 1: neither RUP nor RAT on 3")], [theirs(0, YES), theirs(1, NO, "-f")]),
    Trial("a wrong step, or candidate of RAT, that nothing needs", WRONG, steps("3", "-3 1", ""),
          [ours(1, "step 1: neither RUP nor RAT on 3")], [theirs(0, YES), theirs(1, NO, "-f")]),
    Trial("RAT on another literal than the first", NAMED, steps("-1 4 -2", "1", "2", "-4 5", ""),
          [ours(1, "step 1: neither RUP nor RAT on -1")], [theirs(0, YES), theirs(0, YES, "-f")]),
    Trial("RAT on another literal than the first", NAMED, steps("4 -1 -2", "1", "2", "-4 5", ""),
          [ours(0, verified(5))], [theirs(0, YES)]),
    Trial("live clauses that propagation refutes", PLAIN, steps("2"),
          [ours(1, "end: no empty clause")], [theirs(0, YES), theirs(0, YES, "-f")]),
    Trial("live clauses that propagation refutes", cnf("1 2", "1", "-1"), "",
          [ours(1, "end: no empty clause")], [theirs(0, YES)]),
    Trial("an empty clause in the formula", cnf("2 2", "1 2", ""), "", [ours(0, verified(0))], [theirs(1, YES)]),
    Trial("a unit deletion", UNIT, steps("d 1", *REFUTED),
          [ours(1, "step 3: not RUP"), ours(0, verified(3), "--keep-units")], [theirs(0, YES), theirs(0, YES, "-f")]),
    Trial("a unit deletion", REASON, steps("d -1 4", *REFUTED),
          [ours(1, "step 3: not RUP"), ours(0, verified(3), "--keep-units")],
          [theirs(0, "^c ignoring deletion instruction", "-v"), theirs(0, YES, "-f")]),
    Trial("one that its propagation didn't use", SECOND, steps("d -4 1", *REFUTED),
          [ours(0, "3 add rup\nc steps 3 peak 18", "--keep-units", "--trace"),
           Run(("--keep-units", "--trace"), 0, "(?m)^c 1 ignored$")],
          [theirs(0, r"\A(?!(.|\n)*ignoring deletion)", "-v")]),
    Trial("a deletion of an absent clause", PLAIN, steps("d 1 -1", *REFUTED),
          [ours(0, verified(3)), ours(1, "step 1: clause is not alive", "--strict")],
          [theirs(0, YES), theirs(0, "does not occur"), theirs(80, r"\A(?!(.|\n)*^s )", "-W")]),
    Trial("a tautology, a literal twice †", PLAIN, steps("1 -1", *REFUTED),
          [ours(0, verified(3))], [theirs(0, YES), theirs(0, YES, "-f"), theirs(0, YES, "-W")]),
    Trial("a tautology, a literal twice †", cnf("2 5", "1 -1", *SQUARE), steps(*REFUTED),
          [ours(0, verified(2))], [theirs(0, YES), theirs(0, YES, "-W")]),
    Trial("a tautology, a literal twice †", PLAIN, steps("2 2", ""),
          [ours(0, verified(2))], [theirs(0, YES), theirs(80, "duplicate literal", "-W")]),
    Trial("a header that its formula doesn't fit †", cnf("2 6", *SQUARE), steps(*REFUTED),
          [ours(2, "formula 6:1: too few clauses")], [theirs(None, "WARNING: 2 clauses less than expected")]),
    Trial("a header that its formula doesn't fit †", cnf("2 3", *SQUARE), steps(*REFUTED),
          [ours(2, "formula 5:1: too many clauses")], [theirs(1, NO)]),
    Trial("a header that its formula doesn't fit †", cnf("1 4", *SQUARE), steps(*REFUTED),
          [ours(2, "formula 2:3: literal out of range")], [theirs(0, r"\A(?!(.|\n)*^s )")]),
    Trial("`01`, a word, a step without `0` †", PLAIN, steps("1 2", "02", ""),
          [ours(2, "proof 2:1: bad token")], [theirs(0, YES)]),
    Trial("`01`, a word, a step without `0` †", PLAIN, "1 2 0\n1 2 0\n2 x 0 -1\n0\n0\n",
          [ours(2, "proof 3:3: bad token")], [theirs(0, YES)]),
    Trial("`01`, a word, a step without `0` †", PLAIN, "2 0\n1",
          [ours(2, "proof 2:2: unterminated step")], [theirs(0, YES)]),
    Trial("a wrong tag †", PLAIN, bytes.fromhex("610400 620200 6100"),
          [ours(2, "proof byte 4: bad tag", "--binary")],
          [theirs(0, "wrong binary prefix, stop reading proof", "-i"), theirs(0, YES, "-i")]),
    Trial("a wrong tag †", PLAIN, bytes.fromhex("620200 610400 6100"),
          [ours(2, "proof byte 1: bad tag", "--binary")], [theirs(1, NO, "-i")]),
    Trial("a binary number whose last group is empty †", PLAIN, bytes.fromhex("61840000 6100"),
          [ours(2, "proof byte 2: bad number", "--binary")], [theirs(0, YES, "-i")]),
]

LRAT_CHECK = [
    Trial("a header that its formula doesn't fit †", cnf("2 9", *SQUARE), steps(*LRAT),
          [ours(2, "formula 6:1: too few clauses")], [theirs(0, LRAT_YES)]),
    Trial("a header that its formula doesn't fit †", cnf("2 3", *SQUARE), steps(*LRAT),
          [ours(2, "formula 5:1: too many clauses")], [theirs(0, LRAT_YES)]),
    Trial("a header that its formula doesn't fit †", cnf("1 4", *SQUARE), steps(*LRAT),
          [ours(2, "formula 2:3: literal out of range")], [theirs(0, LRAT_YES)]),
    Trial("an empty clause without a conflict", SATISFIABLE, steps("2 0"),
          [ours(1, "step 1: no conflict")], [theirs(0, LRAT_YES)]),
    Trial("an empty clause without a conflict", cnf("2 2", "1", "2"), steps("3 0 1 2"),
          [ours(1, "step 1: no conflict")], [theirs(0, LRAT_YES)]),
    Trial("an identifier that does not rise", PLAIN, steps("9 2 0 1 2", "6 0 9 3 4"),
          [ours(1, "step 2: identifier is not above all earlier ones")], [theirs(0, LRAT_YES)]),
    Trial("an identifier that does not rise", PLAIN, steps("1 2 0 1 2", "6 0 1 3 4"),
          [ours(1, "step 1: identifier is not above all earlier ones")], [theirs(0, LRAT_YES)]),
    Trial("a deletion of an absent identifier", PLAIN, steps(LRAT[0], "5 d 77", LRAT[1]),
          [ours(1, "step 2: unknown id 77")], [theirs(0, LRAT_YES), theirs(0, "clause 77 is already deleted")]),
    Trial("groups out of order", RAT, steps("7 3 0 -5 1 -6 1", *AFTER_6), [ours(0, verified(3))], [theirs(0, LRAT_YES)]),
    Trial("groups out of order", RAT, steps("7 3 0 -6 1 -5 1", *AFTER_6), [ours(0, verified(3))], [theirs(1, LRAT_NO)]),
    Trial("an unnamed candidate that conflicts at once", BLOCKED, steps("6 3 4 0", *AFTER_5),
          [ours(0, verified(3))], [theirs(1, LRAT_NO)]),
    Trial("an unnamed candidate that conflicts at once", BLOCKED, steps("6 3 4 0 -5", *AFTER_5),
          [ours(0, verified(3))], [theirs(0, LRAT_YES)]),
    Trial("candidates that are all deleted", RAT, steps("6 d 5 6", "7 3 0", *AFTER_6),
          [ours(0, verified(4))], [theirs(1, LRAT_NO)]),
    Trial("a tautology without hints", PLAIN, steps("5 1 -1 0", "6 2 0 1 2", "7 0 6 3 4"),
          [ours(0, verified(3))], [theirs(1, LRAT_NO)]),
    Trial("a tautology without hints", cnf("3 4", *SQUARE), steps("5 3 -3 0", "6 2 0 1 2", "7 0 6 3 4"),
          [ours(0, verified(3))], [theirs(0, LRAT_YES)]),
    Trial("a unit hint with its literal twice", PLAIN, steps("5 2 2 0 1 2", LRAT[1]),
          [ours(0, verified(2))], [theirs(1, LRAT_NO)]),
    Trial("a wrong step after the empty clause", PLAIN, steps(*LRAT, "7 1 0 1"),
          [ours(0, verified(2))], [theirs(1, LRAT_NO)]),
    Trial("an empty clause in the formula", cnf("2 2", "1 2", ""), "", [ours(0, verified(0))], [theirs(1, LRAT_NO)]),
    Trial("an empty clause in the formula", cnf("2 2", "1 2", ""), steps("3 0 2"),
          [ours(0, verified(0))], [theirs(0, LRAT_YES)]),
    Trial("a word in the proof", PLAIN, f"{steps(LRAT[0])}x\n{steps(LRAT[1])}",
          [ours(2, "proof 2:1: bad token")], [theirs(1, LRAT_NO)]),
    Trial("a word in the proof", PLAIN, f"{steps(*LRAT)}x\n", [ours(0, verified(2))], [theirs(0, LRAT_YES)]),
    # what both refuse or read, and the page doesn't mark as ours
    Trial(None, cnf("3 5", *SQUARE, "1 3"), steps("6 2 0 1 5 2", "7 0 6 3 4"),
          [ours(1, "step 1: hint 5 is not unit")], [theirs(1, LRAT_NO)]),
    Trial(None, PLAIN, steps("5 2 0 1 1 2", LRAT[1]), [ours(0, verified(2))], [theirs(0, LRAT_YES)]),
    Trial(None, PLAIN, steps("5 2 0 1 2 77", LRAT[1]), [ours(0, verified(2))], [theirs(0, LRAT_YES)]),
    Trial(None, PLAIN, steps(LRAT[0], "777 d 1", LRAT[1]), [ours(0, verified(3))], [theirs(0, LRAT_YES)]),
    Trial(None, RAT, steps("7 3 0 -5 1 -5 1 -6 1", *AFTER_6),
          [ours(1, "step 1: clause 5 is named twice")], [theirs(-6, "Assertion")]),
]


def find(names, usage):
    """The first program of these names in SOLVERS or on the PATH whose usage has the words, or None."""
    for folder in [*filter(None, [os.environ.get("SOLVERS")]), *os.environ.get("PATH", "").split(":")]:
        for path in (os.path.join(folder, name) for name in names):
            if os.access(path, os.X_OK):
                said = subprocess.run([path], stdin=subprocess.DEVNULL, capture_output=True, text=True, errors="replace",
                                      timeout=60)
                if usage in said.stdout:
                    return os.path.abspath(path)
    print(f"skipped: {names[0]} is not installed")
    return None


def holds(program, run, row, room):
    """Whether the run on the room's files ends and says what it has to."""
    command = [program, "f.cnf", "proof", *run.options]
    done = subprocess.run(command, cwd=room, stdin=subprocess.DEVNULL, capture_output=True, text=True, errors="replace",
                          timeout=60)
    said = (done.stdout + done.stderr).replace("\r", "")
    if run.status in (done.returncode, None) and re.search(run.pattern, said):
        return True
    print(f"FAILED: {row}: {' '.join(command)}: status {done.returncode}, and not {run.status}, or no {run.pattern!r}:\n{said}")
    return False


def tried(trials, own, other):
    """Whether each run of these trials holds."""
    with tempfile.TemporaryDirectory() as room:
        for trial in trials:
            proof = trial.proof.encode() if isinstance(trial.proof, str) else trial.proof
            for name, content in ("f.cnf", trial.formula.encode()), ("proof", proof):
                with open(os.path.join(room, name), "wb") as file:
                    file.write(content)
            for program, runs in (own, trial.ours), (other, trial.theirs):
                yield from (holds(program, run, trial.row, room) for run in runs if program)


def rows():
    """The first cells of the page's table, heads left out."""
    with open(f"{TOP}/docs/RULES.md", encoding="utf-8") as page:
        section = page.read().split(f"\n{TITLE}\n")[1].split("\n## ")[0]
    cells = [line.split("|")[1].strip() for line in section.splitlines() if line.startswith("| ")]
    return [cell for cell in cells if cell not in ("DRAT", "**LRAT**")]


def covered():
    """Whether each row of the page has a trial, and each trial a row."""
    for name, trials in ("docs/RULES.md", rows()), ("this file", [t.row for t in DRAT_TRIM + LRAT_CHECK if t.row]):
        others = rows() if name == "this file" else [t.row for t in DRAT_TRIM + LRAT_CHECK]
        for row in sorted(set(trials)):
            if row not in others:
                print(f"FAILED: only {name} has: {row}")
            yield row in others


def main():
    own = {name: os.path.realpath(os.environ.get(name, f"{TOP}/bin/{name.lower().replace('_', '-')}"))
           for name in ("DRAT_FORWARD", "LRAT_CHECK")}
    for path in own.values():
        if not os.access(path, os.X_OK):
            print(f"FAILED: there is no program {path}\n0 passed, 1 failed")
            return 1
    drat_trim = find(["drat-trim"], "usage: drat-trim")
    lrat_check = find(["drat-trim-lrat-check", "lrat-check"], "FILE2.lrat")
    held = [*covered(), *tried(DRAT_TRIM, own["DRAT_FORWARD"], drat_trim), *tried(LRAT_CHECK, own["LRAT_CHECK"], lrat_check)]
    print(f"{sum(held)} passed, {len(held) - sum(held)} failed")
    return 0 if all(held) else 1


if __name__ == "__main__":
    sys.exit(main())
