#!/usr/bin/env python3
"""Shows that the clause which a mutant names is what refuses it.

    tests/refused_by.py LOG [FOLDER]    the mutants of crates/*/must-fail, or those of FOLDER/*

A mutant says in a line `# refused by: FUNCTION.CLAUSE` which clause its wrong body doesn't meet. A clause without a name, and all
of a function where one proof has all, is called `ensures`; `loop` is the invariant of a loop whose body is wrong, `invariant`
that of a type, `requires` the condition of a call that is made wrongly. A mutant for a law names a lemma of the law's proof, as
FILE.LEMMA.

LOG is what rt ci or rt must-fail wrote: of each refusal it tells the first goal that stays open, or where a proof isn't one any
more. Only an open goal shows something, or for a law a lemma: a function's proof may not fit although the clause holds. So a
mutant has `search` in the place that doesn't fit, or the proof is a `search` or a `grind` as it stands, and what is open there is
what the wrong body breaks; or it takes the text out, and the prover is asked afresh. Where LOG cuts the goal's name short, the
clause has to begin as what is left of it. A mutant that LOG doesn't tell of is left out. One that names no clause fails.

The last line is "N passed, M failed".
"""

import glob
import os
import re
import sys

ROOT = os.path.dirname(os.path.dirname(os.path.abspath(__file__)))
SAYS = "# refused by: "
TOLD = re.compile(r"rt: must-fail (\w+/\S+\.edit): refused, as it must be(.*)")
OPEN = re.compile(r": note: (\S+\.rt):(\d+):\d+: (.*)")
SOUGHT = re.compile(r": \./proofs/(?:\S+/)?(\w+)/(?:Answers|Invariants)\.antt:\d+:\d+: error: `([^`]*)`: `(?:search|grind)`")
LEMMA = re.compile(r": \./proofs/(?:\S+/)?([A-Z]\w*)\.antt:\d+:\d+: error: (?:\d+ declarations? that depends? on )?`([^`]*)`?")
FUNCTION = re.compile(r"\s*(?:pub(?:\(\w+\))? )?(?:const )?fn (\w+)")


def told_in(log):
    """What the log tells of each refusal, by crate and mutant."""
    with open(log, encoding="utf-8", errors="replace") as lines:
        found = (TOLD.match(line.rstrip("\n")) for line in lines)
        return {one.group(1): one.group(2) for one in found if one}


def said_by(mutant):
    """The clause that the mutant names, if it names one."""
    with open(mutant, encoding="utf-8") as lines:
        return next((line.strip().removeprefix(SAYS) for line in lines if line.startswith(SAYS)), "")


def function_at(path, number):
    """The name of the function that has this line."""
    with open(path, encoding="utf-8") as text:
        lines = text.read().split("\n")
    at = number - 1
    while lines[at].strip().startswith(("#[", "//")):
        at += 1
    while at > 0 and not FUNCTION.match(lines[at]):
        at -= 1
    return FUNCTION.match(lines[at]).group(1)


def clause_of(goal):
    """The clause that the goal's name has."""
    if "-clause-" in goal:
        return goal.rsplit("-clause-", 1)[1].split("-")[0]
    kinds = [kind for kind in ("loop", "invariant", "requires") if re.match(rf"(.*-)?{kind}", goal)]
    # any other goal, as that a sum fits, is no clause
    return kinds[0] if kinds else "ensures" if goal.startswith("returns") else goal


def refuser(folder, told):
    """The clause whose goal is told to stay open, or a law's lemma, and whether it is told whole; nothing where none is."""
    sought = SOUGHT.match(told)
    if sought:
        return f"{sought.group(1)}.{clause_of(sought.group(2))}", True
    lemma = LEMMA.match(told)
    if lemma and lemma.group(1) not in ("Answers", "Invariants"):
        return f"{lemma.group(1)}.{lemma.group(2)}", True
    place = OPEN.match(told)
    if not place:
        return "", True
    path, number, rest = place.groups()
    # the name of a goal stands in brackets, behind other words that are quoted
    goal, is_whole = (re.findall(r"\(`([^`]*)(`?)", rest) or re.findall(r"`([^`]*)(`?)", rest) or [("", "")])[0]
    function = function_at(f"{folder}/{path}", int(number))
    is_known = is_whole or "-clause-" in goal
    return f"{function}.{clause_of(goal) if is_known else ''}", bool(is_whole)


def main(log, folder):
    told = told_in(log)
    mutants = {f"{path.split('/')[-2 if folder else -3]}/{os.path.basename(path)}": path
             for path in glob.glob(f"{folder}/*/*.edit" if folder else f"{ROOT}/crates/*/must-fail/*.edit")}
    passed = failed = 0
    for name, path in sorted(mutants.items()):
        if name not in told:
            continue
        said = said_by(path)
        found, is_whole = refuser(f"{ROOT}/crates/{name.split('/')[0]}", told[name])
        well = bool(found) and (said == found if is_whole else said.startswith(found))
        passed, failed = passed + well, failed + (not well)
        if not well:
            print(f"FAILED: {name} says {said or 'nothing'}, and is refused by {found or told[name]}")
    print(f"{passed} passed, {failed} failed")
    return 0 if passed and not failed else 1


if __name__ == "__main__":
    sys.exit(main(sys.argv[1], sys.argv[2] if len(sys.argv) > 2 else None))
