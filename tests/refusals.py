#!/usr/bin/env python3
"""Refuses each allocation of a run in turn, and shows that the run ends as it should.

Each program is run on the rows below, with its first allocation refused, with its second, and so on until none is left to
refuse. Each run writes its whole report with its status, or it writes a number of whole lines from the report's beginning, says
on standard error that it is out of memory, and has status 4. Wrong words have status 6 or 4, and nothing is written.

Below the programs it does the same with calls that may be refused memory, which crates/test_allocations makes: what they leave is as
it has to be. Calls that take no memory are made in a run that asks for as much as one without them.

The programs run as they were compiled, with tests/allocations.c before the C library: it refuses the Nth allocation of a run.

LRAT_CHECK, DRAT_FORWARD and MODEL_CHECK name the programs; they are those in bin/ otherwise. ALLOCATIONS names that of
crates/test_allocations. CC names a C compiler, which is cc otherwise. The last line is "N passed, M failed".
"""

import os
import subprocess
import sys
import tempfile

from allocations import ALLOCATIONS, compile_shim

ROOT = os.path.dirname(os.path.dirname(os.path.abspath(__file__)))
TOOLS = {
    "lrat-check": os.environ.get("LRAT_CHECK") or "bin/lrat-check",
    "drat-forward": os.environ.get("DRAT_FORWARD") or "bin/drat-forward",
    "model-check": os.environ.get("MODEL_CHECK") or "bin/model-check",
}
OUT_OF_MEMORY, USAGE = 4, 6
# More allocations than any of these runs has.
MOST = 5000

E = "p cnf 2 4\n1 2 0\n-1 2 0\n1 -2 0\n-1 -2 0\n"
G = "p cnf 2 1\n1 2 0\n"
EIGHT = "p cnf 3 8\n1 2 3 0\n1 2 -3 0\n1 -2 3 0\n1 -2 -3 0\n-1 2 3 0\n-1 2 -3 0\n-1 -2 3 0\n-1 -2 -3 0\n"
MODELS = "p cnf 2 2\n1 -2 0\n2 0\n"

E_LINES = ["c formula 2 variables 4 clauses", "c steps 2 peak 9", "s VERIFIED"]
DEFINITION = [
    "c formula 2 variables 1 clauses",
    "c 1 add rat",
    "c 2 add rat",
    "c end: no empty clause",
    "s NOT VERIFIED",
]
SET_LINES = ["c formula 2 variables 1 clauses", "c 1 add pr", "c end: no empty clause", "s NOT VERIFIED"]
EIGHT_LINES = [
    "c formula 3 variables 8 clauses",
    "c 1 add rup",
    "c 2 add rup",
    "c 3 delete",
    "c 4 add rup",
    "c 5 add rup",
    "c steps 5 peak 27",
    "s VERIFIED",
]

CLASH = "p cnf 2 3\n1 0\n-1 0\n1 2 0\n"
KEPT_LINES = [
    "c formula 2 variables 3 clauses",
    "c 1 ignored",
    "c 2 add rup",
    "c steps 2 peak 4",
    "s VERIFIED",
]

GROWN = b"d 1 2 0\n-2 3 0\nd -2 3 0\n0\n"
GROWN_LINES = [
    "c formula 2 variables 3 clauses",
    "c 1 ignored",
    "c 2 add rup",
    "c 3 ignored",
    "c 4 add rup",
    "c steps 4 peak 6",
    "s VERIFIED",
]

# The tool with its flags, the formula, the second input, the report and the status.
ROWS = {
    "two clauses are added": ("drat-forward", [], E, b"2 0\n0\n", E_LINES, 0),
    "two clauses are added by hints": ("lrat-check", [], E, b"5 2 0 1 2 0\n6 0 5 3 4 0\n", E_LINES, 0),
    "a definition is added": ("drat-forward", ["--trace"], G, b"3 -1 0\n-3 1 0\n", DEFINITION, 1),
    "a definition is added by groups": ("lrat-check", ["--trace"], G, b"2 3 -1 0 0\n3 -3 1 0 -2 0\n", DEFINITION, 1),
    "two clauses are added in binary": ("drat-forward", ["--binary"], E, b"a\x04\x00a\x00", E_LINES, 0),
    "a model is met": ("model-check", [], MODELS, b"s SATISFIABLE\nv 1 2 0\n", ["c clauses 2", "s MODEL VERIFIED"], 0),
    "a clause is added by a set": ("drat-forward", ["--trace", "--pr"], G, b"-1 -1 2 0\n", SET_LINES, 1),
    "a reason past a clash is kept": ("drat-forward", ["--trace", "--keep-units"], CLASH, b"d 1 2 0\n0\n", KEPT_LINES, 0),
    "more follows past a clash": ("drat-forward", ["--trace", "--keep-units"], CLASH, GROWN, GROWN_LINES, 0),
    "a clause is deleted": ("drat-forward", ["--trace"], EIGHT, b"1 2 0\n1 0\nd 1 2 0\n2 0\n0\n", EIGHT_LINES, 0),
}

# The proofs in DRAT list no set and delete no clause that a literal follows by: with the options for both they are answered
# alike.
ROWS |= {
    f"{name}, by other rules": (tool, [*flags, "--pr", "--keep-units"], *inputs)
    for name, (tool, flags, *inputs) in ROWS.items()
    if tool == "drat-forward" and not {"--pr", "--keep-units"} & set(flags)
}

# Words that are refused.
WRONG_WORDS = {
    "no words": [],
    "a request for help": ["--help"],
    "an unknown flag": ["--fast", "examples/e.cnf"],
    "three names": ["a", "b", "c"],
}

# Calls of which one is refused: of a store, of identifiers, of a trail, an assumption, steps and clauses of a session, and the
# readers.
CALLS = [
    "refused_insert",
    "refused_insert_into_slots",
    "refused_bind",
    "refused_bind_far",
    "refused_reserve",
    "refused_assume_of_scan",
    "refused_assume_of_watch",
    "refused_root_reason_of_scan",
    "refused_root_reason_of_watch",
    "refused_step_by_scan",
    "refused_step_by_watch",
    "refused_step_with_a_set",
    "refused_step_by_hints",
    "refused_input_of_scan",
    "refused_input_by_hints",
    "refused_drat",
    "refused_binary",
    "refused_lrat",
    "refused_formula",
]

# Calls that take no memory, by what they are calls of.
QUIET = [
    "literals",
    "buffers",
    "lines",
    "source",
    "scanner",
    "readers",
    "trail",
    "store",
    "slots",
    "ids",
    "far_ids",
    "scan",
    "watch",
    "assumption",
    "sessions",
    "walk",
    "model",
]


class Ended:
    """How a run ended, and how many allocations it asked for."""

    def __init__(self, ran, asked):
        self.status = ran.returncode
        self.written = ran.stdout.decode("latin-1")
        self.told = ran.stderr.decode("latin-1")
        self.asked = asked


def run(room, words, refused):
    """Runs with this allocation refused."""
    counted = f"{room}/count"
    settings = {"LD_PRELOAD": f"{room}/allocations.so", "COUNT_INTO": counted, "REFUSED": str(refused)}
    ran = subprocess.run(words, env={**os.environ, **settings}, stdin=subprocess.DEVNULL, stdout=subprocess.PIPE,
                         stderr=subprocess.PIPE, timeout=60, check=False)
    with open(counted, encoding="ascii") as text:
        asked = int(text.readline())
    os.remove(counted)
    return Ended(ran, asked)


def is_told(told, status):
    """Whether standard error says why a proof has this status: nothing of a verified one, and of the others that they end too early."""
    if status == 0:
        return told == ""
    return told.count("\n") == 1 and told.endswith(": the proof ends without the empty clause\n")


def judge_report(ended, tool, lines, status):
    """What is wrong with a run of a row, if anything is."""
    whole = "".join(f"{line}\n" for line in lines)
    if (ended.status, ended.written) == (status, whole) and is_told(ended.told, status):
        return None
    if ended.status != OUT_OF_MEMORY:
        return f"status {ended.status} with {ended.written!r}"
    beginnings = ["".join(f"{line}\n" for line in lines[:n]) for n in range(len(lines) + 1)]
    if ended.written not in beginnings:
        return f"no beginning of the report in whole lines: {ended.written!r}"
    if ended.told != f"{tool}: out of memory\n":
        return f"on standard error: {ended.told!r}"
    return None


def judge_words(ended, tool):
    """What is wrong with a run on wrong words, if anything is."""
    if ended.written:
        return f"written: {ended.written!r}"
    if ended.status == OUT_OF_MEMORY:
        return None if ended.told == f"{tool}: out of memory\n" else f"on standard error: {ended.told!r}"
    if ended.status != USAGE or not ended.told:
        return f"status {ended.status} with {ended.told!r} on standard error"
    return None


def refuse_each(room, words, judge):
    """Refuses each allocation in turn, up to a run that meets no refusal. Returns how many runs had one and how many of these
    said so, by their status."""
    refusals = 0
    for refused in range(1, MOST):
        ended = run(room, words, refused)
        fault = judge(ended)
        if fault is not None:
            raise ValueError(f"allocation {refused} is refused: {fault}")
        if ended.asked < refused:
            if ended.status == OUT_OF_MEMORY:
                raise ValueError("out of memory, and no allocation was refused")
            return refused - 1, refusals
        refusals += ended.status == OUT_OF_MEMORY
    raise ValueError(f"more than {MOST} allocations")


def row_case(room, name):
    tool, flags, formula, second, lines, status = ROWS[name]
    names = [f"{room}/formula", f"{room}/second"]
    with open(names[0], "w", encoding="ascii") as text:
        text.write(formula)
    with open(names[1], "wb") as data:
        data.write(second)
    return refuse_each(room, [TOOLS[tool], *flags, *names], lambda ended: judge_report(ended, tool, lines, status))


def words_case(room, tool, name):
    return refuse_each(room, [TOOLS[tool], *WRONG_WORDS[name]], lambda ended: judge_words(ended, tool))


def call_case(room, name):
    """How many allocations there were, and at how many of them the call itself was refused."""
    refusals = 0
    for refused in range(1, MOST):
        ended = run(room, [ALLOCATIONS, name, "1"], refused)
        if ended.asked < refused:
            if ended.written != "whole\n":
                raise ValueError(f"no allocation is refused: {ended.written!r}")
            return refused - 1, refusals
        if ended.written not in ["kept\n", "out of memory\n", "whole\n"] and ended.status == 0:
            raise ValueError(f"allocation {refused} is refused: {ended.written!r}")
        refusals += ended.written == "kept\n"
    raise ValueError(f"more than {MOST} allocations")


def quiet_case(room, name):
    """How many allocations a run asks for in which the calls are made: as many as one that leaves them out."""
    without = run(room, [ALLOCATIONS, f"quiet_{name}", "0"], 0)
    ended = run(room, [ALLOCATIONS, f"quiet_{name}", "1"], 0)
    if (without.written, ended.written) != ("not done\n", "done\n"):
        raise ValueError(f"written: {without.written!r}, and with the calls {ended.written!r}")
    if ended.asked != without.asked:
        raise ValueError(f"{ended.asked} allocations with the calls, and {without.asked} without")
    return ended.asked, None


def cases(room):
    """The name of each case, and what carries it out."""
    for name in ROWS:
        yield f"{ROWS[name][0]}: {name}", lambda name=name: row_case(room, name)
    for tool in TOOLS:
        for name in WRONG_WORDS:
            yield f"{tool}: {name}", lambda tool=tool, name=name: words_case(room, tool, name)
    for name in CALLS:
        yield name, lambda name=name: call_case(room, name)
    for name in QUIET:
        yield f"quiet {name}", lambda name=name: quiet_case(room, name)


def main():
    os.chdir(ROOT)
    passed = failed = 0
    with tempfile.TemporaryDirectory() as room:
        try:
            compile_shim(room)
        except (OSError, subprocess.SubprocessError) as error:
            print(f"FAILED: tests/allocations.c is not compiled: {error}")
            print("0 passed, 1 failed")
            return 1
        for name, carry_out in cases(room):
            try:
                asked, refusals = carry_out()
                if refusals == 0:
                    raise ValueError(f"of {asked} refused allocations none is told of")
            except (OSError, ValueError, subprocess.SubprocessError) as error:
                print(f"FAILED: {name}: {error}")
                failed += 1
            else:
                told = "none in the calls" if refusals is None else f"{refusals} told of"
                print(f"{name}: {asked} allocations, {told}")
                passed += 1
    print(f"{passed} passed, {failed} failed")
    return 0 if failed == 0 else 1


if __name__ == "__main__":
    sys.exit(main())
