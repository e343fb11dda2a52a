#!/usr/bin/env python3
"""Shows that memory that was taken is used again.

The number of allocations inside a whole check of DRAT and of LRAT, and inside the calls of the readers, of the store, of the
identifiers and of a session of LRAT, is the same for 1000 as for 100000 pairs of steps, steps, clauses, insertions or
identifiers of one form. And shows that identifiers, however far apart, take at most 64 bytes each; and that after a step
by PR which looks at a large clause, once that clause is deleted, less than a quarter of what its literals take is held beyond
what is held after a step that looks at none.

The programs run as they were compiled, with tests/allocations.c before the C library: it refuses the Nth allocation of a
run. What is counted goes from the least N whose refusal is met inside these calls to the greatest. It also tells the most bytes
that a run held at once, and those that it held when it last asked to read, which is at the proof's end.

DRAT_FORWARD, LRAT_CHECK and ALLOCATIONS name the programs; they are those in bin/ and that of crates/test_allocations otherwise. CC
names a C compiler, which is cc otherwise. The last line is "N passed, M failed".
"""

import os
import subprocess
import sys
import tempfile

ROOT = os.path.dirname(os.path.dirname(os.path.abspath(__file__)))
DRAT_FORWARD = os.environ.get("DRAT_FORWARD") or "bin/drat-forward"
LRAT_CHECK = os.environ.get("LRAT_CHECK") or "bin/lrat-check"
ALLOCATIONS = os.environ.get("ALLOCATIONS") or "crates/test_allocations/out/test_allocations"
CC = os.environ.get("CC") or "cc"
FEW, MANY = 1000, 100000
# Among so many identifiers that rise past one that stays bound, one row of 1024 meets its line in the directory, and takes a place in
# the tree.
LINES = 65536
# The whole checks, and what crates/test_allocations does again and again.
CHECKS = ["run_drat", "run_lrat"]
CASES = [
    "drat_additions",
    "drat_deletions",
    "binary_additions",
    "binary_deletions",
    "lrat_additions",
    "lrat_deletions",
    "formula",
    "store",
    "store_of_many",
    "identifiers",
    "lrat_session",
]
# Identifiers that stay bound, and how many bytes each may take. Lists have room for up to twice what they hold.
HELD = {
    "held_side_by_side": 9,
    "held_2_apart": 17,
    "held_4_apart": 33,
    "held_8_apart": 64,
    "held_64_apart": 64,
    "held_1024_apart": 64,
    "held_in_pairs": 64,
    "held_by_turns": 64,
}
# The literals of a clause that a step by PR looks at, and how many bytes more than after a step that looks at none may be held in
# the end: a quarter of what its literals take.
LARGE, ROOM = 100000, 100000


class Run:
    """A program with its words, what it has to write, and with what status and last line its calls say that memory was
    refused."""

    def __init__(self, words, wanted, status, last_line):
        self.words = words
        self.wanted = (0, wanted)
        self.status = status
        self.last_line = last_line

    def answer(self, room, refused=0):
        """The status and what was written, where this allocation is refused; the number of all; and the most bytes held, and those
        at the last read."""
        counted = f"{room}/count"
        settings = {
            "LD_PRELOAD": f"{room}/allocations.so",
            "COUNT_INTO": counted,
            "REFUSED": str(refused),
        }
        ended = subprocess.run(
            self.words,
            env={**os.environ, **settings},
            stdin=subprocess.DEVNULL,
            stdout=subprocess.PIPE,
            stderr=subprocess.DEVNULL,
            timeout=60,
        )
        with open(counted, encoding="ascii") as text:
            total, most, last = [int(line) for line in text]
        os.remove(counted)
        return (ended.returncode, ended.stdout.decode("latin-1")), total, most, last

    def is_met(self, room, refused):
        """Whether the calls say that memory was refused, where this allocation is."""
        (status, written), *_ = self.answer(room, refused)
        return status == self.status and written.endswith(self.last_line)

    def checked(self, room):
        """The number of all allocations, and the most bytes held at once and those at the last read, where the answer is as
        wanted."""
        answer, *counts = self.answer(room)
        if answer != self.wanted:
            raise ValueError(f"the answer is {answer}, and not {self.wanted}")
        return counts

    def allocations(self, room):
        """The number of allocations inside the calls."""
        total, *_ = self.checked(room)
        greatest = total
        while greatest > 0 and not self.is_met(room, greatest):
            greatest -= 1
        if greatest == 0:
            raise ValueError(f"of {total} allocations none is met")
        least = 1
        while not self.is_met(room, least):
            least += 1
        return greatest - least + 1


def drat_pairs(times):
    """A proof in DRAT that adds a clause and deletes it, so many times."""
    return "-1 -2 0\nd -1 -2 0\n" * times + "2 0\n0\n"


def lrat_pairs(times):
    """The same in LRAT, under identifiers that rise. All are past the page that has those of the formula."""
    last = 2048 + times
    pairs = "".join(f"{i} -1 -2 0 4 0\n{i} d {i} 0\n" for i in range(2048, last))
    return pairs + f"{last} 2 0 1 2 0\n{last + 1} 0 {last} 3 4 0\n"


def check_of_pairs(name, room, times):
    """A check of a proof that adds a clause and deletes it, so many times."""
    program, pairs = {"run_drat": (DRAT_FORWARD, drat_pairs), "run_lrat": (LRAT_CHECK, lrat_pairs)}[name]
    proof = f"{room}/{name}-{times}"
    with open(proof, "w", encoding="ascii") as out:
        out.write(pairs(times))
    lines = f"c formula 2 variables 4 clauses\nc steps {2 * times + 2} peak 10\ns VERIFIED\n"
    return Run([program, "examples/e.cnf", proof], lines, 4, "")


def calls(name, times):
    """Calls of the readers, of the store, of the identifiers or of a session."""
    return Run([ALLOCATIONS, name, str(times)], f"{times}\n", 0, "out of memory\n")


def run_of(name, room, times):
    return check_of_pairs(name, room, times) if name in CHECKS else calls(name, times)


def as_many(name, room):
    """That there are as many allocations for few as for many, but for those of identifiers in the tree."""
    few = run_of(name, room, FEW).allocations(room)
    many = run_of(name, room, MANY).allocations(room)
    more = MANY // LINES if name == "run_lrat" else 0
    if not few <= many <= few + more:
        raise ValueError(f"{few} allocations for {FEW}, and {many} for {MANY}")
    return f"{few} allocations for {FEW}, {many} for {MANY}"


def within_bytes(name, room):
    """That identifiers which stay bound take no more bytes than they may."""
    _, held, _ = calls(name, MANY).checked(room)
    told = f"{held / MANY:.1f} bytes for each of {MANY}"
    if held > HELD[name] * MANY:
        raise ValueError(f"{told}, and {HELD[name]} are allowed")
    return told


def held_after(room, step, word):
    """The bytes that a check holds at the end of a proof whose last addition is this step, accepted with this word. Before it come a
    step by PR that looks at a small clause, and a clause that assumes each literal of a large one and is deleted; behind it the
    large clause is deleted, which has the complement of the step's first literal."""
    large = " ".join(str(number) for number in [-1, *range(3, LARGE + 2)])
    more, low, high = LARGE + 2, LARGE + 3, LARGE + 4
    formula, proof = f"{room}/large.cnf", f"{room}/large.drat"
    with open(formula, "w", encoding="ascii") as out:
        out.write(f"p cnf {high} 4\n{large} 0\n1 3 0\n{-low} {high} 0\n{low} {high} 0\n")
    with open(proof, "w", encoding="ascii") as out:
        out.write(f"{low} {low} 0\n{large} {more} 0\nd {large} {more} 0\n{step} 0\nd {large} 0\n")
    run = Run([DRAT_FORWARD, "--pr", "--trace", formula, proof], "", 4, "")
    steps = f"c 1 add pr\nc 2 add rup\nc 3 delete\nc 4 add {word}\nc 5 delete\nc end: no empty clause\n"
    run.wanted = (1, f"c formula {high} variables 4 clauses\n{steps}s NOT VERIFIED\n")
    _, _, held = run.checked(room)
    return held


def held_after_pr(room):
    """That a step by PR doesn't keep the literals of the large clause it looked at. The other step is of a variable of no other
    clause."""
    other = LARGE + 2
    more = held_after(room, "1 1", "pr") - held_after(room, f"{other} {other}", "pr")
    told = f"{more} bytes more than after a step that looks at no clause"
    if more > ROOM:
        raise ValueError(f"{told}, and {ROOM} are allowed")
    return told


def judges(room):
    """The name of each case, and what judges it."""
    for name in [*CHECKS, *CASES]:
        yield name, lambda name=name: as_many(name, room)
    for name in HELD:
        yield name, lambda name=name: within_bytes(name, room)
    yield "held_after_pr", lambda: held_after_pr(room)


def compile_shim(room):
    shim = f"{room}/allocations.so"
    words = [CC, "-O2", "-shared", "-fPIC", "-o", shim, "tests/allocations.c"]
    subprocess.run(words, check=True)


def main():
    os.chdir(ROOT)
    passed = failed = 0
    with tempfile.TemporaryDirectory() as room:
        try:
            compile_shim(room)
        except (OSError, subprocess.SubprocessError) as error:
            print(f"FAILED: tests/allocations.c is not compiled: {error}")
            print("0 passed, 1 failed")
            return 1
        for name, judge in judges(room):
            try:
                print(f"{name}: {judge()}")
                passed += 1
            except (OSError, ValueError, subprocess.SubprocessError) as error:
                print(f"FAILED: {name}: {error}")
                failed += 1
    print(f"{passed} passed, {failed} failed")
    return 0 if failed == 0 else 1


if __name__ == "__main__":
    sys.exit(main())
