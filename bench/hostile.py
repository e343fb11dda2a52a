#!/usr/bin/env python3
"""Runs the programs on inputs that were made to be dear, each kind at n, 2n and 4n, and shows how their cost grows.

    bench/hostile.py [--count] [KIND..]             all kinds where none is named
    bench/hostile.py --beside [--count] [KIND..]    ours beside the plain C++ checkers
    bench/hostile.py --write KIND N FORMULA PROOF   writes one input

Of each kind a line gives the seconds of a processor at the three sizes, and the exponent of the growth from the first to the
last: 1 where the cost grows as the input does, 2 where it grows with its square. Other kinds are proofs whose variables have
other names than 1, 2, ..: a line gives the seconds with the usual names and with these, and their ratio.

With --count it runs them at small sizes, and counts instructions by valgrind, which a busy machine doesn't change. Where there
is no valgrind, seconds are taken in their place, the least of three runs, at the sizes n and 4 n, and less than a twentieth
counts as that. A kind passes where its exponent is below 1.3, or 2.2 if it may grow as the square of the input, or its ratio
below 1.5, and the answer is right. The last line is "N passed, M failed".

With --beside it runs the kinds whose options reference.cpp and reference_drat.cpp have, at n and 4 n, three times each, and
prints at 4 n the least seconds of both and their ratio, then both exponents; with --count instructions at n / 4 and n. A run is
ended after a minute. The status is 0 only where both write the same lines.

DRAT_FORWARD, LRAT_CHECK, REFERENCE_DRAT and REFERENCE name the programs; they are those in bin/ and bench/out/ otherwise.
"""

import math
import os
import re
import resource
import shutil
import subprocess
import sys
import tempfile
from functools import cache, partial
from itertools import accumulate

import common
from generate import numbers

TOP = os.path.dirname(os.path.dirname(os.path.abspath(__file__)))
DRAT, LRAT = "DRAT_FORWARD", "LRAT_CHECK"
PROGRAMS = {DRAT: common.program(DRAT, "bin/drat-forward"), LRAT: common.program(LRAT, "bin/lrat-check")}
REFERENCES = {DRAT: common.program("REFERENCE_DRAT", "bench/out/reference_drat"),
              LRAT: common.program("REFERENCE", "bench/out/reference")}
LIMIT, SQUARE, LEAST, MOST_SECONDS = 1.3, 2.2, 0.05, 60
# What other names may cost in instructions: longer words are read, and each variable is looked up once, as its word is read. To
# look it up by its name whenever its value is asked for takes up to twenty times. Seconds have cache misses besides.
NAMES_LIMIT = 1.5
PAGE = 1024
KINDS = {}


class Kind:
    """A kind of input: what makes it at a size, and how it is run."""

    def __init__(self, make, program, options, size, is_linear, usual=None):
        self.make = make
        self.program = program
        self.options = options
        self.size = size
        self.limit = LIMIT if is_linear else SQUARE
        self.usual = usual  # where names are other ones, what makes the same with the usual names


def kind(program, size, *options, is_linear=True):
    """Notes a function that gives the clauses and the lines of the proof at a size."""
    def note(make):
        KINDS[make.__name__] = Kind(make, program, list(options), size, is_linear)
        return make
    return note


def clause(*lits):
    return " ".join(map(str, [*lits, 0]))


def implications(first, last):
    """first -> first + 1 -> .. -> last"""
    return [(-i, i + 1) for i in range(first, last)]


@kind(DRAT, 2000)
def definitions(n):
    """Each definition x = a and b has two clauses of one candidate, which stands behind all others."""
    proof = []
    for i in range(1, n):
        x = n + 1 + i
        proof += [clause(x, -i, -i - 1), clause(-x, i), clause(-x, i + 1)]
    return [(i, i + 1) for i in range(1, n + 1)], proof


@kind(DRAT, 2000)
def wide_definitions(n):
    """The same with the long clause last, which has four candidates."""
    proof = []
    for i in range(1, n):
        x = n + 4 + i
        proof += [clause(-x, i + k) for k in range(4)] + [clause(x, *(-i - k for k in range(4)))]
    return [(i, i + 1) for i in range(1, n + 4)], proof


@kind(DRAT, 3000)
def candidate_last(n):
    """Again and again a clause whose one candidate is the last of n."""
    return [(i, i + 1) for i in range(3, n + 3)] + [(-1, 2)], [clause(1, -2), "d " + clause(1, -2)] * n


@kind(DRAT, 3000)
def candidate_behind_deleted(n):
    """The same where all clauses before the candidate were deleted."""
    before = [(i, i + 1) for i in range(3, n + 3)]
    return before + [(-1, 2)], ["d " + clause(*c) for c in before] + [clause(1, -2), "d " + clause(1, -2)] * n


@kind(DRAT, 2000)
def candidate_comes_and_goes(n):
    """The one candidate is added and deleted again and again, among clauses of the same literal that are gone."""
    step = [clause(-1, 2), clause(1, -2), "d " + clause(1, -2), "d " + clause(-1, 2)]
    return [(i, i + 1) for i in range(3, n + 3)], step * n


@kind(DRAT, 3000)
def candidates_clash_at_once(n):
    """An addition with n candidates, each with a literal that is true as soon as the added clause is assumed false."""
    return [(-1, -2, i) for i in range(3, n + 3)], [clause(1, 2)]


@kind(DRAT, 3000, "--pr")
def touched_last(n):
    """Again and again an addition with a witness that touches the last of n clauses alone."""
    return [(i, i + 1) for i in range(3, n + 3)] + [(-1, 2)], [clause(1, -2, 1), "d " + clause(1, -2)] * n


@kind(DRAT, 2000, "--pr")
def wide_witness(n):
    """One addition whose witness has n literals, each of which touches a clause. To propagate one of these visits all."""
    top = n + 3
    touched = [(-i, top, top + 1) for i in range(2, n + 2)]
    return touched + [(top, top + 2), (top, -top - 2)], [clause(1, 1, *range(2, n + 2))]


@kind(LRAT, 2000)
def unnamed(n):
    """Again and again a clause whose one candidate no hint names, the last of n clauses. It is false at once."""
    clauses = [(i, i + 1) for i in range(3, n + 3)] + [(-1, 2)]
    proof, top = [], len(clauses)
    for _ in range(n):
        proof += [f"{top + 1} 1 -2 0 0", f"{top + 1} d {top + 1} 0"]
        top += 1
    return clauses, proof


@kind(LRAT, 1000)
def unnamed_far(n):
    """The same with identifiers that are far from each other."""
    proof = [f"{PAGE * (i + 1)} 5 6 0 1 0" for i in range(n)]
    top = PAGE * (n + 1)
    proof.append(f"{top} -1 2 7 0 0")
    for _ in range(n):
        top += PAGE
        proof += [f"{top} 1 -2 0 0", f"{top} d {top} 0"]
    return [(5, 6), (8, 7)], proof


@kind(LRAT, 5000)
def far_identifiers(n):
    """n clauses alive at identifiers that are far from each other, each named once."""
    proof = [f"{PAGE * (i + 1)} {i + 3} 1 0 1 0" for i in range(n)]
    proof += [f"{PAGE * (n + 2 + i)} {i + 3} 1 2 0 {PAGE * (i + 1)} 0" for i in range(n)]
    return [(1,)], proof


@kind(LRAT, 4000)
def far_below_deleted(n):
    """n clauses alive at identifiers that are far from each other, and 2 n behind them that were deleted, before the first step that
    needs the identifiers of candidates. The first clause is deleted too, so that its page can go to those behind."""
    ids = [PAGE * (i + 1) for i in range(3 * n + 2)]
    proof = [f"{i} 5 6 0 1 0" for i in ids[:n]] + [f"{ids[n]} d {ids[0]} 0"]
    for i in ids[n:-2]:
        proof += [f"{i} 5 6 0 1 0", f"{i} d {i} 0"]
    return [(5, 6), (8, 7)], [*proof, f"{ids[-2]} -1 2 7 0 0", f"{ids[-1]} 1 -2 0 0"]


@kind(DRAT, 5000)
def far_variables(n):
    """n clauses of variables that are far from each other."""
    step = 536870911 // 2 // (8 * n)
    at = [step * (i + 1) for i in range(2 * n)]
    return [(at[i], at[i + 1], at[i + 2]) for i in range(2 * n - 2)], [clause(at[0], at[1], at[2])]


def past_a_clash(n, more):
    """A clash of unit clauses, and then a chain of implications."""
    top = n + 2
    return [(top,), (-top,), (1,), *more]


@kind(DRAT, 2000, "--keep-units")
def kept_reversed(n):
    """Past a clash, n clauses that are kept are deleted, of a chain that stands in reversed order."""
    chain = implications(1, n)[::-1]
    return past_a_clash(n, chain), ["d " + clause(*c) for c in chain]


@kind(DRAT, 2000, "--keep-units")
def kept_again(n):
    """Past a clash, one clause that is kept is deleted again and again."""
    chain = implications(1, n)
    return past_a_clash(n, chain), ["d " + clause(*chain[-1])] * n


@kind(DRAT, 2000, "--keep-units")
def kept_as_it_grows(n):
    """Past a clash, a chain of implications is added, and each is deleted, but kept, as soon as it is there."""
    return past_a_clash(n, []), [line for c in implications(1, n) for line in (clause(*c), "d " + clause(*c))]


@kind(DRAT, 2000, "--keep-units", is_linear=False)
def kept_of_long_clause(n):
    """Past a clash, n unit clauses that make all literals of one clause false: the clause is looked at for each of them."""
    units = [(i,) for i in range(2, n + 1)]
    return past_a_clash(n, [*units, tuple(range(-n, 0))]), ["d " + clause(1)]


@kind(DRAT, 2000, "--keep-units")
def not_kept(n):
    """Past a clash, a clause that isn't kept is added and deleted again and again."""
    open_one = clause(n + 3, n + 4)
    return past_a_clash(n, implications(1, n)), [open_one, "d " + open_one] * n


@kind(DRAT, 2000, is_linear=False)
def long_clause(n):
    """A chain of implications makes the literals of one clause false, from its first on. Each visit goes over those before."""
    chain = [(i, -i - 1) for i in range(1, n)]
    return [tuple(range(1, n + 3)), *chain], [clause(1, n + 1, n + 2)]


def with_reasons(n, of):
    """A chain of implications, and n further reasons of one of its literals, each with a unit clause of its own."""
    units = range(2 * n, 3 * n)
    return [(1,), *implications(1, n), *((u,) for u in units), *((-u, of) for u in units)]


def deletions_of_reasons(n, of, first):
    """Deletes the reasons of a literal in order, with a step after each."""
    gone = [first, *((-u, of) for u in range(2 * n, 3 * n - 1))]
    return [line for c in gone for line in ("d " + clause(*c), clause(of, 3 * n + 1))]


@kind(DRAT, 1000)
def last_reasons(n):
    """The reasons of the last literal of a chain are deleted one after the other."""
    return with_reasons(n, n), deletions_of_reasons(n, n, (1 - n, n))


@kind(DRAT, 1000)
def first_reasons(n):
    """The reasons of the first literal of a chain are deleted one after the other."""
    return with_reasons(n, 1), deletions_of_reasons(n, 1, (1,))


def deletions(clauses, step):
    """Deletes the clauses one after the other, with a step after each."""
    return [line for c in clauses for line in ("d " + clause(*c), step)]


@kind(DRAT, 1000)
def chain_from_behind(n):
    """The implications of a chain are deleted from its end, with a step after each."""
    chain = implications(1, n)
    return [(1,), *chain], deletions(chain[::-1], clause(1, n + 1))


@kind(DRAT, 1000)
def chain_from_front(n):
    """The implications of a chain are deleted from its beginning, with a step after each."""
    chain = implications(1, n)
    return [(1,), *chain], deletions(chain, clause(1, n + 1))


def unit_under_roots(n):
    """A clause of which all literals but a new one are false by the first literal of a chain, and the line that deletes it."""
    return clause(n + 2, -1), "d " + clause(n + 2, -1)


@kind(DRAT, 1000)
def doubts_that_go(n):
    """A clause that makes a literal true by the first one of a chain is added and deleted again and again, a step after each."""
    (one, gone), step = unit_under_roots(n), clause(1, n + 1)
    return [(1,), *implications(1, n)], [one, step, gone, step] * n


@kind(DRAT, 1000)
def doubts_that_stay(n):
    """The same, where each time the last implication of the chain is deleted before the clause is."""
    (one, gone), step = unit_under_roots(n), clause(1, n + 1)
    chain = implications(1, n)
    return [(1,), *chain], [line for c in chain[::-1] for line in (one, step, "d " + clause(*c), step, gone)]


@kind(DRAT, 1000)
def units_from_behind(n):
    """Unit clauses are deleted from the last, with a step after each. No other clause has their variables."""
    units = [(i,) for i in range(1, n + 1)]
    return units, deletions(units[:0:-1], clause(1, n + 1))


@kind(DRAT, 1000)
def units_from_front(n):
    """The same from the first."""
    units = [(i,) for i in range(1, n + 1)]
    return units, deletions(units[:-1], clause(n, n + 1))


@kind(DRAT, 1000)
def units_with_complements(n):
    """The same where a clause, by which nothing is true, has the complement of each."""
    units = [(i,) for i in range(1, n + 1)]
    return units + [(-i, n + 2, n + 3) for i in range(1, n)], deletions(units[:-1], clause(n, n + 1))


@kind(DRAT, 1000)
def copies_of_a_unit(n):
    """Two copies of a unit clause, on which a chain rests, are added and two deleted, again and again, with a step after each."""
    step, gone = clause(n, n + 1), "d " + clause(1)
    return [(1,), *implications(1, n)], [clause(1), clause(1), gone, step, gone, step] * n


@kind(DRAT, 1000, is_linear=False)
def units_of_clauses(n):
    """The same from the last, where each literal satisfies a clause that a false one watches."""
    units = [(i,) for i in range(1, n + 1)] + [(-i,) for i in range(n + 1, 2 * n + 1)]
    return units + [(i, n + i, 2 * n + 1) for i in range(1, n + 1)], deletions(units[n - 1:0:-1], clause(1, 2 * n + 2))


def sharing(n):
    """n clauses that watch one literal."""
    return [(1, 2 * i, 2 * i + 1) for i in range(1, n + 1)]


def deleted_in(order, clauses):
    """The clauses, and the lines that delete all of them in an order of their places."""
    return clauses, ["d " + clause(*clauses[i]) for i in order]


def shuffled(items):
    """The same in no order."""
    source = numbers(1)
    return sorted(items, key=lambda _: next(source))


@kind(DRAT, 8000)
def list_in_order(n):
    """All clauses of a long watch list are deleted, from its front on."""
    return deleted_in(range(n), sharing(n))


@kind(DRAT, 8000)
def list_from_behind(n):
    """The same from its end."""
    return deleted_in(range(n)[::-1], sharing(n))


@kind(DRAT, 8000)
def list_from_two_places(n):
    """The same by turns from its front and from its middle on."""
    return deleted_in([at for pair in zip(range(n), range(n, 2 * n)) for at in pair], sharing(2 * n))


@kind(DRAT, 8000)
def list_by_strides(n):
    """The same, each fiftieth and then from the front again."""
    return deleted_in([at for first in range(50) for at in range(first, n, 50)], sharing(n))


@kind(DRAT, 8000)
def list_in_no_order(n):
    """The same in no order."""
    return deleted_in(shuffled(range(n)), sharing(n))


@kind(DRAT, 8000)
def lists_in_no_order(n):
    """The same of four such lists by turns."""
    lists = 4
    own = range(lists + 1, lists + 2 * lists * n, 2)
    clauses = [(1 + i % lists, at, at + 1) for i, at in enumerate(own)]
    return deleted_in(shuffled(range(len(clauses))), clauses)


@kind(DRAT, 8000)
def list_visited_between(n):
    """The same of one list, in which four additions move the entries meanwhile: each is checked by propagation that visits the list,
    and takes a fourth of the entries out."""
    parts = 4
    of_parts = range(2, parts + 2)
    clauses = [(1, 2 + i % parts, parts + 2 + i) for i in range(n)]
    _, lines = deleted_in(shuffled(range(n)), clauses)
    proof = []
    for i, one in enumerate(of_parts):
        proof += [clause(1, *(-it for it in of_parts if it != one)), *lines[i * n // parts:(i + 1) * n // parts]]
    return clauses, proof


@kind(DRAT, 8000)
def list_with_additions(n):
    """A clause is added to a long watch list and deleted again, and then one that was there before, in no order. What is assumed first
    clashes at once, so that propagation doesn't visit the list."""
    clauses = [(1, 2 * i, 2 * i + 1) for i in range(2, n + 2)]
    one = clause(2, 1, 3)
    _, lines = deleted_in(shuffled(range(n)), clauses)
    return [(2, 3), (2, -3), *clauses], [line for gone in lines for line in (one, "d " + one, gone)]


def scattered(count):
    """Names of up to 28 bits, at random and in no order."""
    names, source = {}, numbers(1)
    while len(names) < count:
        names[1 + (next(source) >> 3) % (2**28 - 1)] = None
    return list(names)


def spread(count):
    """Names in the order of the variables, each 15 to 64 after the one before."""
    source = numbers(1)
    return list(accumulate(15 + (next(source) >> 8) % 50 for _ in range(count)))


def usual(count):
    return list(range(1, count + 1))


def proof_of(formula, proof, is_lrat):
    """The clauses of a formula, and the steps of a proof with a step a line: the words before the literals, the literals, and the
    words behind their 0."""
    with open(formula, encoding="ascii") as it:
        clauses = [tuple(map(int, line.split()[:-1])) for line in it if line[0] not in "cp"]
    steps = []
    with open(proof, encoding="ascii") as it:
        for words in map(str.split, it):
            end = words.index("0")
            first = end if is_lrat and words[1] == "d" else int(is_lrat or words[0] == "d")
            steps.append((words[:first], list(map(int, words[first:end])), words[end + 1:]))
    return clauses, steps


def moved(literals, by):
    return [it + by if it > 0 else it - by for it in literals]


@cache
def drat(n):
    """What CaDiCaL wrote of five holes, n times over variables of their own. The proofs go on by turns, a step each, since nothing
    is left to show once one of them has come to its end."""
    clauses, steps = proof_of(f"{TOP}/examples/pigeonhole-5.cnf", f"{TOP}/examples/pigeonhole-5.drat", is_lrat=False)
    all_of = [by * 30 for by in range(n)]
    turns = [(before, moved(lits, by), behind) for before, lits, behind in steps[:-1] for by in all_of]
    return [tuple(moved(c, by)) for by in all_of for c in clauses], [*turns, steps[-1]]


@cache
def lrat(n):
    """Cook's proof for n holes, whose definitions have new variables."""
    with tempfile.TemporaryDirectory() as room:
        files = f"{room}/formula", f"{room}/proof"
        subprocess.run([sys.executable, f"{TOP}/examples/pigeonhole.py", str(n), *files], check=True)
        return proof_of(*files, is_lrat=True)


def by_names(of, names_of, n):
    """The clauses and lines of a proof by other names of its variables. What is met first has the last names, so that few were met
    when the greatest one is."""
    clauses, steps = of(n)
    names = names_of(max(abs(lit) for lits in (*clauses, *(step[1] for step in steps)) for lit in lits))[::-1]

    def named(lits):
        return [names[lit - 1] if lit > 0 else -names[-lit - 1] for lit in lits]

    lines = [" ".join([*before, *map(str, named(lits)), "0", *behind]) for before, lits, behind in steps]
    return [named(c) for c in clauses], lines


for one_of, its_program, its_size in ((drat, DRAT, 200), (lrat, LRAT, 22)):
    as_usual = partial(by_names, one_of, usual)
    for names_by in (scattered, spread):
        KINDS[f"{one_of.__name__}_{names_by.__name__}"] = Kind(
            partial(by_names, one_of, names_by), its_program, [], its_size, True, as_usual)


def written(made, formula, proof):
    """Writes an input."""
    clauses, lines = made
    top = max(abs(lit) for c in clauses for lit in c)
    with open(formula, "w", encoding="ascii") as it:
        it.write(f"p cnf {top} {len(clauses)}\n")
        it.writelines(clause(*c) + "\n" for c in clauses)
    with open(proof, "w", encoding="ascii") as it:
        it.writelines(line + "\n" for line in lines)


def children_seconds():
    """The seconds of a processor, in user and system mode, of all commands that came to their end."""
    used = resource.getrusage(resource.RUSAGE_CHILDREN)
    return used.ru_utime + used.ru_stime


def run(words, most=None):
    """The seconds of a processor that a command took, its status and what it wrote. It is ended where it takes more than `most`."""
    limited = most and partial(resource.setrlimit, resource.RLIMIT_CPU, (most, most))
    before = children_seconds()
    ran = subprocess.run(words, stdin=subprocess.DEVNULL, capture_output=True, text=True, check=False, preexec_fn=limited)
    return children_seconds() - before, ran


def exponent(costs):
    """How the cost grows from the first size to the last, which is four times as large."""
    return math.inf if costs[-1] == math.inf else math.log(max(costs[-1], 1e-3) / max(costs[0], 1e-3), 4)


def is_right(ran):
    """Each proof is accepted to its end, and none has an empty clause."""
    return ran.returncode == 1 and "c end: no empty clause" in ran.stdout


def seconds_of(words, _):
    """The seconds of a processor that a command took, and what came of it."""
    return run(words)


def least_seconds_of(words, _, most=None):
    """The least of three runs, and what came of it. Infinity where the first one was ended."""
    best = run(words, most)
    if best[1].returncode < 0:
        return math.inf, best[1]
    return min(best, run(words, most), run(words, most), key=lambda it: it[0])


def counted_seconds_of(words, room):
    """The same, but a twentieth where it is less."""
    seconds, ran = least_seconds_of(words, room)
    return max(seconds, LEAST), ran


def instructions_of(words, room, most=None):
    """The instructions of a command, and what came of it. Infinity where it was ended."""
    _, ran = run(["valgrind", "--tool=cachegrind", "--cache-sim=no", f"--cachegrind-out-file={room}/counts", *words], most)
    found = re.search(r"I\s+refs:\s+([\d,]+)", ran.stderr)
    return int(found[1].replace(",", "")) if found and ran.returncode >= 0 else math.inf, ran


def costs_of(one, room, sizes, cost_of):
    """The cost at each size, and whether each answer is right."""
    files, costs, well = (f"{room}/formula", f"{room}/proof"), [], True
    for size in sizes:
        written(one.make(size), *files)
        cost, ran = cost_of([PROGRAMS[one.program], *one.options, *files], room)
        costs.append(cost)
        well = well and is_right(ran)
    return costs, well


def costs_of_names(one, room, cost_of, known):
    """The cost with the usual names, which may be known, and with others, and whether both proofs are verified with the same lines
    but the first, which has the greatest variable."""
    files = f"{room}/formula", f"{room}/proof"

    def cost_and_lines(make):
        written(make(one.size), *files)
        cost, ran = cost_of([PROGRAMS[one.program], *one.options, *files], room)
        return cost, ran.stdout.split("\n")[1:]

    if one.usual not in known:
        known[one.usual] = cost_and_lines(one.usual)
    pairs = known[one.usual], cost_and_lines(one.make)
    return [cost for cost, _ in pairs], pairs[0][1] == pairs[1][1] and "s VERIFIED" in pairs[0][1]


def costs_of_both(one, room, sizes, cost_of):
    """What our program and the plain checker cost at each size, and whether they write the same, where neither was ended."""
    files, ours, theirs, well = (f"{room}/formula", f"{room}/proof"), [], [], True
    for size in sizes:
        written(one.make(size), *files)
        words = [*one.options, *files]
        (mine, ran), (other, plain) = (cost_of([it[one.program], *words], room) for it in (PROGRAMS, REFERENCES))
        ours.append(mine)
        theirs.append(other)
        well = well and mine < math.inf and (other == math.inf or ran.stdout == plain.stdout)
    return ours, theirs, well


def shown(cost):
    """Seconds, or millions of instructions."""
    if cost == math.inf:
        return f"{'ended':>10}"
    return f"{cost / 1e6:8.1f} M" if isinstance(cost, int) else f"{cost:8.3f} s"


def beside(names, room, factors, cost_of):
    """Runs the kinds that the plain checkers have too, beside these. Whether the answers are the same."""
    all_well = True
    for name in names:
        one = KINDS[name]
        if "--pr" in one.options:
            print(f"{name:26} without a plain checker")
            continue
        sizes = [one.size] if one.usual else [int(one.size * factors[0]), int(one.size * factors[-1])]
        ours, theirs, well = costs_of_both(one, room, sizes, partial(cost_of, most=MOST_SECONDS))
        all_well = all_well and well
        grows = "" if one.usual else f"   exponents {exponent(ours):4.2f} {exponent(theirs):4.2f}"
        print(f"{name:26} {shown(ours[-1])} {shown(theirs[-1])}   ratio {ours[-1] / max(theirs[-1], 1e-3):4.2f}"
              f"{grows}{'' if well else '   DIFFER'}", flush=True)
    return 0 if all_well else 1


def growth(names, room, factors, cost_of, is_counted):
    """Runs the kinds at each size. Whether all answers are right and, where it counts, no cost grows too much."""
    passed = failed = 0
    known = {}
    for name in names:
        one = KINDS[name]
        if one.usual:
            costs, well = costs_of_names(one, room, cost_of, known)
            measure, grows, limit = "ratio", costs[1] / max(costs[0], 1e-3), NAMES_LIMIT
        else:
            costs, well = costs_of(one, room, [int(one.size * factor) for factor in factors], cost_of)
            measure, grows, limit = "exponent", exponent(costs), one.limit
        well = well and (grows < limit or not is_counted)
        passed, failed = passed + well, failed + (not well)
        print(f"{name:26} {' '.join(map(shown, costs))}   {measure} {grows:4.2f}{'' if well else '   FAILED'}", flush=True)
    if is_counted:
        print(f"{passed} passed, {failed} failed")
    return 0 if not failed else 1


def main(words):
    if words[:1] == ["--write"]:
        written(KINDS[words[1]].make(int(words[2])), words[3], words[4])
        return 0
    is_counted, is_beside = "--count" in words, "--beside" in words
    has_valgrind = is_counted and shutil.which("valgrind")
    cost_of = instructions_of if has_valgrind else counted_seconds_of if is_counted else seconds_of
    factors = (0.25, 1) if has_valgrind else (1, 4) if is_counted else (1, 2, 4)
    names = [it for it in words if it not in ("--count", "--beside")] or list(KINDS)
    with tempfile.TemporaryDirectory() as room:
        if is_beside:
            return beside(names, room, factors, instructions_of if has_valgrind else least_seconds_of)
        return growth(names, room, factors, cost_of, is_counted)


if __name__ == "__main__":
    sys.exit(main(sys.argv[1:]))
