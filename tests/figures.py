#!/usr/bin/env python3
"""Shows that README and docs/PERFORMANCE.md have the figures of bench/TABLES.md, which bench/field.sh makes.

Each sentence below is made of the tables' figures, and has to stand on its page word for word. Those of large inputs and of ACL2's
checker are asked for where TABLES.md has their tables, and their column. The last line is "N passed, M failed".
"""

import os
import re
import sys

ROOT = os.path.dirname(os.path.dirname(os.path.abspath(__file__)))
CELL = re.compile(r"([\d.]+) s, ([\d.]+) MB")
MEANS = re.compile(r"([\d.]+) of its time(?:, ([\d.]+) of its memory)?")
HIDDEN = "pigeons hidden in 250000 clauses"
MANY, LONG = "five million clauses at random", "sums of three numbers of 2048 bits"
ACL2 = "ACL2's checker"


def page(name):
    """The text of a page."""
    with open(f"{ROOT}/{name}", encoding="utf-8") as text:
        return text.read()


class Table:
    """One table: of each formula the seconds and megabytes by column, what the solver took, and the size of the proof."""

    def __init__(self, lines):
        self.rows = {}
        columns = [cell.strip() for cell in lines[0].strip("|").split("|")]
        for line in lines[2:]:
            name, *cells = [cell.strip() for cell in line.strip("|").split("|")]
            self.rows[name] = dict(zip(columns[1:], cells))
        self.means = self.rows.pop("geometric mean", {})

    def took(self, formula, column):
        """Seconds and megabytes."""
        seconds, megabytes = CELL.fullmatch(self.rows[formula][column]).groups()
        return float(seconds), int(megabytes)

    def ratios(self, ours, theirs):
        """What ours took over what theirs took, of each formula."""
        return [self.took(name, ours)[0] / self.took(name, theirs)[0] for name in self.rows]

    def mean(self, column):
        """Of the column's time, and of its memory."""
        return [float(it) for it in MEANS.fullmatch(self.means[column]).groups() if it]

    def per_100_mb(self, kind, ours):
        """The seconds that 100 MB of proof would take, of each formula."""
        return [100 * self.took(name, ours)[0] / float(row[kind].split()[0]) for name, row in self.rows.items()]

    def per_solver(self, solver, ours):
        """The solver's seconds that a check took, of each formula."""
        return [self.took(name, ours)[0] / float(row[solver].split()[0]) for name, row in self.rows.items()]


def tables():
    """CaDiCaL's proofs, Kissat's, CaDiCaL's in LRAT, and the first two in the binary form; then DRAT and LRAT of large inputs, if
    they were measured."""
    return [Table(block.splitlines()) for block in re.findall(r"(?:^\|.*\n)+", page("bench/TABLES.md"), re.MULTILINE)]


def sentences():
    """What the pages have to say."""
    cadical, kissat, lrat, *others = tables()
    binary, large = others[:2], others[2:]
    both, ours = (cadical, kissat), "`drat-forward`"
    trim, forward, plain = "DRAT-trim", "DRAT-trim, forward", "`reference_drat.cpp`"

    def means(column):
        return [it.mean(column)[0] for it in both]

    def span(of):
        every = [ratio for table in both for ratio in of(table)]
        return min(every), max(every)

    first, last = means(trim)
    yield "README.md", f"| `drat-forward` | {first:.1f} × DRAT-trim's time | {last:.1f} × |"
    first, last = means(forward)
    yield "README.md", f"| | {first:.1f} × its forward check's | {last:.1f} × |"
    first, last = means(plain)
    yield "README.md", f"| | {first:.1f} × that of `bench/reference_drat.cpp` (in C++) | {last:.1f} × |"
    first, last = (it.mean(trim)[0] for it in binary)
    yield "README.md", f"| binary proofs | {first:.1f} × DRAT-trim's time | {last:.1f} × |"
    first = lrat.mean("DRAT-trim's `lrat-check`")[0]
    yield "README.md", f"| `lrat-check` | {first:.1f} × DRAT-trim's time | |"
    least = min(table.took(name, trim)[1] for table in both for name in table.rows)
    yield "README.md", f"a tenth of DRAT-trim's memory, whose least is {least} MB"
    low, high = span(lambda it: it.ratios(ours, trim))
    forward_low, forward_high = span(lambda it: it.ratios(ours, forward))
    yield "docs/PERFORMANCE.md", (f"`drat-forward` takes {low:.1f} to {high:.2f} times (random) DRAT-trim's time, and "
                                  f"{forward_low:.1f} to {forward_high:.1f} times its forward check's")
    low, high = span(lambda it: it.per_100_mb("DRAT", ours))
    yield "docs/PERFORMANCE.md", f"100 MB of DRAT take {low:.0f} to {high:.0f} seconds"
    high = max(cadical.per_solver("CaDiCaL", ours) + kissat.per_solver("Kissat", ours))
    yield "docs/PERFORMANCE.md", f"a tenth to {high:.1f} times the solver's time"
    time, memory = lrat.mean("`reference.cpp`")
    yield "docs/PERFORMANCE.md", f"{time:.2f} of the time of `reference.cpp`, and {memory:.2f} of the memory"
    if ACL2 in lrat.means:
        its_time, its_memory = lrat.mean(ACL2)
        yield "docs/PERFORMANCE.md", f"{memory:.2f} of the memory; of ACL2's verified checker {its_time:.2f}, and {its_memory:.2f}."
    mine, theirs = ([it.took(HIDDEN, column)[1] for it in both] for column in (ours, trim))
    yield "docs/PERFORMANCE.md", f"it takes {mine[0]} and {mine[1]} MB (CaDiCaL, Kissat), DRAT-trim {theirs[0]} and {theirs[1]}."
    if large:
        yield from of_large(*large)


def of_large(drat, lrat):
    """What the pages have to say of large inputs, of those that were measured."""
    ours, trim = "`drat-forward`", "DRAT-trim"
    memory = [drat.took(it, ours)[1] / drat.took(it, trim)[1] for it in drat.rows]
    yield "README.md", f"`drat-forward` takes {min(memory):.1f} to {max(memory):.1f}."
    if LONG in drat.rows:
        size = float(drat.rows[LONG]["DRAT"].split()[0]) / 1000
        mine, back, forward = (drat.took(LONG, it) for it in (ours, trim, "DRAT-trim, forward"))
        yield "docs/PERFORMANCE.md", (f"A proof of {size:.2f} GB takes {mine[0]:.0f} s and {mine[1] / back[1]:.2f} of DRAT-trim's "
                                      f"memory; DRAT-trim takes {back[0]:.0f} s, forward {forward[0]:.0f}.")
    if MANY in drat.rows:
        size = float(drat.rows[MANY]["CNF"].split()[0])
        mine, back, hinted = drat.took(MANY, ours), drat.took(MANY, trim), lrat.took(MANY, "`lrat-check`")
        yield "docs/PERFORMANCE.md", (f"A formula of five million clauses, {size:.0f} MB, takes `drat-forward` {mine[0]:.1f} s and "
                                      f"{mine[1]} MB, DRAT-trim {back[0]:.1f} s and {back[1]} MB, `lrat-check` {hinted[0]:.1f} s and "
                                      f"{hinted[1]} MB.")


def main():
    passed = failed = 0
    for name, sentence in sentences():
        if sentence in page(name):
            passed += 1
        else:
            failed += 1
            print(f"FAILED: {name} lacks what bench/TABLES.md has: {sentence}")
    print(f"{passed} passed, {failed} failed")
    return 0 if not failed else 1


if __name__ == "__main__":
    sys.exit(main())
