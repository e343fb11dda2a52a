#!/usr/bin/env python3
"""Draws a run of a proof checker: how many literals are alive after each step, and how many steps of each kind came so far.

    drat-forward --trace FORMULA PROOF | plot.py FORMULA PROOF PICTURE
    drat-forward --binary --trace FORMULA PROOF | plot.py --binary FORMULA PROOF PICTURE
    drat-forward --pr --trace FORMULA PROOF | plot.py --pr FORMULA PROOF PICTURE
    lrat-check --trace FORMULA PROOF | plot.py --lrat FORMULA PROOF PICTURE

The trace says which steps were accepted, and how; the proof has their clauses. PICTURE ends with .png or .svg. The peak is
compared with the one in the report. It needs gnuplot (in Debian the package gnuplot-nox). What is wrong is said in one line,
with status 1.
"""

import collections
import re
import subprocess
import sys

KINDS = {"add rup": "RUP", "add rat": "RAT", "add pr": "PR", "delete": "deleted", "ignored": "ignored"}
USAGE = "usage: plot.py [--lrat | [--binary] [--pr]] FORMULA PROOF PICTURE.png|PICTURE.svg, with the trace on standard input"
OTHER = "the trace is not of this proof"


def demand(holds, text):
    if not holds:
        sys.exit("plot.py: " + text)


def alive(row):
    return row[1]


def numbers_of(path, comments=(b"c",)):
    """The words of a text, without the lines that begin so: numbers, and the letter d."""
    with open(path, "rb") as lines:
        for line in lines:
            if not line.startswith(comments):
                for word in line.split():
                    try:
                        yield "d" if word == b"d" else int(word)
                    except ValueError:
                        shown = word[:20].decode("ascii", "replace")
                        demand(False, f"{path}: no number: {shown!r}. A binary proof needs --binary")


def formula_of(path):
    """The clauses of a formula, as sets of literals."""
    clauses, clause = [], []
    for number in numbers_of(path, (b"c", b"p")):
        if number:
            clause.append(number)
        else:
            clauses.append(frozenset(clause))
            clause = []
    return clauses


def until_zero(numbers):
    return list(iter(lambda: next(numbers), 0))


def drat_steps(path):
    """The steps of a DRAT proof as text: whether it deletes, and its literals."""
    numbers = numbers_of(path)
    for first in numbers:
        if first == "d":
            yield True, until_zero(numbers)
        else:
            yield False, [first, *until_zero(numbers)] if first else []


def binary_steps(path):
    """The same of a DRAT proof in the binary form."""
    with open(path, "rb") as file:
        data = iter(file.read())
    for tag in data:
        clause, number, shift = [], 0, 0
        for byte in data:
            if byte == 0 and shift == 0:
                break
            number |= (byte & 127) << shift
            shift += 7
            if byte < 128:
                clause.append(-(number // 2) if number % 2 else number // 2)
                number, shift = 0, 0
        yield tag == ord("d"), clause


def without_set(literals):
    """The clause of an addition with --pr: its set begins where the first literal stands again."""
    return literals[: literals.index(literals[0], 1)] if literals[:1] and literals[0] in literals[1:] else literals


class ByClause:
    """The live clauses of DRAT: how many copies there are of each."""

    def __init__(self, clauses, has_sets):
        self.copies = collections.Counter(clauses)
        self.has_sets = has_sets

    def take(self, word, step):
        """Does an accepted step, and returns by how many literals more are alive."""
        deletes, literals = step
        demand(deletes == (word in ("delete", "ignored")), OTHER)
        demand(self.has_sets or word != "add pr", "the trace is of a run with --pr: plot.py needs that too")
        if word == "ignored":
            return 0
        clause = frozenset(literals if deletes or not self.has_sets else without_set(literals))
        demand(not deletes or self.copies[clause] > 0, OTHER)
        self.copies[clause] += -1 if deletes else 1
        return -len(clause) if deletes else len(clause)


class ById:
    """The live clauses of LRAT, by identifier."""

    def __init__(self, clauses):
        self.sizes = {number: len(clause) for number, clause in enumerate(clauses, 1)}

    def take(self, word, step):
        deletes, identifier, rest = step
        demand(deletes == (word == "delete"), OTHER)
        if deletes:
            demand(all(it in self.sizes for it in rest), OTHER)
            return -sum(self.sizes.pop(deleted) for deleted in rest)
        self.sizes[identifier] = len(rest)
        return len(rest)


def lrat_steps(path):
    """The steps of an LRAT proof: whether it deletes, its identifier, and the deleted identifiers or the added clause."""
    numbers = numbers_of(path)
    for identifier in numbers:
        first = next(numbers, 0)
        if first == "d":
            yield True, identifier, until_zero(numbers)
        else:
            clause = frozenset([first, *until_zero(numbers)] if first else [])
            until_zero(numbers)
            yield False, identifier, clause


def rows_of(trace, clauses, live, steps):
    """A row for each accepted step: its number, the literals alive after it, and the number of steps of each kind so far.
    The number of clauses and the peak in the trace must be those of the formula and of the rows."""
    begun = re.match(r"c formula \d+ variables (\d+) clauses\n", next(trace, ""))
    demand(begun, "standard input has no trace of a formula without a fault")
    demand(int(begun[1]) == len(clauses), "the trace is not of this formula")
    literals = sum(map(len, clauses))
    counts = dict.fromkeys(KINDS, 0)
    rows = [[0, literals, *counts.values()]]
    for line in trace:
        accepted = re.fullmatch(rf"c (\d+) ({'|'.join(KINDS)})\n", line)
        ended = re.fullmatch(r"c steps (\d+) peak (\d+)\n", line)
        if accepted:
            step = next(steps, None)
            demand(step, OTHER)
            literals += live.take(accepted[2], step)
            counts[accepted[2]] += 1
            rows.append([int(accepted[1]), literals, *counts.values()])
        elif ended:
            peak = max(map(alive, rows))
            demand(peak == int(ended[2]), f"the peak is {peak} here, and {ended[2]} in the report: was there --trace?")
    return rows


def thinned(rows):
    """Some thousand rows at most, so that a picture stays small: of each stretch the fewest literals, the most and the last."""
    length = max(1, len(rows) // 1000)
    stretches = (rows[start : start + length] for start in range(0, len(rows), length))
    kept = {tuple(row) for it in stretches for row in (min(it, key=alive), max(it, key=alive), it[-1])}
    return sorted(kept)


def quoted(text):
    return "'" + text.replace("'", "''") + "'"


def draw(rows, title, picture):
    """Two plots, one above the other, over the number of the step."""
    terminal = "svg size 900,600 font ',13'" if picture.endswith(".svg") else "pngcairo size 900,600 font ',11'"
    peak = max(rows, key=alive)
    side = "offset 1,0.3" if 2 * peak[0] < rows[-1][0] else "right offset -1,0.3"
    colours = ["#0072b2", "#d55e00", "#009e73", "#555555", "#cc79a7"]
    counts = [
        f"$rows using 1:{column} with lines linewidth 2 linecolor rgb '{colour}' title '{name}'"
        for column, (name, colour) in enumerate(zip(KINDS.values(), colours), 3)
        if rows[-1][column - 1]
    ]
    data = "\n".join(" ".join(map(str, row)) for row in thinned(rows))
    script = f"""
set terminal {terminal} noenhanced
set output {quoted(picture)}
$rows << END
{data}
END
set multiplot layout 2,1 title {quoted(title)}
set lmargin 12
set rmargin 3
set xrange [0:{rows[-1][0] or 1}]
set grid ytics linecolor rgb '#dddddd'
set border 3
set tics nomirror out
set key top left Left reverse
set ylabel 'literals alive'
set label 1 'peak {peak[1]}, after step {peak[0]}' at {peak[0]},{peak[1]} {side} point pointtype 7
set yrange [0:{peak[1] * 1.15 or 1}]
plot $rows using 1:2 with filledcurves y1=0 fillcolor rgb '#a6cee3' notitle, \
     $rows using 1:2 with lines linecolor rgb '#0072b2' notitle
unset label 1
set yrange [0:*]
set ylabel 'steps so far'
set xlabel 'step of the proof'
plot {", ".join(counts) or "0 notitle"}
unset multiplot
"""
    open(picture, "ab").close()
    try:
        ran = subprocess.run(["gnuplot"], input=script, text=True, capture_output=True, check=False)
    except FileNotFoundError:
        demand(False, "there is no gnuplot; in Debian it is in the package gnuplot-nox")
    demand(ran.returncode == 0, f"gnuplot: {' '.join(ran.stderr.split())}")


def main(words):
    options, names = {it for it in words if it.startswith("--")}, [it for it in words if not it.startswith("--")]
    is_known = options <= {"--binary", "--pr"} or options == {"--lrat"}
    if not is_known or len(names) != 3 or not names[2].endswith((".png", ".svg")):
        sys.exit(USAGE)
    formula, proof, picture = names
    sys.stdin.reconfigure(errors="replace")
    clauses = formula_of(formula)
    if "--lrat" in options:
        live, steps = ById(clauses), lrat_steps(proof)
    else:
        live, steps = ByClause(clauses, "--pr" in options), binary_steps(proof) if "--binary" in options else drat_steps(proof)
    draw(rows_of(sys.stdin, clauses, live, steps), proof.rsplit("/", 1)[-1], picture)


if __name__ == "__main__":
    try:
        main(sys.argv[1:])
    except OSError as it:
        demand(False, f"{it.filename}: {it.strerror}")
