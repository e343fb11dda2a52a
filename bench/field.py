#!/usr/bin/env python3
"""Measures proof checkers side by side, on formulas of formulas.py and examples/pigeonhole.py. bench/field.sh says how to call
it, and has the tools.

Each checker of a table checks the same proof. They run by turns, three times; the least seconds of a processor count, in user
and system mode, and the peak of memory (resident set). The solver ran once. The last row has geometric means over all proofs
that both verify: the seconds of the first checker, where each took a twentieth or more, and its memory, over those of the
other. Tables of large inputs have no means. Formulas and proofs are kept in bench/out/field/, and proofs are made again where
the solver's version changes. The status is 0 only where our checkers verify all proofs.
"""

import math
import os
import re
import resource
import subprocess
import sys

HERE = os.path.dirname(os.path.abspath(__file__))
OUT = os.path.join(HERE, "out")
MADE = os.path.join(OUT, "field")
ROUNDS, LIMIT, LEAST = 3, 600, 0.05

# what the table calls it, the words that make it, and those that make a small one
FORMULAS = [
    ("ten pigeons in nine holes", "pigeonhole 9", "pigeonhole 6"),
    ("an order of 60 elements without a least one", "order 60", "order 20"),
    ("250 variables at random, 1125 clauses", "random 250 1125 1", "random 120 540 1"),
    ("sums of three numbers of 256 bits", "sums 256", "sums 32"),
    ("products of two numbers of 7 bits", "products 7", "products 5"),
    ("sorting networks for 24 bits", "sorters 24", "sorters 12"),
    ("parity of 32 bits in two orders", "parity 32 1", "parity 16 1"),
    ("a token in a ring of 20, 32 steps", "ring 20 32", "ring 8 8"),
    ("dominoes on 12 times 12 squares", "dominoes 12", "dominoes 8"),
    ("77 numbers in two colours, progressions of 3 and 9", "waerden 3 9 77", "waerden 3 6 32"),
    ("pigeons hidden in 250000 clauses", "hidden 100000 250000 1 8", "hidden 1000 2500 1 5"),
]

# The same of large inputs. The proofs of the first one have two steps, and are written here.
LARGE = [
    ("five million clauses at random", "many 1700000 5000000 1", "many 1700 5000 1"),
    ("sums of three numbers of 2048 bits", "sums 2048", "sums 48"),
]


def tool(variable):
    return os.environ[variable]


def reference(name):
    return os.path.join(OUT, name)


class Contest:
    """A table: whose proofs of which form, and the checkers, ours first: name, program, and the options after both files. Some
    solvers have a checker of their own, and options for it."""

    def __init__(self, solver, form, solve, checkers, own=None, is_large=False):
        self.solver = solver
        self.form = form
        self.solve = solve
        self.checkers = checkers
        self.own = own
        self.is_large = is_large


def contests(is_large):
    drat = [
        ("`drat-forward`", tool("DRAT_FORWARD"), []),
        ("`reference_drat.cpp`", reference("reference_drat"), []),
        ("DRAT-trim", tool("DRAT_TRIM"), ["-w"]),
        ("DRAT-trim, forward", tool("DRAT_TRIM"), ["-f", "-w"]),
    ]
    lrat = [
        ("`lrat-check`", tool("LRAT_CHECK"), []),
        ("`reference.cpp`", reference("reference"), []),
        ("DRAT-trim's `lrat-check`", tool("DRAT_TRIM_LRAT_CHECK"), []),
    ]
    if tool("ACL2_VERSION") and not is_large:
        lrat.append(("ACL2's checker", os.path.join(HERE, "acl2_lrat.sh"), []))
    # DRAT-trim and drat-forward take the binary form, which the solvers write unless they are told not to
    binary = [
        ("`drat-forward --binary`", tool("DRAT_FORWARD"), ["--binary"]),
        ("DRAT-trim", tool("DRAT_TRIM"), ["-w"]),
        ("DRAT-trim, forward", tool("DRAT_TRIM"), ["-f", "-w"]),
    ]
    quiet = ["-q", "-n"]
    text = [*quiet, "--no-binary"]
    if is_large:
        return [
            Contest("CaDiCaL", "DRAT", [tool("CADICAL"), *text], drat, is_large=True),
            Contest("CaDiCaL", "LRAT", [tool("CADICAL"), *text, "--lrat"], lrat, is_large=True),
        ]
    return [
        Contest("CaDiCaL", "DRAT", [tool("CADICAL"), *text], drat, own=["--check", "--checkprooflrat=0"]),
        Contest("Kissat", "DRAT", [tool("KISSAT"), *text], drat),
        Contest("CaDiCaL", "LRAT", [tool("CADICAL"), *text, "--lrat"], lrat),
        Contest("CaDiCaL", "binary DRAT", [tool("CADICAL"), *quiet], binary),
        Contest("Kissat", "binary DRAT", [tool("KISSAT"), *quiet], binary),
    ]


def version_of(program):
    return subprocess.run([program, "--version"], stdout=subprocess.PIPE, text=True, check=True).stdout.strip()


def limited():
    """Ends what runs for longer, in seconds of a processor."""
    resource.setrlimit(resource.RLIMIT_CPU, (LIMIT, LIMIT))


class Run:
    """One run of a command."""

    def __init__(self, command):
        words = [os.path.join(OUT, "measure"), "--once", *command]
        ran = subprocess.run(words, stdin=subprocess.DEVNULL, capture_output=True, preexec_fn=limited, check=True)
        status, seconds, kilobytes = ran.stderr.split(b"\n")[-2].split()
        self.status = int(status)
        self.megabytes = int(kilobytes) * 1024 / 1e6
        lines = ran.stdout.replace(b"\r", b"\n")
        self.is_verified = bool(re.search(rb"^[sc] VERIFIED$", lines, re.MULTILINE))
        # acl2_lrat.sh tells what its checker took
        told = re.search(rb"^c seconds ([\d.]+)$", lines, re.MULTILINE)
        self.seconds = float(told[1] if told else seconds)


def formula_of(words):
    """The path of a formula without its ending, which is made where it isn't there."""
    path = os.path.join(MADE, words.replace(" ", "-"))
    if not os.path.exists(f"{path}.cnf"):
        kind, *numbers = words.split()
        script = [os.path.join(HERE, "formulas.py"), kind, *numbers, f"{path}.cnf.part"]
        if kind == "pigeonhole":
            script = [os.path.join(HERE, "..", "examples", "pigeonhole.py"), *numbers, f"{path}.cnf.part", os.devnull]
        subprocess.run([sys.executable, *script], check=True)
        os.rename(f"{path}.cnf.part", f"{path}.cnf")
    return path


def short_proof(form, words, proof):
    """Writes the proof of a formula of the kind `many`, whose last four clauses clash: a unit clause and the empty one."""
    variables, count, _ = map(int, words.split()[1:])
    a, first = variables + 1, count + 1
    lrat = f"{first + 4} {a} 0 {first} {first + 1} 0\n{first + 5} 0 {first + 4} {first + 2} {first + 3} 0\n"
    with open(proof, "w", encoding="ascii") as lines:
        lines.write(lrat if form == "LRAT" else f"{a} 0\n0\n")


def proof_of(contest, path, words):
    """A proof of a formula, and the seconds that the solver took for it, none if it is written here; made where it isn't there."""
    ending = f"{contest.solver}.{contest.form}".lower().replace(" ", "-")
    proof = f"{path}.{ending}"
    if words.startswith("many "):
        short_proof(contest.form, words, proof)
        return proof, None
    note = f"{contest.solver} {version_of(contest.solve[0])}"
    noted = []
    if os.path.exists(f"{proof}.made"):
        with open(f"{proof}.made", encoding="utf-8") as lines:
            noted = lines.read().split("\n")
    if noted[:1] != [note]:
        ran = Run([*contest.solve, f"{path}.cnf", proof])
        if ran.status != 20:
            sys.exit(f"field.py: {note} ended with status {ran.status} on {path}.cnf")
        noted = [note, str(ran.seconds)]
        with open(f"{proof}.made", "w", encoding="utf-8") as lines:
            lines.write("\n".join(noted) + "\n")
    return proof, float(noted[1])


def least_of(checkers, formula, proof, rounds):
    """The least of each checker's runs, by turns, with the greatest peak. It verifies only what it verified each time."""
    best = {}
    for _ in range(rounds):
        for name, program, options in checkers:
            run = Run([program, formula, proof, *options])
            before = best.setdefault(name, run)
            run.megabytes = before.megabytes = max(run.megabytes, before.megabytes)
            run.is_verified = before.is_verified = run.is_verified and before.is_verified
            if run.seconds < before.seconds:
                best[name] = run
    return best


def own_check(contest, path):
    """The seconds that a solver takes longer where it checks what it learns itself, and writes no proof."""
    solve = [contest.solve[0], "-q", "-n"]
    plain, checked = Run([*solve, f"{path}.cnf"]), Run([*solve, *contest.own, f"{path}.cnf"])
    return max(checked.seconds - plain.seconds, 0.0)


def cell(run):
    if run.is_verified:
        return f"{run.seconds:.2f} s, {run.megabytes:.0f} MB"
    return f"not verified: status {run.status}"


def mean_of_its(word, pairs):
    """The geometric mean of our values over the other's."""
    if not pairs:
        return ""
    mean = math.exp(sum(math.log(ours / other) for ours, other in pairs) / len(pairs))
    return f"{mean:.2f} of its {word}"


def means(ours, others):
    """What the last row says of one other checker."""
    both = [(a, b) for a, b in zip(ours, others, strict=True) if a.is_verified and b.is_verified]
    seconds = [(a.seconds, b.seconds) for a, b in both if min(a.seconds, b.seconds) >= LEAST]
    parts = mean_of_its("time", seconds), mean_of_its("memory", [(a.megabytes, b.megabytes) for a, b in both])
    return ", ".join(filter(None, parts))


def mean_over(ours, seconds):
    """What the last row says of a column of seconds."""
    return mean_of_its("time", [(a.seconds, b) for a, b in zip(ours, seconds, strict=True) if min(a.seconds, b) >= LEAST])


def last_row(contest, names, runs, solved, own):
    """The geometric means."""
    ours, *others = names
    return ["geometric mean", "", mean_over(runs[ours], solved), "", *(means(runs[ours], runs[it]) for it in others),
            *([mean_over(runs[ours], own)] if contest.own else [])]


def table_of(contest, formulas, rounds):
    """The rows of a table, and whether our checker verified all."""
    names = [name for name, *_ in contest.checkers]
    last = [f"{contest.solver}'s own checker"] if contest.own else []
    size_of = ["CNF"] if contest.is_large else []
    rows = [["Formula", *size_of, contest.form, contest.solver, *names, *last]]
    solved, runs, own = [], {it: [] for it in names}, []
    for label, words in formulas:
        print(f"{contest.solver}, {contest.form}: {label}", file=sys.stderr, flush=True)
        path = formula_of(words)
        proof, seconds = proof_of(contest, path, words)
        best = least_of(contest.checkers, f"{path}.cnf", proof, rounds)
        solved.append(seconds)
        for name in names:
            runs[name].append(best[name])
        own += [own_check(contest, path)] if contest.own else []
        sizes = [f"{os.path.getsize(it) / 1e6:.1f} MB" for it in ([f"{path}.cnf"] if contest.is_large else []) + [proof]]
        cells = [*(cell(best[it]) for it in names), *(f"{it:.2f} s" for it in own[-1:])]
        rows.append([label, *sizes, "" if seconds is None else f"{seconds:.2f} s", *cells])
    if not contest.is_large:
        rows.append(last_row(contest, names, runs, solved, own))
    return rows, all(it.is_verified for it in runs[names[0]])


def shown(rows, is_markdown):
    if is_markdown:
        lines = ["| " + " | ".join(row) + " |" for row in rows]
        return "\n".join([lines[0], "|" + "---|" * len(rows[0]), *lines[1:]])
    rows = [[it.replace("`", "") for it in row] for row in rows]
    widths = [max(map(len, column)) for column in zip(*rows)]
    return "\n".join("  ".join(it.ljust(width) for it, width in zip(row, widths)).rstrip() for row in rows)


def first_of(path, pattern, otherwise):
    with open(path, encoding="utf-8") as lines:
        found = re.search(pattern, lines.read(), re.MULTILINE)
    return found[1] if found else otherwise


def machine():
    """What the figures depend on: processors, system, versions, and what else is at work."""
    processor = first_of("/proc/cpuinfo", r"^model name\s*: (.*)$", os.uname().machine)
    system = first_of("/etc/os-release", r'^PRETTY_NAME="?(.*?)"?$', os.uname().sysname)
    solvers = f"CaDiCaL {version_of(tool('CADICAL'))}, Kissat {version_of(tool('KISSAT'))}"
    trim = f"DRAT-trim {os.environ.get('DRAT_TRIM_VERSION') or 'of an unknown version'}"
    acl2 = f", ACL2 {tool('ACL2_VERSION')}" if tool("ACL2_VERSION") else ""
    load = f"load average {os.getloadavg()[0]:.1f} before the first run"
    return f"{processor}, {os.cpu_count()} processors, {system}; {solvers}, {trim}{acl2}; {load}."


def main(words):
    is_markdown, is_small, is_large = (it in words for it in ("--markdown", "small", "large"))
    kinds, known = set(words) - {"--markdown", "small", "large"}, LARGE if is_large else FORMULAS
    if kinds - {row[1].split()[0] for row in known}:
        kinds_of = ", ".join(row[1].split()[0] for row in known)
        sys.exit(f"usage: bench/field.sh [--markdown] [small] [large] [KIND..] | --tools, with kinds among {kinds_of}")
    chosen = [it for it in known if not kinds or it[1].split()[0] in kinds]
    formulas = [(small, small) if is_small else (label, usual) for label, usual, small in chosen]
    os.makedirs(MADE, exist_ok=True)
    print(machine(), flush=True)
    passed = True
    for contest in contests(is_large):
        rows, is_verified = table_of(contest, formulas, 1 if is_small else ROUNDS)
        passed &= is_verified
        print(f"\n{shown(rows, is_markdown)}", flush=True)
    return 0 if passed else 1


if __name__ == "__main__":
    sys.exit(main(sys.argv[1:]))
