#!/usr/bin/env python3
"""Runs the programs as strangers do who take the wrong file or the wrong way, and looks at the hint that standard error has.

Each row of MISUSES makes its files, and says the status and the hint. Where the hint has a command, this is run too, as pasted
into a shell, and has to end as the row says. Then come PAIRS formulas and second inputs by chance, right ones and wrong ones:
what a hint says of a file has to be so, as a judgement that knows nothing of the programs' rules finds it.

    misuse.py [NAME]        the rows of this name alone, with what they write

LRAT_CHECK, DRAT_FORWARD and MODEL_CHECK name the programs; they are those in bin/ otherwise. The last line is "N passed, M
failed".
"""

import gzip
import os
import shutil
import subprocess
import sys
import tempfile
from collections import Counter, namedtuple

import misuse_files as files
import misuse_pairs as pairs

TOP = os.path.dirname(os.path.dirname(os.path.abspath(__file__)))
TOOLS = ("drat-forward", "lrat-check", "model-check")
PAIRS = 1000
SEED = 20260101
# that so many hints come up at least, so that the pairs show something
HINTS_OF_PAIRS = 250

# name, command line, files by name, status, hint (None for none), and the status of the command that the hint has, if any
Misuse = namedtuple("Misuse", "name line files status hint pasted", defaults=(None,))
Run = namedtuple("Run", "status report told hints")

GZIP = "this is compressed by gzip: zcat "
MINISAT = "this is MiniSat's own form: sed 's/^SAT$/s SATISFIABLE/; s/^UNSAT$/s UNSATISFIABLE/; s/^[-0-9]/v &/'"
EMPTY = "this is empty, or has comments alone"
CUT = "the proof ends inside a step, so it may have been cut short"

E = {"e.cnf": files.FORMULA}
G = {"g.cnf": files.SATISFIABLE}


def of_proof(name, line, content, status, hint, pasted=None):
    """A misuse of e.cnf, which has no model, with the last file of the line as its proof."""
    return Misuse(name, line, {**E, line.split()[-1]: content}, status, hint, pasted)


def of_output(name, content, hint, pasted=None):
    """A misuse of g.cnf, which has a model, with m.out as what a solver wrote."""
    return Misuse(name, "model-check g.cnf m.out", {**G, "m.out": content}, 2, hint, pasted)


def of_formula(name, content, hint, pasted=None):
    """A misuse of f.cnf as the formula of a right proof."""
    return Misuse(name, "drat-forward f.cnf e.drat", {"f.cnf": content, "e.drat": files.DRAT}, 2, hint, pasted)


def compressed():
    for kind, cat, end in ("gzip", "zcat", "gz"), ("xz", "xzcat", "xz"), ("bzip2", "bzcat", "bz2"), ("zstd", "zstdcat", "zst"):
        told = f"this is compressed by {kind}: {cat}"
        packed = {f"e.cnf.{end}": files.PACKED[kind](files.FORMULA), "e.drat": files.DRAT}
        yield Misuse(f"formula by {kind}", f"drat-forward e.cnf.{end} e.drat", packed, 2,
                     f"{told} e.cnf.{end} | drat-forward - e.drat", 0)
        yield of_proof(f"proof by {kind}", f"drat-forward --binary e.cnf e.bin.{end}", files.PACKED[kind](files.BINARY), 2,
                       f"{told} e.bin.{end} | drat-forward --binary e.cnf", 0)
    zipped = gzip.compress
    yield of_proof("LRAT by gzip", "lrat-check --trace e.cnf e.lrat.gz", zipped(files.LRAT), 2,
                   f"{GZIP}e.lrat.gz | lrat-check --trace e.cnf", 0)
    yield of_output("output by gzip", zipped(files.MODEL), f"{GZIP}m.out | model-check g.cnf", 0)
    yield Misuse("gzip on standard input", "cat e.gz | drat-forward e.cnf", {**E, "e.gz": zipped(files.DRAT)}, 2,
                 f"{GZIP}PROOF | drat-forward e.cnf")
    yield Misuse("a name that a shell reads", "drat-forward 'e $(x).gz' e.drat",
                 {"e $(x).gz": zipped(files.FORMULA), "e.drat": files.DRAT}, 2, f"{GZIP}FORMULA | drat-forward - e.drat")


def other_forms():
    binary, text = "this is a proof in the binary form: drat-forward --binary", "this is a proof as text: drat-forward"
    lrat, drat = "this reads as LRAT: lrat-check e.cnf e.lrat", "this reads as DRAT: drat-forward e.cnf e.drat"
    yield of_proof("binary proof as text", "drat-forward e.cnf e.bin", files.BINARY, 2, f"{binary} e.cnf e.bin", 0)
    yield of_proof("binary proof that begins with d", "drat-forward --strict e.cnf e.bin", files.BINARY_DELETES, 2,
                   f"{binary} --strict e.cnf e.bin", 0)
    yield of_proof("text as binary", "drat-forward --binary e.cnf e.drat", files.DRAT, 2, f"{text} e.cnf e.drat", 0)
    yield of_proof("text that begins with d as binary", "drat-forward --binary --trace e.cnf e.drat", files.DRAT_DELETES, 2,
                   f"{text} --trace e.cnf e.drat", 0)
    yield of_proof("text behind comments as binary", "drat-forward --binary e.cnf e.drat", files.BANNER + files.DRAT, 2,
                   f"{text} e.cnf e.drat", 0)
    yield of_proof("LRAT for drat-forward", "drat-forward e.cnf e.lrat", files.LRAT, 1, lrat, 0)
    yield of_proof("LRAT with deletions for drat-forward", "drat-forward e.cnf e.lrat", files.LRAT_DELETES, 2, lrat, 0)
    yield of_proof("LRAT for drat-forward --binary", "drat-forward --binary e.cnf e.lrat", files.LRAT, 2, lrat, 0)
    yield of_proof("DRAT for lrat-check", "lrat-check e.cnf e.drat", files.DRAT, 1, drat, 0)
    yield of_proof("DRAT with deletions for lrat-check", "lrat-check e.cnf e.drat", files.DRAT_DELETES, 2, drat, 0)
    for name, content in ("DRAT", files.BINARY), ("LRAT", files.BINARY_LRAT):
        yield of_proof(f"binary {name} for lrat-check", "lrat-check e.cnf e.bin", content, 2,
                       "this is a proof in a binary form, and LRAT is read as text alone")
    yield of_proof("binary LRAT for drat-forward", "drat-forward e.cnf e.lrat", files.BINARY_LRAT, 2, None)
    yield of_proof("a byte order mark before the proof", "drat-forward e.cnf e.drat", b"\xef\xbb\xbf" + files.DRAT, 2,
                   "this begins with a byte order mark: tail -c +4 e.drat | drat-forward e.cnf", 0)


def other_proofs():
    frat = "this is FRAT: sed -n 's/ l .*//; s/^a [0-9]* //p; s/^d [0-9]* /d /p' p.frat | drat-forward e.cnf"
    yield of_proof("FRAT", "drat-forward e.cnf p.frat", files.FRAT, 2, frat, 0)
    yield of_proof("FRAT that begins with a", "drat-forward e.cnf p.frat", files.FRAT_ADDS, 2, frat, 0)
    yield of_proof("FRAT for lrat-check", "lrat-check e.cnf p.frat", files.FRAT, 2, frat, 0)
    yield of_proof("binary FRAT", "drat-forward --binary e.cnf p.frat", files.BINARY_FRAT, 2,
                   "this is FRAT in the binary form, which is not read")
    yield of_proof("the first line of old proofs", "drat-forward e.cnf p.drat", b"o proof DRAT\n" + files.DRAT, 2,
                   "the line 'o proof' is no step: sed '/^o /d' p.drat | drat-forward e.cnf", 0)
    yield of_proof("VeriPB", "drat-forward e.cnf p.pbp", files.VERIPB, 2, "this is a proof for VeriPB, which is not read")
    pigeons, listing = files.pigeons()
    yield Misuse("PR without --pr", "drat-forward x.cnf p.dpr", {"x.cnf": pigeons, "p.dpr": listing}, 1,
                 "a step writes its first literal twice, as before a witness: drat-forward --pr x.cnf p.dpr", 0)
    deletes = {"x.cnf": files.CHAIN, "p.drat": b"d -1 2 0\n2 0\n"}
    yield Misuse("a reason clause deleted", "drat-forward x.cnf p.drat", deletes, 1,
                 "the proof deleted the reason clause of a root-level literal: --keep-units may accept it")
    yield of_proof("an empty proof", "drat-forward e.cnf p.drat", b"", 1, EMPTY)
    yield of_proof("an empty LRAT proof", "lrat-check e.cnf p.lrat", b"", 1, EMPTY)
    yield of_proof("a proof cut short", "drat-forward e.cnf p.drat", b"2 0\n-1", 2, CUT)
    yield of_proof("a binary proof cut short", "drat-forward --binary e.cnf p.bin", files.BINARY[:2], 2, CUT)
    yield of_proof("LRAT cut short", "lrat-check e.cnf p.lrat", files.LRAT[:-3], 2, CUT)
    yield of_proof("a changed digit", "drat-forward e.cnf p.drat", b"2 0\nx 0\n", 2, None)
    yield Misuse("a wrong step", "drat-forward g.cnf p.drat", {**G, "p.drat": b"-1 0\n0\n"}, 1, None)


def printed():
    no_proof = "this is a solver's output, not its proof"
    yield of_proof("output as the proof", "drat-forward e.cnf m.out", files.BANNER + b"s UNSATISFIABLE\n", 2, no_proof)
    yield of_proof("output as the binary proof", "drat-forward --binary e.cnf m.out", b"s UNSATISFIABLE\n", 2, no_proof)
    yield of_proof("output as LRAT", "lrat-check e.cnf m.out", b"c\ns UNSATISFIABLE\n", 2, no_proof)
    yield of_proof("MiniSat's result as the proof", "drat-forward e.cnf m.out", b"UNSAT\n", 2, no_proof)
    between = "other lines stand between: grep '^[csv]' m.out | model-check g.cnf"
    yield of_output("a warning before", b"WARNING: set to double precision\n" + files.MODEL, between, 0)
    yield of_output("costs before", b"o 5\n" + files.MODEL, between, 0)
    yield of_output("a word behind", files.MODEL + b"done\n", between, 0)
    yield of_output("MiniSat's result", files.MINISAT, f"{MINISAT} m.out | model-check g.cnf", 0)
    yield of_output("clasp's own form", files.CLASP, "this is clasp's own form: clasp --outf=1 g.cnf | model-check g.cnf")
    yield of_output("a model alone", b"1 2 0\n",
                    "the lines of a model begin with 'v', and a line 's SATISFIABLE' stands with them")
    yield of_output("no status line", b"v 1 2 0\n",
                    "the line 's SATISFIABLE' is missing: { echo s SATISFIABLE; cat m.out; } | model-check g.cnf", 0)
    yield of_output("no last 0", b"s SATISFIABLE\nv 1 2\n",
                    "no 0 ends the 'v' lines: { cat m.out; printf '\\nv 0\\n'; } | model-check g.cnf", 0)
    yield of_output("a proof as the output", files.BINARY, "this is a proof, not a solver's output")
    yield of_output("a solver that wrote nothing", b"", EMPTY)
    yield of_output("a solver that wrote comments", files.BANNER, EMPTY)
    yield of_output("a changed letter", b"s SATISFIABLF\nv 1 0\n", None)


def exchanged():
    first = "this is a proof, and the formula is named first: "
    proofs = {"e.drat": files.DRAT_DELETES, "p.drat": files.BANNER + files.DRAT_DELETES, "e.bin": files.BINARY,
              "e.lrat": files.LRAT_DELETES}
    for line in "drat-forward e.drat", "drat-forward p.drat", "drat-forward --binary e.bin", "lrat-check e.lrat":
        *words, proof = line.split()
        yield Misuse(f"exchanged: {line}", f"{line} e.cnf", {**E, **proofs}, 2, f"{first}{' '.join(words)} e.cnf {proof}", 0)
    yield Misuse("exchanged: model-check", "model-check g.out g.cnf",
                 {"g.out": files.MODEL, "g.cnf": files.BANNER + files.SATISFIABLE}, 2,
                 "this is a formula, which is named first: model-check g.cnf g.out", 0)
    yield Misuse("the formula twice", "drat-forward e.cnf e.cnf", E, 2, "this is a formula, not a proof")
    yield Misuse("the formula twice behind a comment", "lrat-check e.cnf e.cnf", {"e.cnf": b"c e\n" + files.FORMULA}, 2,
                 "this is a formula, not a proof")
    yield Misuse("output as the formula", "drat-forward m.out e.drat", {"m.out": b"s UNSATISFIABLE\n", "e.drat": files.DRAT}, 2,
                 "this is a solver's output, not a formula")


def other_formulas():
    clauses = files.FORMULA.split(b"\n", 1)[1]
    headerless = "no line 'p cnf VARIABLES CLAUSES' stands before the first number: add it, or name the formula first"
    satlib = "the end is SATLIB's: sed '/^%/,$d' f.cnf | drat-forward - e.drat"
    yield of_formula("no header", clauses, headerless)
    yield of_formula("no header behind comments", files.BANNER + clauses, headerless)
    yield of_formula("SATLIB's end", files.FORMULA + b"%\n0\n", satlib, 0)
    yield of_formula("SATLIB's end and blank lines", files.FORMULA + b"%\n0\n\n\n \n", satlib, 0)
    yield of_formula("SATLIB's end with CRLF", (files.FORMULA + b"%\n0\n\n").replace(b"\n", b"\r\n"), satlib, 0)
    yield of_formula("a % elsewhere", files.FORMULA.replace(b"-1 -2 0\n", b"%\n-1 -2 0\n"), None)
    yield of_formula("WCNF", b"c\np wcnf 2 1 9\n9 1 2 0\n", "this is a weighted formula (WCNF), which is not read")
    yield of_formula("WCNF of 2022", b"h 1 2 0\n5 -1 0\n", "this is a weighted formula (WCNF), which is not read")
    yield of_formula("OPB", b"* #variable= 2 #constraint= 1\n+1 x1 +1 x2 >= 1 ;\n",
                     "this is a pseudo-Boolean formula (OPB), which is not read")
    yield of_formula("a byte order mark", b"\xef\xbb\xbf" + files.FORMULA,
                     "this begins with a byte order mark: tail -c +4 f.cnf | drat-forward - e.drat", 0)
    yield of_formula("UTF-16", files.FORMULA.decode().encode("utf-16"),
                     "this is UTF-16: iconv -f UTF-16 -t UTF-8 f.cnf | drat-forward - e.drat", 0)
    yield of_formula("a web page", b"\n<!DOCTYPE html>\n<title>404</title>\n",
                     "this is a web page, not the file that it should be")
    yield of_formula("an empty file", b"", EMPTY)
    yield of_formula("another file", b"#!/bin/sh\n", None)
    yield of_formula("a short header", b"p cnf 2\n1 0\n", None)


def misuses():
    for group in compressed, other_forms, other_proofs, printed, exchanged, other_formulas:
        yield from group()


# standard error's first line, where the header's number of clauses helps
COUNTS = (
    ("too few clauses", files.FORMULA.replace(b"2 5", b"2 6"), "line 7, column 1: too few clauses", 6),
    ("too many clauses", files.FORMULA.replace(b"2 5", b"2 4"), "line 6, column 1: too many clauses", 4),
    ("too few behind comments", files.BANNER + b"p cnf 2 7\n1 0\n", None, 7),
)


def programs_in(room):
    """A PATH on which the programs stand under their names, before all others."""
    os.mkdir(f"{room}/bin")
    for tool in TOOLS:
        path = os.environ.get(tool.upper().replace("-", "_"), f"{TOP}/bin/{tool}")
        if not os.access(path, os.X_OK):
            sys.exit(f"FAILED: there is no program {path}\n0 passed, 1 failed")
        os.symlink(os.path.abspath(path), f"{room}/bin/{tool}")
    return {**os.environ, "PATH": f"{room}/bin:{os.environ['PATH']}"}


def run(line, folder, environment):
    """What a line in a shell gives."""
    ended = subprocess.run(["bash", "-c", line], cwd=folder, env=environment, stdin=subprocess.DEVNULL,
                           capture_output=True, check=False)
    told = ended.stderr.decode("utf-8", "replace").splitlines()
    hints = [row.split(": hint: ", 1)[1] for row in told if ": hint: " in row]
    return Run(ended.returncode, ended.stdout.decode("ascii", "replace"), told, hints)


def made(room, contents):
    """A new folder with these files."""
    folder = tempfile.mkdtemp(dir=room)
    for name, content in contents.items():
        with open(f"{folder}/{name}", "wb") as file:
            file.write(content)
    return folder


def faults_of(misuse, room, environment, shows):
    """What isn't as the row says."""
    folder = made(room, misuse.files)
    ended = run(misuse.line, folder, environment)
    if shows:
        print(f"$ {misuse.line}\n{ended.report}" + "\n".join(ended.told))
    if ended.status != misuse.status:
        yield f"status {ended.status}, and not {misuse.status}"
    wanted = [misuse.hint] if misuse.hint else []
    if ended.hints != wanted:
        yield f"the hint is {ended.hints}, and not {wanted}"
    command = misuse.hint.split(": ", 1)[1] if misuse.pasted is not None else ""
    if command and not shutil.which(command.split()[0], path=environment["PATH"]) and command[0] != "{":
        print(f"skipped: there is no {command.split()[0]}")
    elif command:
        pasted = run(command, folder, environment)
        if pasted.status != misuse.pasted:
            yield f"the pasted command ends with {pasted.status}, and not {misuse.pasted}: {pasted.told}"


def of_table(room, environment, only):
    """Each row of the table, and what isn't as it says."""
    for misuse in misuses():
        if only in ("", misuse.name):
            yield misuse.name, list(faults_of(misuse, room, environment, only))


def of_counts(room, environment):
    """Where there are more clauses or fewer than the header says, its number is told."""
    for name, formula, place, clauses in COUNTS:
        folder = made(room, {"f.cnf": formula, "e.drat": files.DRAT})
        ended = run("drat-forward f.cnf e.drat", folder, environment)
        tail = f": the header's number of clauses is {clauses}"
        well = ended.status == 2 and ended.told and ended.told[0].endswith(tail) and (place or "") in ended.told[0]
        yield name, [] if well else [f"status {ended.status}, told {ended.told}"]


def of_pairs(room, environment):
    """Each pair, and what a hint says falsely of it; at the end, whether there were hints enough to show something."""
    seen = Counter()
    for number, pair in enumerate(pairs.pairs(SEED, PAIRS)):
        folder = made(room, {"f": pair.formula.content, "s": pair.second.content})
        ended = run(pair.line, folder, environment)
        wrong = [hint for hint in ended.hints if not pairs.is_so(hint, pair)]
        seen.update(hint.split(": ")[0] for hint in ended.hints)
        kinds = f"{pair.formula.kind}, {pair.second.kind}"
        yield f"pair {number} ({kinds}): {pair.line}", [f"it is not so: {hint}" for hint in wrong]
    few = sum(seen.values()) < HINTS_OF_PAIRS
    yield "hints of pairs", [f"{sum(seen.values())} hints alone: {dict(seen)}"] if few else []


def main():
    only = sys.argv[1] if len(sys.argv) > 1 else ""
    passed = failed = 0
    with tempfile.TemporaryDirectory() as room:
        environment = programs_in(room)
        tests = [of_table(room, environment, only)]
        if not only:
            tests += [of_counts(room, environment), of_pairs(room, environment)]
        for test in tests:
            for name, faults in test:
                passed, failed = passed + (not faults), failed + bool(faults)
                for fault in faults:
                    print(f"FAILED: {name}: {fault}")
    print(f"{passed} passed, {failed} failed")
    return 0 if passed and not failed else 1


if __name__ == "__main__":
    sys.exit(main())
