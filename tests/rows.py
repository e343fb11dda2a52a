#!/usr/bin/env python3
"""Runs the rows of tests/rows and of examples/worked.txt, whole and in pieces, and compares what is written and the status.

    tests/rows.py [NAME]        those of this name alone

A row is run on files, which examples/worked.py does with those of worked.txt, and on pipes that hand out both inputs in pieces
of 1, 2 and 7 bytes, or of 4096 where an input is very long. Each piece is one read. Where TEST_SCAN names the program of
crates/test_scan, those of drat-forward are run by it too, which propagates by plain passes, unless an input is very long. Where a
row is verified, a search over all assignments has to agree: a formula with a proof has no model, and one with a model has one.
Last come proofs of a formula that has models, put together from a few steps, of which none may be verified.

Beside what worked.txt has, the files have

  text             a text with \\n, \\r, \\t and \\xNN, for a formula or an input; {5..7 of #x} is 5x6x7x
  rows             a table: a text in each line, and after => what stands for .. in the lines of standard output
  = .. for each    the status of a command that is run on each text of a table

LRAT_CHECK, DRAT_FORWARD and MODEL_CHECK name the programs; they are those in bin/ otherwise. The last line is "N passed, M
failed".
"""

import glob
import itertools
import os
import subprocess
import sys
import tempfile
import threading
from concurrent.futures import ThreadPoolExecutor

TOP = os.path.dirname(os.path.dirname(os.path.abspath(__file__)))
sys.path.insert(0, f"{TOP}/examples")
sys.dont_write_bytecode = True

from worked import Row, is_as_wanted, program_of, rows, run  # noqa: E402

WORKED = f"{TOP}/examples/worked.txt"
SIZES, LONG = (1, 2, 7), 300000
G = b"p cnf 2 1\n1 2 0\n"


def bytes_of(value):
    """What a file or a text has; nothing where there is no such file."""
    if isinstance(value, bytes):
        return value
    if not os.path.exists(value):
        return None
    with open(value, "rb") as file:
        return file.read()


def feed(end, data, size):
    """Writes the pieces, and closes the pipe. A program may end before it has read all."""
    with os.fdopen(end, "wb", buffering=0) as pipe:
        try:
            for at in range(0, len(data), size):
                pipe.write(data[at:at + size])
        except BrokenPipeError:
            pass


def pipe_of(data, size):
    """The end of a pipe that hands out these pieces, one a read, and what writes them."""
    out, end = os.pipe2(os.O_CLOEXEC | os.O_DIRECT)
    writer = threading.Thread(target=feed, args=(end, data, size), daemon=True)
    writer.start()
    return out, writer


def run_in_pieces(row, size):
    """What the command writes on inputs in pieces of this size, its status, and what stands on standard error."""
    paths, pipes = [], []
    for value in (row.formula, row.input):
        data = bytes_of(value)
        if data is None:
            paths.append(value)
        else:
            pipes.append(pipe_of(data, size))
            paths.append(f"/dev/fd/{pipes[-1][0]}")
    name, *options = row.command.split()
    with subprocess.Popen([program_of(name), *options, *paths], pass_fds=[out for out, _ in pipes], text=True,
                          stdin=subprocess.DEVNULL, stdout=subprocess.PIPE, stderr=subprocess.PIPE) as program:
        for out, _ in pipes:
            os.close(out)
        found, errors = program.communicate()
    for _, writer in pipes:
        writer.join()
    return found, program.returncode, errors


def cuts():
    """Whether a pipe cuts: a read takes one piece, also where more would fit and more stand ready."""
    out, writer = pipe_of(b"p cnf", 2)
    writer.join()
    with open(f"/dev/fd/{out}", "rb", buffering=0) as pipe:
        os.close(out)
        return [pipe.read(99) for _ in range(4)] == [b"p ", b"cn", b"f", b""]


def clauses_of(formula):
    """The clauses of a formula without a fault."""
    lines = [line for line in formula.decode("latin-1").split("\n") if not line.startswith("c")]
    words = [word for line in lines if not line.lstrip(" \t\r").startswith("p") for word in line.split()]
    clauses = [[]]
    for word in words:
        if word == "0":
            clauses.append([])
        else:
            clauses[-1].append(int(word))
    return clauses if clauses[-1] else clauses[:-1]


def has_model(clauses):
    """Whether an assignment meets all clauses: with a literal of the first one true, or with it false."""
    if not clauses:
        return True
    if not all(clauses):
        return False
    first = clauses[0][0]
    return any(has_model([[other for other in clause if other != -literal] for clause in clauses if literal not in clause])
               for literal in (first, -first))


def agrees(row):
    """Whether the search agrees with what is verified."""
    return row.status != 0 or has_model(clauses_of(bytes_of(row.formula))) == row.command.startswith("model-check")


def is_scanned(row):
    """Whether the row is one of drat-forward's on files that are there, and a program is named that propagates by plain passes."""
    there = None not in (bytes_of(row.formula), bytes_of(row.input))
    return there and row.command.startswith("drat-forward") and "TEST_SCAN" in os.environ


def run_by_scan(row, room):
    """What that program writes, and its status; what it tells beside is not compared."""
    written, status, _ = run(row._replace(command=row.command.replace("drat-forward", "test-scan", 1)), room)
    return written, status, "".join(row.told) if status else ""


def faults_of(row, also_whole):
    """What is wrong with a row, and how much was tried: its runs and, where it is verified, the search."""
    found = [] if agrees(row) else ["the search disagrees"]
    is_long = any(len(bytes_of(value) or b"") > LONG for value in (row.formula, row.input))
    runs = [(f"in pieces of {size}", lambda size=size: run_in_pieces(row, size)) for size in ((4096,) if is_long else SIZES)]
    with tempfile.TemporaryDirectory() as room:
        if also_whole:
            runs.append(("whole", lambda: run(row, room)))
        if is_scanned(row) and not is_long:
            runs.append(("by plain passes", lambda: run_by_scan(row, room)))
        for how, ended in runs:
            written, status, errors = ended()
            if not is_as_wanted(row, written, status, errors):
                found.append(f"{how}, status {status}:\n{written}{errors}")
    return found, len(runs) + (row.status == 0)


def unverified():
    """Proofs of a formula with models: three steps, of two literals, one and none, with hints or after other steps."""
    literals = ("", "1 ", "-1 ", "2 ", "-2 ", "3 ", "-3 ")
    hints = ("", "1 ", "2 1 ", "-1 ", "1 -2 2 ")
    starts = ("", "d 1 2 0\n", "d 1 3 0\n", "1 0\n1 2 0\nd 2 1 0\n", "3 -1 0\n")
    for one, other in itertools.product(literals, literals):
        for hint in hints:
            yield "lrat-check", f"2 {one}{other}0 {hint}0\n3 {one}0 {hint}0\n4 0 {hint}0\n"
        for start in starts:
            yield "drat-forward", f"{start}{one}{other}0\n{one}0\n0\n"


def is_unverified(of):
    """Whether the program answers that such a proof isn't verified."""
    command, proof = of
    with tempfile.TemporaryDirectory() as room:
        row = Row(proof, 0, G, proof.encode(), command, "", 1, [])
        written, status, _ = run(row, room)
    return status == 1 and written.endswith("\ns NOT VERIFIED\n")


def main(only):
    for name in ("lrat-check", "drat-forward", "model-check"):
        os.environ.setdefault(name.replace("-", "_").upper(), f"{TOP}/bin/{name}")
    for name in ("lrat-check", "drat-forward", "model-check", *(["test-scan"] if "TEST_SCAN" in os.environ else [])):
        if not os.access(program_of(name), os.X_OK):
            print(f"FAILED: there is no program {program_of(name)}\n0 passed, 1 failed")
            return 1
    todo = [(path, row) for path in (WORKED, *sorted(glob.glob(f"{TOP}/tests/rows/*.txt")))
            for row in rows(path) if only in (None, row.name.partition(":")[0])]
    passed, wrong = 0, []
    if not cuts():
        wrong.append("FAILED: a pipe hands out more than a piece at once")
    with ThreadPoolExecutor(os.cpu_count()) as pool:
        for (path, row), (faults, tried) in zip(todo, pool.map(lambda one: faults_of(one[1], one[0] != WORKED), todo)):
            passed += tried - len(faults)
            wrong += [f"FAILED: {os.path.basename(path)}, line {row.number}, {row.name}: {fault}" for fault in faults]
        if not only:
            proofs = list(unverified())
            for (command, proof), well in zip(proofs, pool.map(is_unverified, proofs)):
                passed += well
                wrong += [] if well else [f"FAILED: {command} on a formula with models: {proof}"]
    for line in wrong:
        print(line)
    print(f"{passed} passed, {len(wrong)} failed")
    return 0 if passed and not wrong else 1


if __name__ == "__main__":
    sys.exit(main(sys.argv[1] if len(sys.argv) > 1 else None))
