#!/usr/bin/env python3
"""Runs the programs on a terminal, and looks at what they tell there of how far they are: one line that is written over once a
second, from the second second on, and that is gone at the end; nothing where standard error is no terminal.

LRAT_CHECK, DRAT_FORWARD and MODEL_CHECK name the programs; they are those in bin/ otherwise. The last line is "N passed, M
failed".
"""

import os
import pty
import re
import subprocess
import sys
import time
import tty

TOP = os.path.dirname(os.path.dirname(os.path.abspath(__file__)))
FORMULA = f"{TOP}/examples/e.cnf"
REPORT = "c formula 2 variables 4 clauses\n"
GONE = "\r\x1b[K"
# the second input, by pieces that come so many seconds after one another
# what is told of these inputs once they are read
AFTER = {"model-check": "model-check: standard input: no consistent model is claimed\n"}

SLOW = {
    "drat-forward": [(0, "c slow\n"), (2.2, "c slower\n"), (1.1, "1 0\n0\n")],
    "lrat-check": [(0, "c slow\n"), (2.2, "c slower\n"), (1.1, "5 1 0 1 3 0\n6 0 5 2 4 0\n")],
    "model-check": [(0, "c slow\n"), (2.2, "c slower\n"), (1.1, "s UNKNOWN\n")],
}
QUICK = [(0, "1 0\n0\n")]


def run(name, pieces, onto):
    """What a run puts on the terminal, onto which the streams of these names go, and what it writes elsewhere."""
    above, below = pty.openpty()
    tty.setraw(below)
    words = [os.path.abspath(os.environ.get(name.upper().replace("-", "_"), f"{TOP}/bin/{name}")), FORMULA]
    streams = {stream: below if stream in onto else subprocess.PIPE for stream in ("stdin", "stdout", "stderr")}
    with subprocess.Popen(words, **streams) as started:
        os.close(below)
        for seconds, text in pieces:
            time.sleep(seconds)
            os.write(above if "stdin" in onto else started.stdin.fileno(), text.encode())
        elsewhere = b"".join(part for part in started.communicate(timeout=20) if part)
    return drained(above), elsewhere.decode()


def drained(above):
    """All that was put on a terminal which nobody writes to any more."""
    text = b""
    try:
        while piece := os.read(above, 4096):
            text += piece
    except OSError:
        pass
    os.close(above)
    return text.decode()


def rows():
    """Each test: its name, and whether it holds."""
    for name, pieces in SLOW.items():
        line = rf"\r{name}: 0 MB read, (\d+) s\x1b\[K"
        on_terminal, elsewhere = run(name, pieces, ["stderr"])
        told = re.findall(line, on_terminal)
        yield f"{name} tells each second once", told == ["2", "3"], on_terminal
        yield f"{name} takes its line away", re.sub(line, "", on_terminal) == GONE + AFTER.get(name, ""), on_terminal
        yield f"{name} writes its report elsewhere", "MB" not in elsewhere and "c " in elsewhere, elsewhere
    on_terminal, _ = run("drat-forward", SLOW["drat-forward"], ["stdout", "stderr"])
    ends = f"{GONE}c steps 2 peak 9\ns VERIFIED\n"
    yield "the line is gone before a line of the report", on_terminal.endswith(ends) and REPORT in on_terminal, on_terminal
    on_terminal, elsewhere = run("drat-forward", SLOW["drat-forward"], [])
    yield "nothing is told where standard error is no terminal", "read" not in on_terminal + elsewhere, elsewhere
    on_terminal, _ = run("drat-forward", QUICK, ["stderr"])
    yield "nothing is told of a quick run", on_terminal == "", on_terminal
    on_terminal, _ = run("drat-forward", QUICK, ["stdin", "stderr"])
    says = "drat-forward: reads the proof from the terminal"
    yield "a proof from a terminal is announced", on_terminal.startswith(says), on_terminal


def main():
    passed = failed = 0
    for name, well, seen in rows():
        passed, failed = passed + well, failed + (not well)
        if not well:
            print(f"FAILED: {name}: {seen!r}")
    print(f"{passed} passed, {failed} failed")
    return 0 if not failed else 1


if __name__ == "__main__":
    sys.exit(main())
