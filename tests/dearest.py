#!/usr/bin/env python3
"""Shows which functions take longest in a first check, by crate and over all.

    tests/dearest.py [-n COUNT] [CRATE..]      all crates where none is named; COUNT rows of each table, 10 otherwise

Each crate is checked from nothing on a copy, one function after the other, with its tests where it has some. A function's
time is that since the function before it was checked, so it has the lemmas that nothing before it cited; that of a crate's
first function has what is read at the start. It takes as long as a first check of all on one processor, half an hour or more.

RT names the command rt, where it isn't on the PATH.
"""

import os
import re
import shutil
import subprocess
import sys
import tempfile
import time

ROOT = os.path.dirname(os.path.dirname(os.path.abspath(__file__)))
RT = os.environ.get("RT") or "rt"
CHECKED = re.compile(r"checked (\S+), \d+ of \d+")


def has_tests(crate):
    """Whether a file of the crate has a test."""
    for folder, _, names in os.walk(f"{ROOT}/crates/{crate}/src"):
        for name in names:
            with open(f"{folder}/{name}", encoding="utf-8") as text:
                if "#[test]" in text.read():
                    return True
    return False


def begin_with_nothing(folder):
    """Has the crate's check begin with nothing: rt takes what it kept elsewhere of the same text, and so the copy's is another."""
    shutil.rmtree(f"{folder}/out", ignore_errors=True)
    os.makedirs(f"{folder}/out/incremental")
    root = next(path for path in [f"{folder}/src/lib.rt", f"{folder}/src/main.rt"] if os.path.isfile(path))
    with open(root, "a", encoding="utf-8") as text:
        text.write(f"// {time.time_ns()}\n")


def times_of(crate, room):
    """The seconds that each function took."""
    folder = f"{room}/crates/{crate}"
    words = [RT, "check", "--jobs", "1", *(["--test"] if has_tests(crate) else [])]
    begin_with_nothing(folder)
    times, before = [], time.monotonic()
    with subprocess.Popen(words, cwd=folder, stdin=subprocess.DEVNULL, stdout=subprocess.PIPE, stderr=subprocess.STDOUT,
                          text=True, errors="replace") as check:
        for line in check.stdout:
            now = time.monotonic()
            found = CHECKED.match(line)
            if found:
                times.append((now - before, found[1]))
            # With the other line a library below was built, which is no time of this crate.
            if found or line.startswith("logic="):
                before = now
    if check.returncode:
        sys.exit(f"{crate} is not proved: {line}")
    return times


def show(title, times, count):
    """The table of one crate, or of all."""
    print(f"{title}: {len(times)} functions, {sum(seconds for seconds, _ in times):.0f} s")
    for seconds, name in sorted(times, reverse=True)[:count]:
        print(f"  {seconds:7.1f} s  {name}")


def main(words):
    count = 10
    if words[:1] == ["-n"]:
        count, words = int(words[1]), words[2:]
    with open(f"{ROOT}/crates.txt", encoding="ascii") as text:
        crates = words or [line.split(":")[0] for line in text]
    total = []
    with tempfile.TemporaryDirectory() as room:
        for name in ["crates.txt", "HANDLES"]:
            shutil.copy(f"{ROOT}/{name}", room)
        shutil.copytree(f"{ROOT}/crates", f"{room}/crates", ignore=shutil.ignore_patterns("out"))
        for crate in crates:
            times = times_of(crate, room)
            show(crate, times, count)
            total += times
    show("all", total, count)


if __name__ == "__main__":
    main(sys.argv[1:])
