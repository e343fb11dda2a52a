#!/usr/bin/env python3
"""Proves crates with all that they stand on, side by side where they don't stand on each other, and builds their programs.

    tests/prove.py [CRATE..]        all crates where none is named

It runs rt ci on a copy of these crates that has no mutants. What is proved there is kept for the gate, which then
tries the mutants over it. Side by side with the proofs, mutants would leave one processor to a crate of the longest
chain, which the gate waits for. The programs are left in crates/CRATE/out.

RT names the command rt, where it isn't on the PATH. The last line is "N passed, M failed".
"""

import os
import shutil
import subprocess
import sys
import tempfile

ROOT = os.path.dirname(os.path.dirname(os.path.abspath(__file__)))


def lines_of():
    """The lines of crates.txt, each under the name of its crate."""
    with open(f"{ROOT}/crates.txt", encoding="ascii") as text:
        return {line.split(":")[0]: line for line in text}


def with_those_below(names, lines):
    """These crates and all that they stand on."""
    found, left = set(), list(names)
    while left:
        name = left.pop()
        if name in lines and name not in found:
            found.add(name)
            left += lines[name].split(":")[1].split()
    return found


def copy_of(room, names, lines):
    """Copies the crates into the room, without their mutants and what earlier runs left."""
    with open(f"{room}/crates.txt", "w", encoding="ascii") as text:
        text.writelines(line for name, line in lines.items() if name in names)
    shutil.copy(f"{ROOT}/HANDLES", room)
    for name in names:
        shutil.copytree(f"{ROOT}/crates/{name}", f"{room}/crates/{name}", symlinks=True,
                        ignore=lambda folder, _: {"out", "must-fail"} if os.path.basename(folder) == name else set())
    # rt ci runs at the top of a repository
    os.mkdir(f"{room}/.git")


def hand_over(room, names):
    """Takes over the programs that were built."""
    for name in names:
        built, out = f"{room}/crates/{name}/out/{name}", f"{ROOT}/crates/{name}/out"
        if os.path.isfile(built):
            os.makedirs(out, exist_ok=True)
            shutil.copy(built, f"{out}/{name}")


def main(names):
    lines = lines_of()
    unknown = [name for name in names if name not in lines]
    if unknown:
        print(f"usage: tests/prove.py [CRATE..]; crates.txt has no {unknown[0]}", file=sys.stderr)
        return 6
    wanted = with_those_below(names or lines, lines)
    with tempfile.TemporaryDirectory() as room:
        copy_of(room, wanted, lines)
        ended = subprocess.run([os.environ.get("RT") or "rt", "ci"], cwd=room, stdin=subprocess.DEVNULL, check=False)
        if ended.returncode == 0:
            hand_over(room, wanted)
    return ended.returncode


if __name__ == "__main__":
    sys.exit(main(sys.argv[1:]))
