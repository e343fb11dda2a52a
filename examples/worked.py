#!/usr/bin/env python3
"""Runs the worked examples of worked.txt, and compares what each command writes and its status with what stands there.

    worked.py [NAME]        those of this name alone, with what they write

DRAT_FORWARD, LRAT_CHECK and MODEL_CHECK name the programs, where they aren't on the PATH. The last line is
"N passed, M failed".
"""

import os
import re
import subprocess
import sys
import tempfile
from collections import namedtuple

HERE = os.path.dirname(os.path.abspath(__file__))
# what rows of other files have, which tests/rows.py explains
TABLE = re.compile(r"(\d+) for each (formula|input) of (\w+)")
MANY = re.compile(r"\{(\d+)\.\.(\d+) of ([^}]*)\}")

# where it stands, the two inputs, which are bytes or a path, the command and what it writes, a list of parts of standard error
Row = namedtuple("Row", "name number formula input command wanted status told")


def text_of(value):
    """The bytes of a text with escapes; {5..7 of #x} is 5x6x7x."""
    long = MANY.sub(lambda found: "".join(found[3].replace("#", str(number))
                                          for number in range(int(found[1]), int(found[2]) + 1)), value)
    return long.encode("ascii").decode("unicode_escape").encode("latin-1")


def content(value, lines):
    """What a formula or an input is given as: bytes, or the path of a file."""
    kind, _, rest = value.partition(" ")
    if kind == "hex":
        return bytes.fromhex(rest)
    if kind == "text":
        return text_of(rest)
    return f"{HERE}/{value}" if value else "".join(f"{line}\n" for line in lines).encode()


def blocks(text):
    """Each line that isn't indented, with the indented ones below it."""
    found = []
    for number, line in enumerate(text.split("\n"), 1):
        if line.startswith("  "):
            found[-1][2].append((number, line[2:]))
        elif line:
            found.append((number, line, []))
    return found[1:]


def rows(path):
    """The rows of a file."""
    with open(path, encoding="ascii") as text:
        found = blocks(text.read())
    name, given, tables, command, told = "", {}, {}, None, []
    for number, line, below in found:
        kind, _, rest = line.partition(" ")
        lines = [one for _, one in below]
        if kind == "#":
            name, told = rest, []
        elif kind == "rows":
            tables[rest] = below
        elif kind in ("formula", "input", "formula:", "input:"):
            given[kind.rstrip(":")] = content(rest, lines)
        elif kind == "$":
            command, wanted, told = rest, "".join(f"{one}\n" for one in lines), []
        elif kind == "!":
            told.append(rest)
        elif command:
            each = TABLE.fullmatch(rest)
            if not each:
                yield Row(name, number, given["formula"], given["input"], command, wanted, int(rest), told)
            for at, one in tables[each[3]] if each else ():
                value, _, end = one.rpartition("=> ")
                pair = {**given, each[2]: text_of(value.removesuffix(" "))}
                yield Row(name, at, pair["formula"], pair["input"], command, wanted.replace("..", end), int(each[1]), told)
            command = None


def program_of(name):
    """The path of a program."""
    return os.environ.get(name.replace("-", "_").upper()) or name


def run(row, room):
    """What the command writes, its status, and what stands on standard error."""
    paths = []
    for key in ("formula", "input"):
        value = getattr(row, key)
        if isinstance(value, bytes):
            with open(f"{room}/{key}", "wb") as to:
                to.write(value)
            value = f"{room}/{key}"
        paths.append(value)
    name, *options = row.command.split()
    ended = subprocess.run([program_of(name), *options, *paths], stdin=subprocess.DEVNULL, stdout=subprocess.PIPE,
                           stderr=subprocess.PIPE, text=True, check=False)
    return ended.stdout, ended.returncode, ended.stderr


def is_as_wanted(row, found, status, errors):
    """Whether the command wrote, answered and told what stands there; where it verified, it told nothing."""
    told = all(one in errors for one in row.told) if status else not errors
    return found == row.wanted and status == row.status and told


def main(only):
    passed = failed = 0
    with tempfile.TemporaryDirectory() as room:
        for row in rows(f"{HERE}/worked.txt"):
            if only not in (None, row.name.partition(":")[0]):
                continue
            found, status, errors = run(row, room)
            well = is_as_wanted(row, found, status, errors)
            passed, failed = passed + well, failed + (not well)
            if only or not well:
                print(f"{'' if well else 'FAILED: '}{row.name} (line {row.number}), status {status}:\n{found}{errors}")
    print(f"{passed} passed, {failed} failed")
    return 0 if passed and not failed else 1


if __name__ == "__main__":
    sys.exit(main(sys.argv[1] if len(sys.argv) > 1 else None))
