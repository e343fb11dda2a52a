#!/usr/bin/env python3
"""Shows how much a referee has to read: which definitions of this project three statements need, and how many lines these have.

The page's theorem is crates/sat_check/specs/Theorem.antt: docs/THEOREM.md quotes it, and all that it needs. The exact theorem is
the clause `reports` of run_drat. All that a program's call promises of a run is the clause `runs` of drat_forward: the report by
the words of a command line, how far the inputs are read, why a check ended, and what follows. The page links each file of specs/
that has a definition for them. A definition is needed if the statement names it, or if one names it that is needed. Those of std
are not counted, nor are comments. The page tells how many lines each has. The last line is "N passed, M failed".
"""

import functools
import glob
import os
import re
import sys

import floors

ROOT = os.path.dirname(os.path.dirname(os.path.abspath(__file__)))
PAGE = "docs/THEOREM.md"
THEOREM = "crates/sat_check/specs/Theorem.antt"
# Those of a run, each with the most lines that it may need. The second is what it needs today: it is to become less.
OF_A_RUN = [
    ("the exact theorem", 800, ("crates/sat_check/src/drat.rt", "run_drat", "reports")),
    ("all of a run", 961, ("crates/sat_check/src/tools.rt", "drat_forward", "runs")),
]
MOST_FOR_PAGE = 120

HEAD = re.compile(r"(?:(?:unfoldable|abbrev|pub|record|data) )*([^\s(:]+)")
CONSTRUCTOR = re.compile(r"^  (\S+) :", re.M)
BOUND = re.compile(r"(?:^  (?:pub )?|[({])([^\s:(){}.]+(?: [^\s:(){}.]+)*) :|λ ([^.]*)\.", re.M)
NAME = re.compile(r"(?<![^\s(){}\[\],;:])[^\s(){}\[\],;:.]+(?:\.[^\s(){}\[\],;:.]+)?")


@functools.cache
def read(path):
    with open(f"{ROOT}/{path}", encoding="utf-8") as text:
        return text.read()


@functools.cache
def definitions(path):
    """The definitions of a file of specs/, each as its lines, by their names; those of constructors are their type's."""
    found = {}
    for block in re.split(r"\n\s*\n", read(path)):
        lines = [line for line in block.strip("\n").split("\n") if not line.lstrip().startswith("--")]
        if not lines or lines[0].startswith("use "):
            continue
        one = (path, HEAD.match(lines[0])[1], tuple(lines))
        names = CONSTRUCTOR.findall("\n".join(lines)) if "data " in lines[0] else []
        found.update({name: one for name in [one[1], *names]})
    return found


@functools.cache
def declared(crate, name):
    """A type of a crate's code, as a definition."""
    for path in sorted(glob.glob(f"{ROOT}/crates/{crate}/src/**/*.rt", recursive=True)):
        path = os.path.relpath(path, ROOT)
        found = re.search(rf"^pub (?:struct|enum) {name}\b.*?(?:;|^\}})", read(path), re.M | re.S)
        if found:
            return path, name, tuple(line for line in found[0].split("\n") if not line.lstrip().startswith(("//", "#[")))
    raise SystemExit(f"tests/closure.py: crates/{crate} has no type {name}")


@functools.cache
def imports(path):
    """What a file imports from the project: the module of each name, and its name there, if it isn't one of a module."""
    found = {}
    for source, names, other in floors.USE.findall(read(path)):
        if os.path.isdir(f"{ROOT}/crates/{source.split('.')[0]}"):
            for name in names.split(",") if names else [other or source.split(".")[-1]]:
                there, _, here = name.strip().partition(" as ")
                found[here or there] = (source, there if names else None)
    return found


def named(path, name, field):
    """The definition that a file means by a name, or by the name of a module and one in there."""
    if path.endswith(".antt") and name in definitions(path):
        return definitions(path)[name]
    source, there = imports(path).get(name, ("", None))
    crate, *parts = source.split(".")
    if parts[:2] == ["specs", "declared"]:
        return declared(crate, [part for part in parts if part != "TheVariants"][-1])
    return definitions(f"crates/{crate}/{'/'.join(parts)}.antt").get(there or field) if parts else None


def named_in(path, text):
    """The definitions that a text of a file names, but for what is bound there."""
    bound = {name for names in BOUND.findall(text) for name in " ".join(names).split()}
    words = (word.partition(".") for word in NAME.findall(text))
    return {named(path, name, field) for name, _, field in words if name not in bound} - {None}


def needed_by(path, texts):
    """All definitions that the texts of a file need."""
    found, more = set(), {one for text in texts for one in named_in(path, text)}
    while more:
        found |= more
        more = {other for file, _, lines in more if file.endswith(".antt") for other in named_in(file, "\n".join(lines))} - found
    return found


def clause(path, function, name):
    """The text of a clause of a function."""
    text = read(path)
    start = text.index(f"ensures {name} {{", re.search(rf"^pub fn {function}\b", text, re.M).end())
    start = text.index("{", start) + 1
    return text[start:floors.closed(text, start)]


def lines_of(needed):
    return sum(len(lines) for _, _, lines in needed)


def tells(count):
    """Whether a row of the page's table has this number."""
    return f" | {count:,} | " in read(PAGE)


def judged():
    """What is said of the two theorems, each with whether it is so."""
    own = set(definitions(THEOREM).values())
    needed = needed_by(THEOREM, ["\n".join(lines) for _, _, lines in own]) - own
    print(f"{PAGE}: below the theorem {len(needed)} definitions of {lines_of(needed)} lines, itself {lines_of(own)}")
    yield f"the theorem needs no more than {MOST_FOR_PAGE} lines", lines_of(needed) <= MOST_FOR_PAGE
    yield f"{PAGE} tells so many lines of it", tells(lines_of(own | needed))
    for path, name, lines in sorted(own | needed):
        quoted = path.endswith(".rt") or "\n" + "\n".join(lines) + "\n" in read(PAGE)
        yield f"{PAGE} quotes {name} of {path}", quoted
    for said, most, place in OF_A_RUN:
        yield from judged_of_a_run(said, most, place)


def judged_of_a_run(said, most, place):
    """The same of one statement on a run."""
    path, function, name = place
    needed = needed_by(path, [clause(*place)])
    files = sorted({file for file, _, _ in needed if file.endswith(".antt")})
    print(f"{function}.{name}: {len(needed)} definitions of {lines_of(needed)} lines, in {len(files)} files of specs/ and in types")
    yield f"{said} needs no more than {most} lines", lines_of(needed) <= most
    yield f"{PAGE} tells so many lines of {said}", tells(lines_of(needed))
    for file in files:
        yield f"{PAGE} links {file}", f"](../{file})" in read(PAGE)


def main():
    passed = failed = 0
    for said, holds in judged():
        passed, failed = passed + holds, failed + (not holds)
        if not holds:
            print(f"FAILED: not so: {said}")
    print(f"{passed} passed, {failed} failed")
    return 0 if passed and not failed else 1


if __name__ == "__main__":
    sys.exit(main())
