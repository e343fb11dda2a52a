#!/usr/bin/env python3
"""Shows that the lists of "Where a change goes" in docs/ARCHITECTURE.md lack no file.

For each list, names of old ones are looked for: the variants of the faults for a new fault, and so on. A file that holds such a
name, comments left out, has to be in the list: by its path, by a folder, by a pattern such as of_*.rt,
or by what the lists' head says of all. A function's proofs and a crate's lib.rt go with the files, and wrong bodies aren't
looked at. A path of a list that isn't there is a failure too, and so is a list that has no names here. The last line is "N
passed, M failed".
"""

import fnmatch
import glob
import os
import re
import sys

ROOT = os.path.dirname(os.path.dirname(os.path.abspath(__file__)))
TITLE = "## Where a change goes"
CRATES = os.listdir(f"{ROOT}/crates")
# proofs under the path of a function, and what a crate is made of and exports: both follow from the other files
FOLLOWING = ("Answers.antt", "Invariants.antt", "lib.rt", "mod.rt")


def read(path):
    with open(f"{ROOT}/{path}", encoding="utf-8") as file:
        return file.read()


def variants(path, enum, *without):
    """The names of an enum's variants, without these."""
    body = re.search(rf"pub enum {enum} \{{\n(.*?)\n\}}", read(path), re.S).group(1)
    return [name for name in re.findall(r"^    ([A-Z]\w*)", body, re.M) if name not in without]


def functions(path, ending):
    """The names of a file's public functions that end so."""
    return re.findall(rf"^pub fn (\w+{ending})\b", read(path), re.M)


FAULT, ENCODING = "crates/cnf_base/src/fault.rt", "crates/hints/src/encoding.rt"
# names of kinds that mean something else elsewhere, too
PLAIN_KINDS = ("Encoded", "Cnf", "Output", "Number", "Empty")
# the lists that a change of this kind goes by, the names of old ones, and the files that these are looked for in
ANY = "*"
TRIED = [
    (["Fault"], [*variants(FAULT, "TextFault"), *variants(FAULT, "BinaryFault")], ANY),
    (["Hint"], [*variants("crates/hints/src/kind.rt", "Kind", *PLAIN_KINDS), *variants(ENCODING, "Encoding")], "crates/hints/*"),
    (["Report line"], functions("crates/report/src/lines.rt", "_line"), "crates/[rs]*"),
    (["Option"], ["binary", "trace"], "crates/command_line/*"),
    (["Option", "DRAT option", "Step rule"], ["strict", "keep_units"], ANY),
    (["Step rule"], ["HasRup", "HasRat", "HasPr"], ANY),
    (["Cause of refusal"], variants("crates/theory/src/refusal.rt", "Refusal", "OutOfMemory", "Ended"), ANY),
    (["Cause of refusal", "Word of acceptance"], variants("crates/theory/src/accepted.rt", "Accepted", "Empty"), "crates/[drst]*"),
    (["Proof format", "Hint"], ["DratBinary", "binary_steps", "LratText", "lrat_steps"], ANY),
    (["Kind of proof"], ["LratJudge"], ANY),
    (["Model rule"], ["meets"], "crates/sat_check/*"),
    (["Call of `Propagate`"], ["assume_reduced", "is_root_reason"], ANY),
    (["Tool", "Option", "Hint"], [r"Tool::\w+", r"Tool\.TheVariants"], ANY),
    (["Version"], [re.escape(read("VERSION").strip())], ANY),
]
# those whose files no name finds
UNTRIED = ("Faster storage", "Search for clauses", "Faster propagation", "Contract")


def lists():
    """The page's lists by name, and without a name what their head says of all."""
    section = read("docs/ARCHITECTURE.md").split(f"\n{TITLE}\n")[1].split("\n## ")[0]
    head, *rest = section.split("\n- ")
    return {"": head, **dict(re.match(r"\*\*(.+?)\*\*: (.*)", line).groups() for line in rest)}


def place(name, bases):
    """The pattern, from the root, of a name that stands in one of these folders, or None."""
    for base in ["crates"] if name in CRATES else bases:
        path = os.path.normpath(os.path.join(base, name))
        for pattern in (path, f"{path}.antt"):
            if glob.glob(f"{ROOT}/{pattern}"):
                return pattern
    return None


def paths(text):
    """The patterns of the paths that a list names, and the names that look like paths and aren't there.

    A name is looked for where the one before it stands, in the folders above that, and from the root. A folder with names
    after it, behind a colon or in brackets, stands for these alone.
    """
    found, lost, bases = [], [], []
    for name, after in re.findall(r"`([^`]+)`(:? \(?)?", text):
        pattern = place(name, [*bases, "crates", ""])
        if pattern == "crates":
            continue
        if pattern is None:
            lost += [name] if re.search(r"/|\.(antt|rt|py|sh|md)$", name) else []
            continue
        folder = pattern if os.path.isdir(f"{ROOT}/{pattern}") else os.path.dirname(pattern)
        above = [folder]
        while above[-1].count("/") > 1:
            above.append(os.path.dirname(above[-1]))
        bases = [*above, *(base for base in bases if base not in above)]
        if folder != pattern or after not in (": ", ": (", " ("):
            found.append(pattern)
    return found, lost


def sources():
    """What is looked at, without comments: the files of the crates, the manual, what is installed with the programs."""
    found = {}
    for pattern in "crates/*/src/**", "crates/*/specs/**", "crates/*/proofs/**", "man/*", "packaging/completions/*", "CITATION.cff":
        for path in glob.glob(pattern, root_dir=ROOT, recursive=True):
            if os.path.isfile(f"{ROOT}/{path}") and os.path.basename(path) not in FOLLOWING:
                found[path] = "\n".join(line for line in read(path).splitlines() if not re.match(r" *(//|--)", line))
    return found


def has(patterns, path):
    """Whether one of the patterns is the path's, or that of a folder that it is in."""
    return any(fnmatch.fnmatchcase(path, pattern) or path.startswith(f"{pattern}/") for pattern in patterns)


def lacking(kinds, old, within, named, code):
    """The files within a pattern that have the old name, and which none of the lists has; None, where no file has the name."""
    patterns = [pattern for kind in ("", *kinds) for pattern in paths(named[kind])[0]]
    holders = [path for path, text in code.items()
               if fnmatch.fnmatchcase(path, within) and re.search(rf"\b{old}(?!\w)", text)]
    return [path for path in holders if not has(patterns, path)] if holders else None


def main():
    named = lists()
    code = sources()
    held = []
    for kind, text in named.items():
        lost = paths(text)[1]
        tried = not kind or kind in UNTRIED or any(kind in kinds for kinds, _, _ in TRIED)
        if lost or not tried:
            print(f"FAILED: {kind}: there is no {', '.join(lost)}" if lost else f"FAILED: {kind}: no name of an old one is known")
        held.append(tried and not lost)
    for kind in {kind for kinds, _, _ in TRIED for kind in kinds if kind not in named}:
        print(f"FAILED: there is no list {kind}")
        held.append(False)
        named[kind] = ""
    for kinds, olds, within in TRIED:
        for old in olds:
            files = lacking(kinds, old, within, named, code)
            held.append(files == [])
            if files is None:
                print(f"FAILED: {kinds[0]}: {old} stands nowhere")
            for path in files or []:
                print(f"FAILED: {', '.join(kinds)}: no list has {path}, where {old} stands")
    print(f"{sum(held)} passed, {len(held) - sum(held)} failed")
    return 0 if all(held) else 1


if __name__ == "__main__":
    sys.exit(main())
