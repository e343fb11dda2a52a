#!/usr/bin/env python3
"""Shows that what the crates promise is said by definitions of the upper floor alone: those of specs/, but for specs/Code/.

A file of the upper floor imports nothing of a specs/Code/, and of a crate's types only those that its lib.rt exports. No clause
of a public function, no ghost member of a public trait, and not what a public type is seen as, names a definition that its file
imports from a specs/Code/. Each file, function and member is one; the last line is "N passed, M failed".
"""

import glob
import os
import re
import sys

CRATES = os.path.join(os.path.dirname(os.path.dirname(os.path.abspath(__file__))), "crates")
USE = re.compile(r"^ *(?:ghost )?use Rattle\.([^\s{;]+?)\.?(?:\{([^}]*)\}| as (\S+?))?;?$", re.M)
EXPORT = re.compile(r"^pub (?:use|mod) ([^;]+);", re.M)
ALIAS = re.compile(r"^pub type (\w+)[^=]*= (\w+)", re.M)
BLOCK = re.compile(r"^(?:pub )?(trait|impl)\b([^{]*)\{$(.*?)^\}", re.M | re.S)
FUNCTION = re.compile(r"^ *(pub )?fn (\w+)", re.M)
MEMBER = re.compile(r"^ *ghost (\w+)(?::| =) \{", re.M)
CLAUSE = re.compile(r"\b(?:requires|ensures\*?)(?: \w+)? \{|\{\}?$|;$", re.M)
NAME = re.compile(r"(?<![^\s(){}\[\],;:])[^\s(){}\[\],;:.]+")


def texts(folder):
    """Each file of a crate's folder and below, by its path in there: the text without the lines that are comments."""
    for path in sorted(glob.glob(f"{CRATES}/{folder}/**/*.*", recursive=True)):
        with open(path, encoding="utf-8") as text:
            yield os.path.relpath(path, f"{CRATES}/{folder}"), re.sub(r"^ *(//|--).*\n", "", text.read(), flags=re.M)


def exports(crate):
    """What a crate exports: names of modules, functions and types, and the types of which these are other names."""
    sources = dict(texts(f"{crate}/src"))
    names = {n for line in EXPORT.findall(sources.get("lib.rt", "")) for n in re.findall(r"\w+(?= *(?:[,}]|$))", line)}
    return names | {of for text in sources.values() for name, of in ALIAS.findall(text) if name in names}


def closed(text, start):
    """Where the brace is closed that was opened just before the start."""
    depth = 1
    while depth:
        depth += {"{": 1, "}": -1}.get(text[start], 0)
        start += 1
    return start


def contract(text, start):
    """The clauses of the function whose name ends at the start."""
    clauses = ""
    while (clause := CLAUSE.search(text, start))[0].endswith(" {"):
        start = closed(text, clause.end())
        clauses += text[clause.end():start]
    return clauses


def owner(header):
    """The trait, if there is one, and the type that the header of an `impl` names."""
    bare, header = "", header.replace("->", "")
    while bare != header:
        bare, header = header, re.sub(r"<[^<>]*>", "", header)
    names = [name.split()[0].split("::")[-1] for name in header.split(" for ")]
    return names[0] if len(names) == 2 else None, names[-1]


def promises(text, exported, is_public):
    """Each public function and ghost member of a file, and what is said there; all free functions are, in a public module."""
    for function in re.finditer(r"^pub fn (\w+)", text, re.M):
        if is_public or function[1] in exported:
            yield function[1], contract(text, function.end())
    for kind, header, body in BLOCK.findall(text):
        trait, name = owner(header) if kind == "impl" else (None, re.search(r"\w+", header)[0])
        for member in MEMBER.finditer(body) if name in exported else []:
            if kind == "trait" or (trait == "Model" and member[1] == "Value"):
                yield f"{name}.{member[1]}", body[member.end():closed(body, member.end())]
        for function in FUNCTION.finditer(body) if name in exported else []:
            if kind == "trait" or trait or function[1]:
                yield f"{name}.{function[2]}", contract(body, function.end())


def is_lower(path, exported):
    """Whether what is imported so is of the lower floor, or a type that its crate doesn't export."""
    parts = [part for part in path.split(".") if part not in ("TheVariants", "TheInside")]
    return parts[1:3] == ["specs", "Code"] or ("declared" in parts and parts[-1] not in exported.get(parts[0], parts))


def judged(crate, exported):
    """Each file of the upper floor, public function and member, and what it can't name and does."""
    for path, text in texts(f"{crate}/specs"):
        if path.split("/")[0] not in ("Code", "Code.antt"):
            yield f"specs/{path}", [use[0] for use in USE.findall(text) if is_lower(use[0], exported)]
    for path, text in texts(f"{crate}/src"):
        imports = [names or other or use.split(".")[-1] for use, names, other in USE.findall(text) if ".specs.Code." in use]
        lower = {name.split()[-1] for names in imports for name in names.split(",") if name.strip()}
        is_public = path.split("/")[0].removesuffix(".rt") in exported[crate]
        for name, said in promises(text, exported[crate], is_public):
            yield f"src/{path}: {name}", sorted(lower & set(NAME.findall(said)))


def main():
    passed = failed = 0
    exported = {crate: exports(crate) for crate in sorted(os.listdir(CRATES))}
    for crate in exported:
        for place, wrong in judged(crate, exported):
            passed, failed = passed + (not wrong), failed + bool(wrong)
            if wrong:
                print(f"FAILED: crates/{crate}/{place} names {', '.join(wrong)}")
    print(f"{passed} passed, {failed} failed")
    return 0 if passed and not failed else 1


if __name__ == "__main__":
    sys.exit(main())
