"""Formulas and second inputs by chance, and a judgement of what a hint says of them.

The judgement reads whole files by the formats' grammars, or knows how a file was made. It doesn't know by which bytes the
programs choose a hint.
"""

import random
import re
from collections import namedtuple

import misuse_files as files

File = namedtuple("File", "kind content")
Pair = namedtuple("Pair", "line tool options formula second")

# ---- Formulas and proofs


def propagated(clauses, assumed):
    """The literals that hold, and the clauses by number that made them so up to a clash, or None where there is none."""
    true, used, changed = set(assumed), [], True
    while changed:
        changed = False
        for number, clause in enumerate(clauses, 1):
            left = {literal for literal in clause if -literal not in true}
            if not left:
                return true, [*used, number]
            if len(left) == 1 and not left & true:
                true |= left
                used.append(number)
                changed = True
    return true, None


def refutation(clauses, variables, path=()):
    """Clauses with their hints, up to the one against all of the path; None where a model is found. Clauses are added to."""
    true, clash = propagated(clauses, path)
    free = [v for v in range(1, variables + 1) if v not in true and -v not in true]
    if clash is None and not free:
        return None
    steps = []
    if clash is None:
        for literal in free[0], -free[0]:
            more = refutation(clauses, variables, (*path, literal))
            if more is None:
                return None
            steps += more
        clash = propagated(clauses, path)[1]
    clause = [-literal for literal in path]
    steps.append((clause, clash))
    clauses.append(clause)
    return steps


def unsatisfiable(chance):
    """The clauses of a formula without a model, its number of variables, and steps that show it."""
    while True:
        variables = chance.randint(2, 5)
        chosen = [chance.sample(range(1, variables + 1), min(variables, chance.randint(1, 3))) for _ in range(variables * 7)]
        clauses = [[v * chance.choice((1, -1)) for v in some] for some in chosen]
        steps = refutation(list(clauses), variables)
        if steps:
            return variables, clauses, steps


def text(*words):
    return " ".join(map(str, words)) + "\n"


def group(number):
    """A number in groups of seven bits."""
    return bytes([number]) if number < 128 else bytes([number & 127 | 128]) + group(number >> 7)


def groups(numbers):
    return b"".join(map(group, numbers)) + b"\0"


def coded(literals):
    return groups(2 * abs(literal) + (literal < 0) for literal in literals)


def forms(variables, clauses, steps, chance):
    """The formula, its proof and other things, each by its kind."""
    last = len(clauses)
    deleted = chance.sample(range(len(clauses)), chance.randint(0, 2))
    ids = range(last + 1, last + 1 + len(steps))
    body = "".join(text(*clause, 0) for clause in clauses)
    cnf = text("p cnf", variables, last) + body
    doubled = "".join(text("d", *clauses[k], 0) for k in deleted)
    drat = "".join(text(*clause, 0) for clause, _ in steps)
    lines = drat.splitlines()
    lrat = "".join(text(k, *clause, 0, *hints, 0) for k, (clause, hints) in zip(ids, steps))
    model = "".join(f"v {v * chance.choice((1, -1))}\n" for v in range(1, variables + 1))
    binary = b"".join(b"a" + coded(clause) for clause, _ in steps)
    numbers = text(*(v * chance.choice((1, -1)) for v in range(1, variables + 1)), 0)
    originals = "".join(text("o", k, *clause, 0) for k, clause in enumerate(clauses, 1))
    frat = "".join(text("a", k, *clause, "0 l", *hints, 0) for k, (clause, hints) in zip(ids, steps))
    return {
        "cnf": cnf, "cnf behind comments": files.BANNER.decode() + cnf, "headerless": body,
        "satlib": cnf + "%\n0\n" + "\n" * chance.randint(0, 3), "wcnf": cnf.replace("cnf", "wcnf"),
        "opb": f"* #variable= {variables} #constraint= 1\n+1 x1 >= 1 ;\n",
        "drat": drat, "drat behind comments": files.BANNER.decode() + drat,
        "drat that deletes": drat[:drat.find("\n") + 1] + doubled + drat,
        "drat in pairs": "".join(text(*lines[k:k + 2]) for k in range(0, len(lines), 2)),
        "drat in long lines": drat.replace(" 0\n", " 0 "), "deletions first": doubled + drat,
        "binary": binary, "binary that deletes": b"".join(b"d" + coded(clauses[k]) for k in deleted) + binary,
        "binary lrat": b"".join(b"a" + group(2 * k) + coded(c) + groups(2 * h for h in hints)
                                for k, (c, hints) in zip(ids, steps)),
        "lrat": lrat, "lrat that deletes": text(last, "d", *(k + 1 for k in deleted), 0) + lrat,
        "lrat in short lines": lrat.replace(" 0 ", " 0\n"),
        "frat": originals + frat, "frat that adds": frat,
        "binary frat": b"".join(b"o" + group(k) + coded(c) for k, c in enumerate(clauses, 1)),
        "veripb": f"pseudo-Boolean proof version 2.0\nf {last}\n", "old drat": "o proof DRUP\n" + drat,
        "answer": "s UNSATISFIABLE\n", "output": "s SATISFIABLE\n" + model + "v 0\n", "output behind comments":
        files.BANNER.decode() + "s SATISFIABLE\n" + model + "v 0\n", "costs": "o 5\ns SATISFIABLE\n" + model + "v 0\n",
        "costs alone": "o 5\no 3\n", "no end": "s SATISFIABLE\n" + model, "no status": model + "v 0\n", "numbers": numbers,
        "minisat": "SAT\n" + numbers, "clasp": f"clasp version 3.3.5\nReading from f\nAnswer: 1\n{numbers}SATISFIABLE\n",
        "page": "<!DOCTYPE html>\n", "empty": "", "comments": files.BANNER, "text": "Hello\n",
    }


FORMULAS = ("cnf",) * 20 + ("cnf behind comments", "headerless", "satlib", "satlib", "wcnf", "opb", "page", "empty", "comments")


def file_of(kind, content, chance):
    """The file, which may be changed, compressed or written in another code: that is its kind too."""
    content = content if isinstance(content, bytes) else content.encode()
    change = chance.random()
    if change < 0.1 and content:
        place = chance.randrange(len(content))
        content = content[:place] + chance.choice((b"", bytes([chance.randrange(256)]), b" ", b"0", b"x")) + content[place + 1:]
        kind += ", changed"
    elif change < 0.2 and content:
        content, kind = content[:chance.randrange(len(content))], f"{kind}, cut"
    elif change < 0.25 and len(content) < 200:
        packing = chance.choice(list(files.PACKED))
        content, kind = files.PACKED[packing](content), f"{packing}: {kind}"
    elif change < 0.28:
        content = b"\xef\xbb\xbf" + content
        kind = f"mark: {kind}"
    elif change < 0.3 and content.isascii():
        content, kind = content.decode().encode("utf-16"), f"utf-16: {kind}"
    elif change < 0.35:
        content, kind = content.replace(b"\n", b"\r\n"), f"{kind}, crlf"
    return File(kind, content)


def pairs(seed, count):
    """So many pairs, the same ones for a seed."""
    chance = random.Random(seed)
    for _ in range(count):
        made = forms(*unsatisfiable(chance), chance)
        kind, other = chance.choice(FORMULAS), chance.choice(sorted(made))
        formula, second = file_of(kind, made[kind], chance), file_of(other, made[other], chance)
        if chance.random() < 0.1:
            formula, second = second, formula
        tool = chance.choice(("drat-forward", "drat-forward", "lrat-check", "model-check"))
        options = [word for word in ("--binary", "--pr", "--keep-units") if tool == "drat-forward" and chance.random() < 0.25]
        yield Pair(" ".join((tool, *options, "f", "s")), tool, options, formula, second)


# ---- What a file is, by its grammar

PROOFS = ("drat", "deletions", "binary", "lrat", "frat", "veripb", "old")


def words_of(content):
    """The words of a text, without those of comments."""
    return [word for line in content.split(b"\n") if not line.startswith(b"c") for word in line.split()]


def lines_of(content):
    return [line.split() for line in content.split(b"\n") if not line.startswith(b"c") and line.split()]


def is_number(word):
    return re.fullmatch(rb"-?[1-9][0-9]*|0", word) is not None


def reads_as_lrat(content):
    """Whether all of a text is steps of LRAT but for one cut off at the end, or a place that was changed."""
    words, good = b" ".join(words_of(content)), 0
    step = rb"([1-9][0-9]*) (d( [1-9][0-9]*)* 0|((-?[1-9][0-9]*) )*0 ((-?[1-9][0-9]*) )*0)( |$)"
    while found := re.match(step, words):
        words, good = words[found.end():], good + 1
    return good > 0


def reads_as_drat(content):
    """Whether a text begins with a step of DRAT."""
    return re.match(rb"(d )?((-?[1-9][0-9]*) )*0( |$)", b" ".join(words_of(content))) is not None


def ends_inside(content, is_binary):
    """Whether a proof ends inside a step."""
    if is_binary:
        return content[-1:] != b"\0"
    return words_of(content)[-1:] != [b"0"] or reads_as_lrat(content) or content.count(b" 0") % 2 == 1


def root_literals(clauses):
    return propagated(clauses, ())[0]


def decoded(content):
    """The words that a binary proof has as text."""
    number = shift = 0
    inside = False
    for byte in content:
        if not inside:
            inside = True
            yield from [b"d"] if byte == 100 else []
            continue
        number, shift = number | (byte & 127) << shift, shift + 7
        if byte < 128:
            inside = number > 0
            yield b"%d" % (-(number >> 1) if number & 1 else number >> 1)
            number = shift = 0


def deletes_reason(formula, words):
    """Whether some deletion of a DRAT proof takes a root-level literal away."""
    literals = " ".join(word.decode() for word in words_of(formula)[4:])
    alive = [[int(word) for word in clause.split()] for clause in f" {literals}".split(" 0")[:-1]]
    clause, deletes = [], False
    for word in words:
        if word == b"d":
            deletes = True
        elif word != b"0":
            clause.append(int(word))
        else:
            before = root_literals(alive)
            same = [other for other in alive if sorted(set(other)) == sorted(set(clause))]
            if deletes and same:
                alive.remove(same[0])
                if not before <= root_literals(alive):
                    return True
            elif not deletes:
                alive.append(clause)
            clause, deletes = [], False
    return False


def writes_twice(proof):
    """Whether some step has its first literal twice."""
    steps = b" ".join(words_of(proof)).split(b" 0")
    return any(step.split()[0] in step.split()[1:] for step in steps if step.split())


def made_as(kind, *names):
    return kind.split(",")[0].startswith(names)


def is_so(hint, pair):
    """Whether a hint is so of the pair."""
    told = hint.split(": ")[0]
    for beginning, holds in CLAIMS:
        if told.startswith(beginning):
            return holds(pair)
    return False


def first_word(content):
    return (words_of(content) or [b""])[0]


def packing(name):
    return lambda pair: any(made_as(file.kind, name) for file in (pair.formula, pair.second))


def either(test):
    """Of one of the two files, since a hint's line names it."""
    return lambda pair: test(pair.formula) or test(pair.second)


CLAIMS = [
    ("this is compressed by gzip", packing("gzip")), ("this is compressed by xz", packing("xz")),
    ("this is compressed by bzip2", packing("bzip2")), ("this is compressed by zstd", packing("zstd")),
    ("this begins with a byte order mark", packing("mark")), ("this is UTF-16", packing("utf-16")),
    ("this is a web page", packing("page")), ("this is a weighted formula", packing("wcnf")),
    ("this is a pseudo-Boolean formula", packing("opb")), ("this is a proof for VeriPB", packing("veripb")),
    ("this is a proof in the binary form", lambda pair: made_as(pair.second.kind, "binary")
     and not made_as(pair.second.kind, "binary lrat", "binary frat")),
    ("this is a proof in a binary form", lambda pair: made_as(pair.second.kind, "binary")),
    ("this is a proof as text", lambda pair: reads_as_drat(pair.second.content)),
    ("this is a proof, and the formula is named first", lambda pair: made_as(pair.formula.kind, *PROOFS)),
    ("this is a proof, not a formula", lambda pair: made_as(pair.formula.kind, *PROOFS)),
    ("this is a proof, not a solver's output", lambda pair: made_as(pair.second.kind, *PROOFS)),
    ("this is FRAT in the binary form", packing("binary frat")), ("this is FRAT", packing("frat")),
    ("the line 'o proof' is no step", packing("old")),
    ("this is a solver's output",
     either(lambda file: made_as(file.kind, "answer", "output", "no ", "minisat", "clasp", "costs"))),
    ("this reads as LRAT", lambda pair: reads_as_lrat(pair.second.content)),
    ("this reads as DRAT", lambda pair: reads_as_drat(pair.second.content) and not made_as(pair.second.kind, "lrat")),
    ("this is a formula", lambda pair: made_as(pair.second.kind, "cnf", "satlib")),
    ("no line 'p cnf", lambda pair: is_number(first_word(pair.formula.content)) and b"p" not in words_of(pair.formula.content)),
    ("this is empty", either(lambda file: not words_of(file.content))),
    ("the end is SATLIB's", lambda pair: words_of(pair.formula.content)[-2:] == [b"%", b"0"]),
    ("the proof ends inside a step", lambda pair: ends_inside(pair.second.content, "--binary" in pair.options)),
    ("the proof deleted the reason clause", lambda pair: deletes_reason(
        pair.formula.content, (decoded if "--binary" in pair.options else words_of)(pair.second.content))),
    ("a step writes its first literal twice", lambda pair: "--pr" not in pair.options and writes_twice(pair.second.content)),
    ("this is MiniSat's own form", packing("minisat")), ("this is clasp's own form", packing("clasp")),
    ("other lines stand between", lambda pair: any(line[0] not in (b"s", b"v") for line in lines_of(pair.second.content))
     and any(line[0] in (b"s", b"v") for line in lines_of(pair.second.content))),
    ("the lines of a model begin with 'v'", lambda pair: is_number(first_word(pair.second.content))),
    ("the line 's SATISFIABLE' is missing", lambda pair: b"s" not in words_of(pair.second.content)),
    ("no 0 ends the 'v' lines", lambda pair: b"0" not in words_of(pair.second.content)),
]
