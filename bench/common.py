"""What the comparisons share: small inputs that are damaged, all assignments tried, and two programs beside each other."""

import itertools
import os
import random
import subprocess
import sys
import tempfile

HERE = os.path.dirname(os.path.abspath(__file__))
TOP = os.path.dirname(HERE)
NUMBERS = [b"0", b"1", b"-1", b"2", b"-2", b"3", b"-3", b"9", b"-9", b"d", b"c", b"x", b"01", b"-0", b"268435455"]
NUMBERS += [b"268435456", b"9223372036854775807", b"-9223372036854775808", b"18446744073709551616"]


def read(name):
    with open(name, "rb") as it:
        return it.read()


def write(name, data):
    with open(name, "wb") as it:
        it.write(data)


def program(variable, name):
    """The program that a variable of the environment names, or else the one of that name."""
    return os.path.abspath(os.environ.get(variable, f"{TOP}/{name}"))


def pigeonhole(room, holes):
    """The names of a pigeonhole formula and of its LRAT proof, which are written."""
    made = f"{room}/{holes}.cnf", f"{room}/{holes}.lrat"
    subprocess.run([sys.executable, f"{TOP}/examples/pigeonhole.py", str(holes), *made], check=True)
    return made


def changed(rng, text):
    """The text with one thing changed."""
    kind = rng.randrange(10)
    if kind == 0 and text:
        at = rng.randrange(len(text))
        return text[:at] + bytes([rng.choice(b" \n\r\tc0-d1%\x00\xff")]) + text[at + rng.randrange(2) :]
    if kind == 1:
        return text[: rng.randrange(len(text) + 1)]
    lines = text.split(b"\n")
    at = rng.randrange(len(lines))
    if kind == 2:
        return b"\n".join(lines[:at] + lines[at + 1 :])
    if kind == 3:
        return b"\n".join(lines[:at] + [lines[at]] + lines[at:])
    words = lines[at].split(b" ")
    place = rng.randrange(len(words))
    if kind == 4:
        words.pop(place)
    elif kind == 5:
        words.insert(place, rng.choice(NUMBERS))
    elif kind == 6:
        other = rng.randrange(len(words))
        words[place], words[other] = words[other], words[place]
    elif kind == 7 and words[place].lstrip(b"-").isdigit():
        words[place] = str(int(words[place]) + rng.choice([-1, 1])).encode()
    elif kind == 8 and words[place].lstrip(b"-").isdigit():
        words[place] = str(-int(words[place])).encode()
    else:
        words[place] = rng.choice(NUMBERS)
    lines[at] = b" ".join(words)
    return b"\n".join(lines)


def damaged(rng, formula, proof, change=changed):
    """Both with a few changes, and often with none; `change` makes those of the proof."""
    for _ in range(rng.choice([0, 1, 1, 1, 2, 3])):
        if rng.randrange(5):
            proof = change(rng, proof)
        else:
            formula = changed(rng, formula)
    return formula, proof


def has_model(text):
    """Whether some assignment satisfies a formula that is known to be right."""
    lines = [it for it in text.split(b"\n") if not it.startswith(b"c")]
    words = b" ".join(lines).split()
    variables, clauses = int(words[2]), [[]]
    for word in words[4:]:
        if word == b"0":
            clauses.append([])
        else:
            clauses[-1].append(int(word))
    clauses.pop()
    met = sorted({abs(it) for clause in clauses for it in clause})
    assert not met or met[-1] <= variables
    for values in itertools.product([False, True], repeat=len(met)):
        value = dict(zip(met, values))
        if all(any(value[abs(it)] == (it > 0) for it in clause) for clause in clauses):
            return True
    return False


def compare(words, programs, inputs):
    """Runs two programs on many inputs and compares what they write and their statuses. `inputs` gives, from random numbers
    and a folder for files, formulas and proofs with flags. Where a proof is verified, no assignment may satisfy the formula."""
    runs = int(words[0]) if words else 1000
    rng = random.Random(runs)
    statuses, differ, wrong = {}, 0, 0
    with tempfile.TemporaryDirectory() as room:
        source = inputs(rng, room)
        files = f"{room}/formula", f"{room}/proof"
        for _ in range(runs):
            formula, proof, flags = next(source)
            for name, data in zip(files, (formula, proof)):
                write(name, data)
            ran = [
                subprocess.run([it, *flags, *files], stdin=subprocess.DEVNULL, stdout=subprocess.PIPE, stderr=subprocess.DEVNULL)
                for it in programs
            ]
            answers = [(it.returncode, it.stdout) for it in ran]
            statuses[answers[0][0]] = statuses.get(answers[0][0], 0) + 1
            if answers[0] != answers[1]:
                differ += 1
                print(f"DIFFER: {flags} {formula!r} {proof!r}\n  {answers[0]}\n  {answers[1]}")
            if answers[0][0] == 0 and has_model(formula):
                wrong += 1
                print(f"VERIFIED, AND THERE IS A MODEL: {flags} {formula!r} {proof!r}")
    print("statuses:", ", ".join(f"{status}: {times}" for status, times in sorted(statuses.items())))
    print(f"{runs} runs, {differ} differ, {wrong} verified with a model")
    return 1 if differ or wrong else 0
