#!/usr/bin/env python3
"""Tries examples/check-all: what it says must be verified is, and nothing else, whatever happens to the files, the disk, the
checkers and the names.

    tests/check_all.py [CASE..]

LRAT_CHECK, DRAT_FORWARD and MODEL_CHECK name the programs; they are those in bin/ otherwise. The last line is "N passed, M
failed".
"""

import csv
import hashlib
import io
import json
import os
import shutil
import subprocess
import sys
import tempfile

TOP = os.path.dirname(os.path.dirname(os.path.abspath(__file__)))
CHECK_ALL = f"{TOP}/examples/check-all"
NAMES = ("drat-forward", "lrat-check", "model-check")


def variable(name):
    return name.upper().replace("-", "_")


CHECKERS = {variable(name): os.path.abspath(os.environ.get(variable(name)) or f"{TOP}/bin/{name}") for name in NAMES}


class Found:
    """How a run of check-all ended, and the rows of its table by the files' names."""

    def __init__(self, run):
        self.status = run.returncode
        self.errors = run.stderr.decode()
        table = json.loads(run.stdout) if run.stdout else {"rows": [], "verified": 0, "files": 0}
        self.counts = table["verified"], table["files"]
        self.rows = {os.path.basename(row["file"]): row for row in table["rows"]}
        self.verified = {name for name, row in self.rows.items() if row["verified"]}

    def said(self, name):
        """A file's status and what the table says of it."""
        row = self.rows.get(name, {"status": None, "verdict": "no row"})
        return row["status"], row["verdict"]

    def is_whole(self, status, verified, files):
        return (self.status, self.counts, len(self.rows)) == (status, (verified, files), files)


def start(words, folder, env=None, **more):
    """Runs check-all in the folder. The programs are named in the environment, unless env has others."""
    named = {**os.environ, **CHECKERS, **(env or {})}
    return subprocess.run([CHECK_ALL, *words], cwd=folder, capture_output=True, check=False, timeout=600, **more,
                          env={name: value for name, value in named.items() if value is not None})


def check(folder, *words, **more):
    """What a run says of this folder, or of the words in it."""
    return Found(start(["--json", *(words or ["."])], folder, **more))


def put(folder, name, formula, file):
    """A formula of the examples under this name, and what belongs to it."""
    shutil.copyfile(f"{TOP}/examples/{formula}", f"{folder}/{name}.cnf")
    end = os.path.splitext(file)[1]
    shutil.copyfile(f"{TOP}/examples/{file}", f"{folder}/{name}{end}")
    return f"{folder}/{name}{end}"


def four(folder, before=""):
    """A file of each kind, all of them right."""
    return [put(folder, before + name, formula, file) for name, formula, file in (
        ("text", "e.cnf", "e.drat"), ("binary", "e.cnf", "e.bin"), ("lrat", "e.cnf", "e.lrat"),
        ("model", "models.cnf", "models.out"))]


def copy_with_old_date(source, path):
    """A copy that is older than all else, as tar, rsync and cp -p leave one."""
    shutil.copyfile(f"{TOP}/examples/{source}", path)
    os.utime(path, (1e9, 1e9))


def script(path, *lines):
    """A program that answers --version as drat-forward does, and then does this."""
    with open(path, "w", encoding="utf-8") as text:
        text.write('#!/bin/sh\n[ "$1" != --version ] || { echo drat-forward 0.0.0 >&2; exit 6; }\n')
        text.write("".join(f"{line}\n" for line in lines))
    os.chmod(path, 0o755)
    return path


def digest(path):
    with open(path, "rb") as file:
        return hashlib.sha256(file.read()).hexdigest()


def kept(file):
    with open(f"{file}.verdict", encoding="utf-8") as text:
        return json.load(text)


# ---- Each case yields the name of what it looks at, and whether it holds


def folders(room):
    for number in range(24):
        four(room, f"right{number}-")
    run = start(["-j4", "."], room)
    yield "a folder of right files", run.returncode == 0
    yield "its total", run.stdout.decode().splitlines()[-1].startswith("96 of 96 verified, ")
    report = subprocess.run([CHECKERS["DRAT_FORWARD"], f"{TOP}/examples/e.cnf", f"{TOP}/examples/e.drat"],
                            capture_output=True, check=False).stdout
    with open(f"{room}/right7-text.drat.report", "rb") as text:
        yield "a report is kept", text.read() == report


def refusals(room):
    for number in range(24):
        four(room, f"right{number}-")
    os.mkdir(f"{room}/below")
    put(f"{room}/below", "refused", "g.cnf", "neither_rup_nor_rat.drat")
    put(room, "cut", "e.cnf", "unterminated_step.lrat")
    put(room, "unsatisfied", "models.cnf", "clause_not_satisfied.out")
    shutil.copyfile(f"{TOP}/examples/e.drat", f"{room}/alone.drat")
    shutil.copyfile(f"{TOP}/examples/e.cnf", f"{room}/lost.cnf")
    os.symlink("nowhere", f"{room}/nowhere.lrat")
    found = check(room, "-j4", ".")
    yield "those that aren't verified are rows", found.is_whole(1, 96, 102)
    yield "a refused proof", found.said("refused.drat") == (1, "NOT VERIFIED")
    yield "a proof that is cut", found.said("cut.lrat") == (2, "NOT VERIFIED")
    yield "a clause that isn't satisfied", found.said("unsatisfied.out") == (1, "MODEL NOT VERIFIED")
    yield "a proof without a formula", found.said("alone.drat") == (None, "./alone.cnf: No such file or directory")
    yield "a formula whose proof is lost", found.said("lost.cnf") == (None, "no proof and no output")
    yield "a link to nowhere", found.said("nowhere.lrat") == (None, "./nowhere.lrat: No such file or directory")
    text = start(["."], room).stdout.decode().splitlines()
    yield "their rows as text", [line.split()[:3] for line in text if line.endswith("/refused.drat")] == [["1", "NOT", "VERIFIED"]]
    yield "their total as text", text[-1].startswith("96 of 102 verified, ")

    folder = os.open(room, os.O_RDONLY)
    for _ in range(25):
        os.mkdir("deep" * 50, dir_fd=folder)
        below = os.open("deep" * 50, os.O_RDONLY, dir_fd=folder)
        os.close(folder)
        folder = below
    os.close(folder)
    found = check(room)
    yield "a folder that can't be read isn't left out", found.status == 3 and "File name too long" in found.errors


def dates(room):
    files = four(room)
    check(room)
    before = kept(files[1])
    for name, other in (("text.cnf", "g.cnf"), ("lrat.lrat", "unknown_hint.lrat"), ("model.cnf", "e.cnf")):
        copy_with_old_date(other, f"{room}/{name}")
    found = check(room, "--merge", ".")
    yield "old dates: verdicts of before are stale", found.is_whole(1, 1, 4) and found.verified == {"binary.bin"}
    yield "old dates: it says of what", found.said("text.drat")[1] == "stale: other formula"
    found = check(room)
    yield "old dates: checked again", found.is_whole(1, 1, 4) and found.said("text.drat")[0] == 1
    os.utime(files[1])
    found = check(room)
    yield "a new date alone", found.verified == {"binary.bin"} and kept(files[1]) == before


def options(room):
    file = put(room, "units", "kept_units.cnf", "kept_units.drat")
    yield "refused without the option", check(room).is_whole(1, 0, 1)
    yield "no verdict of other options counts", check(room, "--merge", "--options=--keep-units", ".").is_whole(1, 0, 1)
    yield "verified with it", check(room, "--options=--keep-units", ".").is_whole(0, 1, 1)
    yield "its options are kept", kept(file)["command"] == ["drat-forward", "--keep-units"]
    yield "refused without it again", check(room).is_whole(1, 0, 1)
    put(room, "units", "e.cnf", "e.bin")
    shutil.move(f"{room}/units.bin", file)
    yield "a binary proof by another name", check(room, "--options=--strict --binary", ".").is_whole(0, 1, 1)
    put(room, "units", "e.cnf", "e.lrat")
    found = check(room, "--options=--binary", "--lrat-options=--trace", "units.lrat")
    with open(f"{room}/units.lrat.report", encoding="utf-8") as text:
        yield "options of lrat-check", found.is_whole(0, 1, 1) and "c 1 add rup\n" in text.read()
    found = check(room, "--options=--no-such", file)
    yield "an option that there isn't", found.is_whole(1, 0, 1) and found.said("units.drat")[0] == 6
    found = check(room, "--options=other.cnf", file)
    yield "a name among the options", found.is_whole(1, 0, 1)


def verdicts(room):
    files = four(room)
    yield "hashes are kept", check(room).is_whole(0, 4, 4) and {
        "formula": digest(f"{room}/lrat.cnf"), "file": digest(files[2]), "checker": digest(CHECKERS["LRAT_CHECK"]),
        "options": hashlib.sha256(b"lrat-check").hexdigest()} == kept(files[2])["hashes"]
    yield "nothing else is left", not [name for name in os.listdir(room) if name.startswith(".")]
    os.unlink(f"{files[0]}.verdict")
    found = check(room, "--merge", ".")
    yield "a lost verdict is a row", found.is_whole(1, 3, 4) and found.said("text.drat")[1] == "no verdict"
    yield "it is checked again", check(room).is_whole(0, 4, 4)
    with open(f"{files[0]}.verdict", encoding="utf-8") as text:
        whole = text.read()
    no_number = whole.replace('"status": 0', '"status": false')
    broken = (whole[: len(whole) // 2], "", "[]", "0\tVERIFIED\t0.01\t14\ttext.drat\n", no_number, whole.replace("hashes", "more"))
    for number, text in enumerate(broken):
        with open(f"{files[0]}.verdict", "w", encoding="utf-8") as verdict:
            verdict.write(text)
        yield f"broken verdict {number}", text != whole and check(room, "--merge", ".").is_whole(1, 3, 4)
    yield "broken ones are replaced", check(room).is_whole(0, 4, 4) and check(room, "--merge", ".").is_whole(0, 4, 4)


def checkers(room):
    file = put(room, "text", "e.cnf", "e.drat")
    check(room)
    other = f"{room}/other-build"
    shutil.copyfile(CHECKERS["DRAT_FORWARD"], other)
    os.chmod(other, 0o755)
    with open(other, "ab") as program:
        program.write(b"\n")
    env = {"DRAT_FORWARD": other}
    found = check(room, "--merge", ".", env=env)
    yield "a verdict of another checker", found.said("text.drat")[1] == "stale: other checker" and found.is_whole(1, 0, 1)
    found = check(room, env=env)
    yield "checked again by another checker", found.is_whole(0, 1, 1) and kept(file)["hashes"]["checker"] == digest(other)


def liars(room):
    put(room, "text", "e.cnf", "e.drat")
    for line in ("exit 0", "echo s VERIFIED; exit 1", "echo s VERIFIED; echo c more", "printf 's VERIFIED'", "echo s NOT VERIFIED",
                 "echo s MODEL VERIFIED", "echo 's VERIFIED '", "echo c VERIFIED", "echo s VERIFIED >&2", "echo s VERIFIED; kill -9 $$"):
        found = check(room, env={"DRAT_FORWARD": script(f"{room}/liar", line)})
        yield f"{line} verifies nothing", found.is_whole(1, 0, 1) and found.said("text.drat")[1] != "VERIFIED"
    yield "a signal is told", found.said("text.drat")[1] == "ended by signal 9"

    real = CHECKERS["DRAT_FORWARD"]
    refused = "echo s NOT VERIFIED; exit"
    for end, again in (("kill -9 $$", True), (f"{refused} 4", True), (f"{refused} 3", True), ("exit 1", True),
                       (f"{refused} 2", False), (f"{refused} 1", False)):
        env = {"DRAT_FORWARD": script(f"{room}/once", f"[ -e {room}/ran ] || {{ touch {room}/ran; {end}; }}", f'exec {real} "$@"')}
        first, second = check(room, env=env), check(room, env=env)
        os.unlink(f"{room}/ran")
        yield f"checked again after {end}: {again}", first.is_whole(1, 0, 1) and second.is_whole(int(not again), int(again), 1)


def changes(room):
    real = CHECKERS["DRAT_FORWARD"]
    for what in ("text.cnf", "text.drat", "late"):
        put(room, "text", "e.cnf", "e.drat")
        script(f"{room}/late", f'{real} "$@"; ended=$?; echo >> {room}/{what}; exit $ended')
        found = check(room, env={"DRAT_FORWARD": f"{room}/late"})
        yield f"{what} changes while it is checked", found.is_whole(1, 0, 1) and "changed" in found.said("text.drat")[1]


def foreign(room):
    put(room, "lrat", "e.cnf", "e.lrat")
    for folder, program in (("theirs", None), ("ours", CHECKERS["LRAT_CHECK"]), ("renamed", CHECKERS["LRAT_CHECK"])):
        os.mkdir(f"{room}/{folder}")
        if program:
            os.symlink(program, f"{room}/{folder}/{'gazhumbe-' if folder == 'renamed' else ''}lrat-check")
    with open(f"{room}/theirs/lrat-check", "w", encoding="utf-8") as text:
        text.write("#!/bin/sh\necho c VERIFIED\necho s VERIFIED\n")
    os.chmod(f"{room}/theirs/lrat-check", 0o755)
    # where ours are installed, the folder of Python may have them too
    os.mkdir(f"{room}/bare")
    os.symlink(sys.executable, f"{room}/bare/python3")
    path = {"LRAT_CHECK": None}
    found = check(room, env={**path, "PATH": f"{room}/theirs:{room}/bare"})
    yield "another lrat-check alone", found.status == 3 and "no lrat-check of ours" in found.errors
    yield "it leaves no verdict", not os.path.exists(f"{room}/lrat.lrat.verdict")
    found = check(room, env={"LRAT_CHECK": f"{room}/theirs/lrat-check"})
    yield "another lrat-check by its variable", found.status == 3 and found.counts == (0, 0)
    yield "a program that isn't there", check(room, env={"LRAT_CHECK": f"{room}/none"}).status == 3
    yield "another one of ours", check(room, env={"LRAT_CHECK": CHECKERS["DRAT_FORWARD"]}).status == 3
    for folder in ("ours", "renamed"):
        found = check(room, env={**path, "PATH": f"{room}/theirs:{room}/{folder}:{os.environ['PATH']}"})
        yield f"another lrat-check before {folder}", found.is_whole(0, 1, 1) and (
            kept(f"{room}/lrat.lrat")["hashes"]["checker"] == digest(CHECKERS["LRAT_CHECK"]))
        os.unlink(f"{room}/lrat.lrat.verdict")


NAMED = [b"`touch ran`", b"a & touch ran", b"; touch ran;", b"$(touch ran)", b"a b", b"it's", b'"', b"two\nlines", b"\xff\xfe",
         b"-j", b"--json", b"a\tb", b"\\n", b"*", b"#", b"%s", b"$HOME", b"|touch ran", b"\xc3\xa9", b"a.b", b" ", b"=1+1"]


def names(room):
    inside = os.fsencode(f"{room}/in `touch ran` & out")
    os.mkdir(inside)
    for name in NAMED:
        for end in (b".cnf", b".drat"):
            shutil.copyfile(f"{TOP}/examples/e{end.decode()}".encode(), os.path.join(inside, name + end))
    wanted = {name + b".drat" for name in NAMED}
    found = check(inside)
    yield "names that a shell would read", found.is_whole(0, len(NAMED), len(NAMED))
    yield "they are what they were", {os.fsencode(name) for name in found.rows} == wanted
    found = check(room)
    yield "a folder whose name a shell would read", found.is_whole(0, len(NAMED), len(NAMED))
    table = csv.DictReader(io.StringIO(os.fsdecode(start(["--csv", "."], inside).stdout), newline=""))
    yield "names in CSV", {os.fsencode(os.path.basename(row["file"])) for row in table if row["verified"] == "True"} == wanted
    text = start(["."], inside).stdout.decode().splitlines()
    yield "a line of text for each", len(text) == len(NAMED) + 2 and any(line.endswith("/two\\nlines.drat") for line in text)
    yield "a byte that isn't UTF-8", any(line.endswith("/\\xff\\xfe.drat") for line in text)
    by_nul = b"".join(b"./" + name + b"\0" for name in sorted(wanted))
    found = check(inside, "--merge", "--list", "-", input=by_nul)
    yield "a list with NUL bytes", found.is_whole(0, len(NAMED), len(NAMED))
    found = check(inside, "--options=--strict", "--", *sorted(wanted))
    yield "names as words, which are checked again", found.is_whole(0, len(NAMED), len(NAMED))
    yield "no shell saw them", not any("ran" in inner for _, _, inner in os.walk(room))


def main(cases):
    """Tries the cases, or those that are named, each in a folder of its own."""
    passed = failed = 0
    for case in [case for case in cases if case.__name__ in sys.argv[1:]] or cases:
        with tempfile.TemporaryDirectory() as room:
            for name, held in case(room):
                passed, failed = passed + bool(held), failed + (not held)
                if not held:
                    print(f"FAILED: {case.__name__}: {name}")
    print(f"{passed} passed, {failed} failed")
    return 0 if passed and not failed else 1


if __name__ == "__main__":
    sys.exit(main([folders, refusals, dates, options, verdicts, checkers, liars, changes, foreign, names]))
