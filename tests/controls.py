#!/usr/bin/env python3
"""Shows for what mutants are refused, by the right bodies beside the wrong ones.

A mutant, of the gate or of tests/mutants, may change proof texts too, which don't fit the wrong body. With these texts and the
right bodies the functions have to be proved: so it is the wrong body that is refused. One that takes a text out for good says why,
in a line `# without a control: WHY`; such mutants are counted.

A mutant tests/mutants/*/*_by_models_alone.edit takes away the clauses on exact answers, with the lines that prove them; its last
pair turns the body. A body that breaks soundness breaks those clauses too, and would be refused for them. Here each is tried in
two parts. With the clauses gone and the body as it is, the crate has to be proved: so nothing but the turned body is refused. With
the turned body too, the goal of the clause on models has to stay open.

    tests/controls.py [CRATE..]        the mutants of these crates, all where none is named

By hand, with make test-mutants: it works on copies, over what the kit kept of earlier checks. RT names the command rt,
where it isn't on the PATH. The last line is "N passed, M failed".
"""

import concurrent.futures
import glob
import os
import re
import shutil
import subprocess
import sys
import tempfile

from mutant import mutated, pairs_of

ROOT = os.path.dirname(os.path.dirname(os.path.abspath(__file__)))
RT = os.environ.get("RT") or "rt"
PARTS = ["src", "specs", "proofs"]
# The clauses on models: of a session's step, and of an engine, whose contract is one record.
GOAL = re.compile(r"`returns[^`]*-clause-keeps_models`|/run_\w+/Answers\.antt:\d+:\d+: error: `returns`")


def check(room, crate, pairs, jobs=("--jobs", "1")):
    """Whether the crate is proved with these pairs, and what the check wrote."""
    folder = f"{room}/crates/{crate}"
    for part in PARTS:
        shutil.rmtree(f"{folder}/{part}", ignore_errors=True)
        if os.path.isdir(f"{ROOT}/crates/{crate}/{part}"):
            shutil.copytree(f"{ROOT}/crates/{crate}/{part}", f"{folder}/{part}")
    texts, why = mutated(folder, pairs)
    if texts is None:
        return None, why
    for file, text in texts.items():
        with open(f"{folder}/{file}", "w", encoding="utf-8") as to:
            to.write(text)
    ran = subprocess.run([RT, "check", *jobs], cwd=folder, stdin=subprocess.DEVNULL, stdout=subprocess.PIPE,
                         stderr=subprocess.STDOUT, text=True, errors="replace", check=False)
    return ran.returncode == 0, ran.stdout


def functions_of(crate, pairs):
    """The functions whose proofs the pairs change; none where they change a lemma."""
    files = dict.fromkeys(file for file, _, _ in pairs)
    if any(os.path.basename(file) not in ("Answers.antt", "Invariants.antt") for file in files):
        return []
    return list(dict.fromkeys("::".join([crate, *file.split("/")[1:-1]]) for file in files))


def fitted(base, crate, mutants):
    """What is to be said of each mutant's proof texts: its name, whether they fit the right bodies, and why not."""
    said = []
    with tempfile.TemporaryDirectory() as room:
        shutil.copytree(base, room, symlinks=True, dirs_exist_ok=True)
        for mutant in mutants:
            pairs = [pair for pair in pairs_of(mutant) if pair[0].startswith("proofs/")]
            only = [word for name in functions_of(crate, pairs) for word in ("--only", name)]
            proved, told = check(room, crate, pairs, ("--jobs", "1", *only))
            said.append((f"{crate}/{os.path.basename(mutant)}, its proof texts", proved is True, "not proved\n" + told[-2000:]))
    return said


def tried(base, crate, mutants):
    """What is to be said of each mutant: its name, whether it is well, and why not. A crate's mutants have a room of their own."""
    said = []
    with tempfile.TemporaryDirectory() as room:
        shutil.copytree(base, room, symlinks=True, dirs_exist_ok=True)
        for mutant in mutants:
            name, pairs = f"{crate}/{os.path.basename(mutant)}", pairs_of(mutant)
            proved, told = check(room, crate, pairs[:-1])
            said.append((f"{name} with the right body", proved is True, "it is not proved\n" + told[-2000:]))
            proved, told = check(room, crate, pairs)
            said.append((f"{name} with the wrong body", proved is False and GOAL.search(told) is not None,
                         "no goal on models stays open\n" + told[-2000:]))
    return said


def by_crate(paths, place, names):
    """The mutants of these crates, or of all, by crate, whose name stands at this place of the path, from its end."""
    found = {}
    for path in sorted(paths):
        crate = path.split("/")[place]
        if not names or crate in names:
            found.setdefault(crate, []).append(path)
    return found


def texts_of(path):
    with open(path, encoding="utf-8") as text:
        return text.read()


def main(names):
    models = by_crate(glob.glob(f"{ROOT}/tests/mutants/*/*_by_models_alone.edit"), -2, names)
    others = [path for path in glob.glob(f"{ROOT}/tests/mutants/*/*.edit") if not path.endswith("_by_models_alone.edit")]
    gate = glob.glob(f"{ROOT}/crates/*/must-fail/*.edit")
    changed = [path for path in others + gate if "\nfile: proofs/" in texts_of(path)]
    left_out = [path for path in changed if "\n# without a control: " in texts_of(path)]
    with tempfile.TemporaryDirectory() as base, concurrent.futures.ThreadPoolExecutor() as pool:
        # What stands below these crates is proved once, and all have what that leaves.
        shutil.copytree(f"{ROOT}/crates", f"{base}/crates", symlinks=True, ignore=shutil.ignore_patterns("out"))
        for name in ["crates.txt", "HANDLES"]:
            shutil.copy(f"{ROOT}/{name}", base)
        for crate in models:
            check(base, crate, [], jobs=())
        rooms = [pool.submit(tried, base, crate, those) for crate, those in models.items()]
        for paths, place in (others, -2), (gate, -3):
            kept = [path for path in paths if path in changed and path not in left_out]
            rooms += [pool.submit(fitted, base, crate, those) for crate, those in by_crate(kept, place, names).items()]
        said = [it for room in rooms for it in room.result()]
    for name, well, why in said:
        print(f"{name}: {'as it must be' if well else 'FAILED: ' + why}")
    print(f"without a control, as they say: {len(left_out)}")
    passed = sum(well for _, well, _ in said)
    print(f"{passed} passed, {len(said) - passed} failed")
    return 0 if said and passed == len(said) else 1


if __name__ == "__main__":
    sys.exit(main(sys.argv[1:]))
