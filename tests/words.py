#!/usr/bin/env python3
"""Shows that the pages are as short as they are meant to be, and that their words are spelled right.

A page may have up to 1.2 times as many words, as `wc -w` counts them, as WORDS has of it; one that isn't there is skipped, and
said. Where codespell is installed, it goes over all files but what was built, and each word that it doesn't know counts as one
failure. The last line is "N passed, M failed".
"""

import os
import re
import shutil
import subprocess
import sys

ROOT = os.path.dirname(os.path.dirname(os.path.abspath(__file__)))
WORDS = {
    "README.md": 1185,
    "docs/FORMATS.md": 1500,
    "docs/RULES.md": 1300,
    "docs/REPORT.md": 700,
    "docs/THEOREM.md": 1500,
    "docs/PROMISES.md": 1500,
    "docs/ARCHITECTURE.md": 1400,
    "docs/DECISIONS.md": 1500,
    "docs/PERFORMANCE.md": 800,
    "man/drat-forward.1": 700,
    "man/lrat-check.1": 700,
    "man/model-check.1": 700,
}
# what codespell takes for other words: a checker, a crate, literals, a step "\nd" in a string, and a name of a lemma
KNOWN = "grat,crate,lits,nd,somes"
BUILT = "./.git,./bin,*/out,*/__pycache__"


def counts():
    """Whether each page is short enough."""
    for page, words in WORDS.items():
        if not os.path.exists(f"{ROOT}/{page}"):
            print(f"skipped: there is no {page} yet")
            continue
        with open(f"{ROOT}/{page}", encoding="utf-8") as text:
            found = len(text.read().split())
        if found > 1.2 * words:
            print(f"FAILED: {page} has {found} words, and may have {words * 6 // 5}")
        yield found <= 1.2 * words


def spellings():
    """A failure for each word that codespell doesn't know, or one pass."""
    if not shutil.which("codespell"):
        print("skipped: codespell is not installed")
        return
    run = subprocess.run(["codespell", "--ignore-words-list", KNOWN, "--skip", BUILT, "--quiet-level", "3", "."],
                         cwd=ROOT, capture_output=True, text=True)
    wrong = [line for line in run.stdout.splitlines() if re.match(r".+:\d+: ", line)]
    for line in wrong:
        print(f"FAILED: {line}")
    if run.returncode and not wrong:
        print(f"FAILED: codespell: {run.stderr.strip()}")
        wrong.append("codespell")
    yield from (False for _ in wrong) if wrong else (True,)


def main():
    held = [*counts(), *spellings()]
    print(f"{sum(held)} passed, {len(held) - sum(held)} failed")
    return 0 if held and all(held) else 1


if __name__ == "__main__":
    sys.exit(main())
