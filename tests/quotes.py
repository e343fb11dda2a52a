#!/usr/bin/env python3
"""Shows that docs/THEOREM.md quotes definitions as they are.

Each quotation, the lines between two ```, stands in the file to which the last link before it points, line by line, but for
comments. The last line is "N passed, M failed".
"""

import os
import re
import sys

ROOT = os.path.dirname(os.path.dirname(os.path.abspath(__file__)))
PAGE = "docs/THEOREM.md"
LINK = re.compile(r"\]\((\.\./crates/[^)]*)\)")


def quotations(page):
    """Each quotation of the page, and the file that the last link before it names."""
    source = None
    for number, part in enumerate(page.split("\n```\n")):
        if number % 2:
            yield source, part
        else:
            source = (LINK.findall(part) or [source])[-1]


def bare(text):
    """A text without its comments, with one blank line where there are more."""
    return re.sub(r"\n{3,}", "\n\n", re.sub(r"^ *--.*\n", "", text, flags=re.M))


def main():
    with open(f"{ROOT}/{PAGE}", encoding="utf-8") as text:
        page = text.read()
    passed = failed = 0
    for source, quoted in quotations(page):
        with open(f"{ROOT}/docs/{source}", encoding="utf-8") as text:
            stands = bare(f"\n{quoted}\n") in bare(f"\n{text.read()}")
        passed, failed = passed + stands, failed + (not stands)
        if not stands:
            print(f"FAILED: {PAGE} quotes what {source} doesn't have: {quoted.splitlines()[0]}")
    print(f"{passed} passed, {failed} failed")
    return 0 if passed and not failed else 1


if __name__ == "__main__":
    sys.exit(main())
