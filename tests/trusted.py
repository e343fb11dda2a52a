#!/usr/bin/env python3
"""Shows that docs/THEOREM.md tells the sizes of the library crates that are trusted as they are.

Each row of its table that begins with names of crates tells their lines of source in the kit, of which `rt doc` tells the
place. RT names the command rt, where it isn't on the PATH. The last line is "N passed, M failed".
"""

import glob
import os
import re
import subprocess
import sys

ROOT = os.path.dirname(os.path.dirname(os.path.abspath(__file__)))
PAGE = "docs/THEOREM.md"
ROW = re.compile(r"^\| (`\w+`(?:, `\w+`)*)(?: \([^|]*\))? \| ([0-9,]+) \|[^|]*\|$", re.MULTILINE)


def lines_of(kit, crate):
    """How many lines of source a crate of the kit has."""
    count = 0
    for path in glob.glob(f"{kit}/rattle/{crate}/src/**/*.rt", recursive=True):
        with open(path, "rb") as text:
            count += text.read().count(b"\n")
    return count


def main():
    page_of_kit = subprocess.run([os.environ.get("RT") or "rt", "doc"], stdout=subprocess.PIPE, text=True, check=True).stdout
    kit = os.path.dirname(page_of_kit.strip())
    with open(f"{ROOT}/{PAGE}", encoding="utf-8") as text:
        rows = ROW.findall(text.read())
    passed = failed = 0
    for names, told in rows:
        found = sum(lines_of(kit, crate) for crate in re.findall(r"\w+", names))
        well = found > 0 and told == f"{found:,}"
        passed, failed = passed + well, failed + (not well)
        if not well:
            print(f"FAILED: {PAGE} says that {names} have {told} lines, and they have {found:,}")
    print(f"{passed} passed, {failed} failed")
    return 0 if passed and not failed else 1


if __name__ == "__main__":
    sys.exit(main())
