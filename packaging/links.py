#!/usr/bin/env python3
"""Tries each relative link of the pages in a folder: what it names has to be in that folder, as it is named, with the heading
where it names one.

    packaging/links.py FOLDER

The last line is "N passed, M failed".
"""

import os
import re
import sys

LINK = re.compile(r"\]\(([^)\s]+)\)")


def pages(folder):
    """The paths of all pages, in order."""
    for where, _, names in sorted(os.walk(folder)):
        yield from (os.path.join(where, name) for name in sorted(names) if name.endswith(".md"))


def without_blocks(text):
    """The lines of a page that are no code: neither fenced nor indented."""
    fenced = False
    for line in text.split("\n"):
        if line.startswith("```"):
            fenced = not fenced
        elif not fenced and not line.startswith("    "):
            yield line


def prose(path):
    with open(path, encoding="utf-8") as page:
        return list(without_blocks(page.read()))


def anchors(path):
    """The names that the headings of a page have, as forges make them."""
    headings = (line.lstrip("#").strip().lower() for line in prose(path) if line.startswith("#"))
    return {re.sub(r"[^\w -]", "", heading).replace(" ", "-") for heading in headings}


def fault(folder, page, link):
    """What is wrong with a link, or None."""
    name, _, anchor = link.partition("#")
    path = os.path.normpath(os.path.join(os.path.dirname(page), name)) if name else page
    if os.path.commonpath([folder, path]) != folder:
        return "it leads out of the folder"
    if not os.path.exists(path):
        return "there is no such file"
    if anchor and (not path.endswith(".md") or anchor not in anchors(path)):
        return "there is no such heading"
    return None


def main(words):
    if len(words) != 1 or not os.path.isdir(words[0]):
        print("usage: packaging/links.py FOLDER", file=sys.stderr)
        return 6
    folder = os.path.abspath(words[0])
    passed = failed = 0
    for page in pages(folder):
        for link in LINK.findall("\n".join(prose(page))):
            if ":" in link:
                continue
            wrong = fault(folder, page, link)
            passed, failed = passed + (wrong is None), failed + (wrong is not None)
            if wrong:
                print(f"FAILED: {os.path.relpath(page, folder)}: {link}: {wrong}")
    print(f"{passed} passed, {failed} failed")
    return 0 if passed and not failed else 1


if __name__ == "__main__":
    sys.exit(main(sys.argv[1:]))
