"""Mutants, as those of wrong bodies: how one is read, and what it makes of a crate's files."""


def pairs_of(mutant):
    """The pairs of a mutant: file, old text, new text."""
    pairs, file, old = [], None, None
    with open(mutant, encoding="utf-8") as lines:
        for line in lines.read().split("\n"):
            if line.startswith("file: "):
                file = line[len("file: ") :]
            elif line.startswith("old: "):
                old = line[len("old: ") :]
            elif line.startswith("new:"):
                pairs.append((file, old, line[len("new: ") :]))
                old = None
    return pairs


def mutated(folder, pairs):
    """The new text of each file of the folder that the pairs change, or None; and where it is None, why."""
    texts = {}
    for file, old, new in pairs:
        if not file or not old:
            return None, "a new text has no file or no old text before it"
        if file not in texts:
            try:
                with open(f"{folder}/{file}", encoding="utf-8") as text:
                    texts[file] = text.read()
            except OSError:
                return None, f"there is no file {file}"
        found = texts[file].count(old)
        if found != 1:
            return None, f"an old text is in {file} {found} times: {old}"
        texts[file] = texts[file].replace(old, new)
    return texts, ""
