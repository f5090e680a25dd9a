#!/usr/bin/env python3
"""Spells this repository's own definitions and lemmas as today's Rattle spells its own: words joined by '_', no capital
inside a name that is no type. It was run once, after port.py of the kit (docs/PORT.md); a second run changes nothing.

usage: tools/respell.py [--names]      at the top of the repository; --names prints the table and writes nothing

A name is respelled where an .antt file in specs/, or a file of lemmas in proofs/, declares it. It is replaced as a whole
word in .antt and .rt files, in must-fail edits, and between backticks in README, CONTRIBUTING and docs/ (the notes on
landings and CHANGELOG name things as they were called). Names that Rattle makes, as `loop-i-preserved`, are declared in
no such file and stay.
"""

import collections
import os
import re
import sys

WORD = re.compile(r"[^\s(){}.;,@\"«»`\[\]|]+")
DECLARED = re.compile(
    r"^\s*(?:(?:abbrev|unfoldable|pub)\s+)*([^\s(){}.;,@\"]+)(?:\s+[({][^)}]*[)}])*\s+:\s"
)
TYPE = re.compile(r"^\s*(?:(?:abbrev|unfoldable|pub)\s+)*(?:data|record|module)\s+([^\s(){}.;,@\"]+)")
BOUND = re.compile(r"(?:^|\s)let ([^\s(){}.;,@\"]*-[^\s(){}.;,@\"]*) [:=]")
# words of names that the library has respelled, and names that say two words by a capital
PARTS = {"getD": "get_or", "onCycle": "is_on_cycle"}
IMPORT = re.compile(r"\buse (\S+?)\.\{([^}]*)\}")


def files(*endings):
    for folder, dirs, names in os.walk("crates"):
        dirs[:] = sorted(d for d in dirs if d != "out")
        for name in sorted(names):
            if name.endswith(endings):
                yield os.path.join(folder, name)


def read(path):
    with open(path, encoding="utf-8") as it:
        return it.read()


def is_walk(path):
    """Whether this is a function's own proof, whose names are Rattle's or stay in that file."""
    own = os.path.basename(path) in ("Proof.antt", "Answers.antt", "Invariants.antt")
    return own and "/proofs/" in path


def spelled(name):
    for old, new in PARTS.items():
        name = re.sub(rf"(?<![A-Za-z]){old}(?![a-z])", new, name)
    return name.replace("-", "_")


def table():
    names = set()
    for path in files(".antt"):
        if is_walk(path):
            continue
        for line in read(path).split("\n"):
            if line.lstrip().startswith("--"):
                continue
            for found in (DECLARED.match(line + " "), TYPE.match(line)):
                if found:
                    names.add(found[1])
            names.update(BOUND.findall(line))
            # several names of one type, in brackets
            for group in re.findall(r"[({]((?:[^\s(){}:;,.@\"]+ )+): ", line):
                names.update(it for it in group.split() if "-" in it)
    rows = {it: spelled(it) for it in names if re.search(r"\w", it) and spelled(it) != it}
    meets = collections.defaultdict(set)
    for it in names:
        meets[rows.get(it, it)].add(it)
    for new, olds in sorted(meets.items()):
        if len(olds) > 1:
            sys.exit(f"{', '.join(sorted(olds))} would all be {new}")
    return rows


def turned(text, rows):
    return WORD.sub(lambda m: rows.get(m[0], m[0]), text)


def in_antt(path, text, rows):
    """Leaves, in a file that imports a name from a library, that name."""
    kept = {
        it.strip().split(" as ")[0].strip()
        for module, items in IMPORT.findall(text)
        if not module.startswith("Rattle.") or module.startswith("Rattle.std.")
        for it in items.split(",")
    }
    return turned(text, {a: b for a, b in rows.items() if a not in kept})


def clashes(path, text, rows):
    """Where a new spelling is a word of that file already, so that two names could fall together there."""
    words = set(WORD.findall(re.sub(r"--[^\n]*|//[^\n]*", "", text)))
    for old, new in rows.items():
        if old in words and new in words:
            yield f"look: {path}: {old} becomes {new}, which stands there already"


def main(argv):
    rows = table()
    if argv == ["--names"]:
        print("\n".join(f"{a}\t{b}" for a, b in sorted(rows.items())))
        return
    for path in files(".antt", ".rt", ".edit"):
        text = read(path)
        for line in clashes(path, text, rows):
            print(line)
        new = in_antt(path, text, rows)
        if new != text:
            with open(path, "w", encoding="utf-8") as it:
                it.write(new)
    pages = ["README.md", "CONTRIBUTING.md", *(f"docs/{it}" for it in sorted(os.listdir("docs")) if it.endswith(".md"))]
    for path in pages:
        text = read(path)
        new = re.sub(r"`[^`\n]+`", lambda m: turned(m[0], rows), text)
        if new != text:
            with open(path, "w", encoding="utf-8") as it:
                it.write(new)


if __name__ == "__main__":
    main(sys.argv[1:])
