#!/usr/bin/env python3
"""Brings the names of this repository's own definitions and lemmas to snake case: `part-size-message` becomes `part_size_message`.

usage: python3 tools/snake_names.py            lists the names, and those that would fall together with another
       python3 tools/snake_names.py --write    renames them, in crates/, docs/ and README.md

A name is taken where a file of specs/ or proofs/ declares it. What the check makes
(`loop-i-preserved`, `returns-2`) and what the library declares keeps its dashes; so do strings, inputs and outputs,
functions of src/ and exported names.
"""

import os
import re
import sys

ROOT = os.path.dirname(os.path.dirname(os.path.realpath(__file__)))
WORD = r"[\w'ℕℤ]+(?:-[\w'ℕℤ]+)+"
NAME = re.compile(r"(?<![\w'\-])" + WORD + r"(?![\w'\-])")
DECLARED = re.compile(r"^\s*(?:(?:abbrev|unfoldable|opaque|pub|lemma|record|data)\s+)*(" + WORD + r")\s*(?:[({].*)?:(?!:)")
IMPORT = re.compile(r"^\s*(?:ghost )?use ([\w.'+]+)\.\{([^}]*)\}", re.M)


def files(*endings):
    for top in ("crates", "docs", "README.md"):
        path = os.path.join(ROOT, top)
        if os.path.isfile(path):
            yield path
        for folder, dirs, names in os.walk(path):
            dirs[:] = sorted(d for d in dirs if d not in ("out", "target"))
            yield from (os.path.join(folder, n) for n in sorted(names) if n.endswith(endings))


def own_names():
    """The names that .antt files of this repository declare, but for the answers to what the check asks for."""
    found, library = set(), set()
    for path in files(".antt", ".rt"):
        text = open(path, encoding="utf-8").read()
        library |= imported_from_library(text)
        if path.endswith(".antt"):
            for line in text.splitlines():
                m = DECLARED.match(line.split("--")[0])
                if m and not re.search(r":\s*goal\.", line):
                    found.add(m.group(1))
    return found - library


def imported_from_library(text):
    return {n.strip() for m in IMPORT.finditer(text) if not own_module(m.group(1)) for n in m.group(2).split(",")}


def own_module(module):
    crates = {d for d in os.listdir(os.path.join(ROOT, "crates"))}
    parts = module.split(".")
    return len(parts) > 1 and parts[0] == "Rattle" and parts[1] in crates


def code_only(text, change):
    """Applies change to the clauses and names of a .rt file, and not inside its string literals."""
    parts = re.split(r'("(?:\\.|[^"\\])*")', text)
    return "".join(p if i % 2 else change(p) for i, p in enumerate(parts))


def main():
    names = own_names()
    new = {n: n.replace("-", "_") for n in names}
    words = {}
    for path in files(".antt", ".rt"):
        for w in re.findall(r"[\w'ℕℤ]+", open(path, encoding="utf-8").read()):
            words.setdefault(w, set()).add(os.path.relpath(path, ROOT))
    for n in sorted(names):
        note = f"   (already a word of {', '.join(sorted(words[new[n]])[:4])})" if new[n] in words else ""
        print(f"{n} -> {new[n]}{note}")
    if "--write" not in sys.argv[1:]:
        return
    for path in files(".antt", ".rt", ".md", ".edit"):
        text = open(path, encoding="utf-8").read()
        change = lambda t: NAME.sub(lambda m: new.get(m.group(0), m.group(0)), t)
        if path.endswith(".md"):
            after = re.sub(r"`[^`\n]+`", lambda m: change(m.group(0)), text)
        elif path.endswith(".rt"):
            after = code_only(text, change)
        else:
            after = change(text)
        if after != text:
            open(path, "w", encoding="utf-8").write(after)


if __name__ == "__main__":
    main()
