#!/usr/bin/env python3
"""Respells the repository's own definitions and lemmas: words in snake case, a dash between two names of definitions.

usage: tools/respell.py [--list]     at the top of the checkout, once, right after the toolchain's port.py

A name is one that specs/ or proofs/ declares (an answer to a goal keeps its name, which the toolchain makes). It turns in
every .antt file, and in the .rt files, outside strings and comments' plain words. --list prints the rows and writes nothing.
It stops where two names would fall together. (A definition may have the name of a function of src/, as in the library.)
"""
import glob
import os
import re
import sys

# Words of the library that a lemma's name may join to another name.
LIBRARY = {"length", "append", "take", "drop", "set"}
# Lemmas that would have the name of a definition, a function or a ghost field that they are about.
LEMMAS = {"side-code", "release-code", "flag-code", "demand-code", "same-side", "is-cleared", "is-full", "levers-served", "signals-served", "has_room", "lawful-listing"}
# Names whose parts the library spells otherwise now.
OTHERS = {"getD-same": "get_or-same"}
DEFINITION = re.compile(r"\s*(?:abbrev|unfoldable)\s+(?:pub\s+)?([^\s:(){}]+)")
DECLARED = re.compile(r"\s*(?:(?:abbrev|unfoldable|pub|mutual|data|record)\s+)*([^\s:(){}]+)\s*(?:\([^)]*\)\s*|\{[^}]*\}\s*)*:\s")
WORD = re.compile(r"(?<![\w'·-])[a-zA-Z][\w'-]*(?![\w'-])")
QUIET = re.compile(r'"(?:[^"\\\n]|\\.)*"')


def files(ending):
    return sorted(glob.glob(f"crates/*/**/*{ending}", recursive=True))


def declared():
    names = []
    for path in files(".antt"):
        answers = os.path.basename(path) in ("Answers.antt", "Invariants.antt")
        with open(path, encoding="utf-8") as f:
            for line in f:
                m = DECLARED.match(line)
                if m and m.group(1) != "use" and not (answers and re.search(r":\s*goal\.", line)):
                    names.append(m.group(1))
    return list(dict.fromkeys(names))


def definitions():
    names = set()
    for path in files(".antt"):
        with open(path, encoding="utf-8") as f:
            names |= {m.group(1) for m in map(DEFINITION.match, f) if m}
    return names


def snake(word):
    return re.sub(r"(?<=[a-z0-9])([A-Z])", lambda m: "_" + m.group(1).lower(), word)


def spelled(name, known):
    if name in OTHERS:
        return OTHERS[name]
    if name in LEMMAS:
        return name.replace("-", "_") + "_lem"
    if "-" not in name:
        return snake(name) if name[0].islower() else name
    parts = [snake(p) if p[0].islower() else p for p in name.split("-")]
    out = parts[0]
    for before, after in zip(parts, parts[1:]):
        both = all(p in known or p[0].isupper() for p in (before, after))
        out += ("-" if both else "_") + after
    return out


def main(argv):
    names = declared()
    known = LIBRARY | {snake(n) for n in definitions() if "-" not in n}
    rows = {n: spelled(n, known) for n in names}
    rows = {a: b for a, b in rows.items() if a != b}
    texts = {p: open(p, encoding="utf-8").read() for p in files(".antt") + files(".rt")}
    others = set(names) - set(rows)
    clash = [f"{a} -> {b}" for a, b in rows.items() if b in others or list(rows.values()).count(b) > 1]
    if argv == ["--list"]:
        print("\n".join(f"{a}\t{b}" for a, b in rows.items()))
        print("\n".join("clash: " + c for c in clash))
        return 0
    if clash:
        print("\n".join("clash: " + c for c in clash))
        return 1

    def turned(m):
        return rows.get(m.group(0), m.group(0))

    for path, text in texts.items():
        out, at = [], 0
        for m in QUIET.finditer(text):
            out += [WORD.sub(turned, text[at : m.start()]), m.group(0)]
            at = m.end()
        out.append(WORD.sub(turned, text[at:]))
        with open(path, "w", encoding="utf-8") as f:
            f.write("".join(out))
    print(f"{len(rows)} names")
    return 0


if __name__ == "__main__":
    raise SystemExit(main(sys.argv[1:]))
