#!/usr/bin/env python3
"""Spells this repository's own definitions and lemmas as today's Rattle spells names.

Usage: tools/respell.py [FOLDER]   (the repository, or a checkout of it; run once, after the kit's port.py)

A name that crates/*/specs or crates/*/proofs/*.antt declares, or that a proof gives to a local fact, has underscores in
place of dashes; a type has camel case. Names of the library and those that the prover makes stay. Names in the code
spans of README.md and docs/ go with them. Ends with 1, and writes nothing, where two names would fall together.
"""

import os
import re
import sys

NAME = r'[^\s(){}\[\].;,:@"«»]+'
DASHED = re.compile(rf"(?<![^\s(){{}}\[\].;,:@\"«»]){NAME}-{NAME}(?![^\s(){{}}\[\].;,:@\"«»])")
IMPORT = re.compile(r"\buse +([^\s;{]+?)(?:\.\{([^}]*)\})?(?: as \S+)?;?$", re.M)
DECLARED = re.compile(rf"^ *(?:abbrev +|unfoldable +|private +)*(?:pub +)?(?:record +|data +)?({NAME}) +(?:\([^()]*\) +)*:", re.M)
# Laws of a bit of a word, which would bear the names of the words of the library that they speak of.
OTHERWISE = {"bit-and": "bit_of_and", "bit-or": "bit_of_or"}
COMMENT = re.compile(r"--[^\n]*|//[^\n]*")


def texts(root, *ends):
    for folder, dirs, files in os.walk(os.path.join(root, "crates")):
        dirs[:] = sorted(d for d in dirs if d != "out")
        for name in sorted(files):
            if name.endswith(ends):
                yield os.path.join(folder, name)


def read(path):
    with open(path, encoding="utf-8") as f:
        return f.read()


def is_answer(path):
    return os.path.basename(path) in ("Answers.antt", "Invariants.antt")


def of_library(path):
    return path.split(".")[0] != "Rattle" or path.split(".")[1] == "std"


def imported(text):
    """The dashed names that come from the library, and those that the prover made."""
    found = set()
    for path, names in IMPORT.findall(text):
        if of_library(path) or path.endswith((".Goals", ".Given")):
            found.update(n.strip() for n in names.split(","))
    return found


def respelled(name):
    if name in OTHERWISE:
        return OTHERWISE[name]
    words = name.replace("′", "'").split("-")
    if name[0].isupper():
        return words[0] + "".join(w[:1].upper() + w[1:] for w in words[1:])
    return "_".join(words)


def own_names(root):
    """What the files declare, by a dash; a proof's answers declare only local facts."""
    own, taken = set(), set()
    for path in texts(root, ".antt", ".rt"):
        text = COMMENT.sub("", read(path))
        library = imported(text)
        taken |= library
        if path.endswith(".antt"):
            bare = re.sub(r"(?m)^( *(?:pub )?use +)[^\s;{]+", r"\1", text)
            taken |= {n for n in re.findall(NAME, bare) if "-" not in n}
        else:
            continue
        if is_answer(path):
            found = set(re.findall(rf"\blet +({NAME}-{NAME})", text)) | set(re.findall(rf"[(λ] *({NAME}-{NAME}) :", text))
        else:
            found = set(DASHED.findall(re.sub(r"(?m)^ *(pub )?use .*$", "", text)))
        own |= found - library
    return own, taken


def turned(text, table, answer):
    """A name behind a dot is the prover's in an answer, unless it is a field that the repository declares."""

    def word(m):
        behind_dot = m.start() > 0 and m.string[m.start() - 1] == "."
        made = answer and (behind_dot or m.string[: m.start()].endswith("pub ") or m.string[m.end() :].startswith(" c =") or m.string[m.end() :].startswith(" g c ="))
        return m[0] if made else table.get(m[0], m[0])

    return DASHED.sub(word, text)


def main(root):
    own, taken = own_names(root)
    table = {n: respelled(n) for n in own}
    met = sorted(n for n, new in table.items() if new in taken or sum(v == new for v in table.values()) > 1)
    if met:
        print("these would fall together with other names: " + ", ".join(f"{n} ({table[n]})" for n in met))
        return 1
    for path in texts(root, ".antt", ".rt"):
        text = read(path)
        here = {k: v for k, v in table.items() if k not in imported(text)}
        new = turned(text, here, is_answer(path))
        if new != text:
            with open(path, "w", encoding="utf-8") as f:
                f.write(new)
    pages = [os.path.join(root, "README.md")] + [os.path.join(root, "docs", n) for n in sorted(os.listdir(os.path.join(root, "docs"))) if n.endswith(".md")]
    for path in pages:
        text = read(path)
        new = re.sub(r"`[^`\n]+`", lambda m: DASHED.sub(lambda w: table.get(w[0].strip("`"), w[0]), m[0][1:-1]).join("``"), text)
        if new != text:
            with open(path, "w", encoding="utf-8") as f:
                f.write(new)
    for name in sorted(table):
        print(f"{name}\t{table[name]}")
    return 0


if __name__ == "__main__":
    sys.exit(main(sys.argv[1] if len(sys.argv) > 1 else "."))
