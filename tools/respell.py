#!/usr/bin/env python3
"""respell.py [FOLDER]: the repository's own definitions and lemmas in snake case, by tools/names.tsv.

The crate hex is hexadecimal, as the kit has a library of its name.
Run once, after the kit's port.py, at the top of a checkout: a second run would spell anew what the
first one wrote. It turns whole words of specs/, proofs/, clauses and edits, and in pages and
comments those in code quotes and those with a capital inside. Strings stay, as do labels that
Rattle makes: a word that a function's own proof file answers under that name stays in that file.
"""
import os
import re
import sys

ROOT = sys.argv[1] if len(sys.argv) > 1 else "."
HERE = os.path.dirname(os.path.abspath(__file__))
TABLE = dict(row.rstrip("\n").split("\t") for row in open(f"{HERE}/names.tsv", encoding="utf8"))
WORD = r"[^\s(){}.;,@\"«»\[\]`]+"
ANTT = re.compile(rf'(?P<string>"(?:[^"\\\n]|\\.)*")|(?P<comment>(?<![^\s(){{}}.;,@"«»])--[^\n]*)|(?P<word>{WORD})')
RUST = re.compile(rf'(?P<string>b?"(?:[^"\\]|\\[\s\S])*"|\'(?:[^\'\\\n]|\\[^\n]+?)\')|(?P<comment>//[^\n]*)|(?P<word>{WORD})')
SPAN = re.compile(r"`[^`\n]*`")
CAPITAL = re.compile(r"(?<![\w'.-])[a-z][a-z0-9']*[A-Z][\w']*(?![\w-])")


def words(text, kept=()):
    return re.sub(WORD, lambda m: m[0] if m[0] in kept else TABLE.get(m[0], m[0]), text)


def prose(text):
    text = SPAN.sub(lambda m: words(m[0]), text)
    return CAPITAL.sub(lambda m: TABLE.get(m[0], m[0]), text)


def code(pattern, text, kept=()):
    def turn(m):
        if m["string"]:
            return m[0]
        if m["comment"]:
            return prose(m[0])
        return m[0] if m[0] in kept else TABLE.get(m[0], m[0])

    return pattern.sub(turn, text)


def lent(text):
    """The names that a file takes from a library: its own lemma of that name is another."""
    libraries = r"(?m)^use (?:mathlib|lib|native|Prim|borrow|Rattle\.std)[\w.ᴰ]*\.\{(.*)\}"
    names = {name.strip() for names in re.findall(libraries, text) for name in names.split(",")}
    return names - {"Option·elim"}  # which port.py leaves to a hand


def answered(text):
    return set(re.findall(rf"(?m)^(?:abbrev |pub )*({WORD}) :", text))


def crate(text):
    """The crate hex under its new name, in paths, imports and the list of crates."""
    text = re.sub(r"\bRattle\.hex\b", "Rattle.hexadecimal", text)
    text = re.sub(r"\bcrates/hex\b", "crates/hexadecimal", text)
    return re.sub(r"(?<![\w/.])hex::", "hexadecimal::", text)


def turned(path, text):
    text = crate(text)
    if path.endswith(".antt"):
        of_function = os.path.basename(os.path.dirname(path)) not in ("specs", "proofs")
        return code(ANTT, text, lent(text) | (answered(text) if of_function else set()))
    if path.endswith(".rt"):
        return code(RUST, text)
    if path.endswith(".edit"):
        return "".join(code(ANTT, line) for line in text.splitlines(True))
    return prose(text)


for folder, inner, files in os.walk(ROOT):
    inner[:] = sorted(d for d in inner if d not in (".git", "out", "target", "tools"))
    for name in sorted(files):
        path = os.path.join(folder, name)
        if name.endswith((".antt", ".rt", ".edit", ".md")):
            with open(path, encoding="utf8") as f:
                old = f.read()
            new = turned(path, old)
            if new != old:
                with open(path, "w", encoding="utf8") as f:
                    f.write(new)

if os.path.isdir(f"{ROOT}/crates/hex"):
    os.rename(f"{ROOT}/crates/hex", f"{ROOT}/crates/hexadecimal")
    with open(f"{ROOT}/crates.txt", encoding="utf8") as f:
        listed = f.read()
    with open(f"{ROOT}/crates.txt", "w", encoding="utf8") as f:
        f.write(re.sub(r"\bhex\b", "hexadecimal", listed))
