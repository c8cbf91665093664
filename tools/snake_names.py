#!/usr/bin/env python3
"""Respells the names that specs/ and proofs/ of this repository declare: snake case for words, upper camel case for facts and types.

usage: python3 tools/snake_names.py [--list]      at the top of the repository, once, right after the kit's port.py

A name is declared by a signature, a record, a data type, a field or a constructor in an .antt file, or by the `as` of an import. A file
that is the proof of a function declares goals, which keep the names that the check asks for. Text in strings and comments
stays. --list only prints what would be renamed and which names would fall together.
"""
import os
import re
import subprocess
import sys

# a name behind `c.` or `goal.` is one that the check makes
WORD = re.compile(r"(?<!\bc\.)(?<!\bgoal\.)(?<![^\s(){}.;,\"@«»\[\]])[^\s(){}.;,\"@«»\[\]]+")
SIGNATURE = re.compile(r"^\s*(?:abbrev |unfoldable |pub |data |record )*([^\s(){}.;,\"@«»]+)(?:\s+[({][^:]*)?\s*:\s")
ALIAS = re.compile(r" as ([^\s(){}.;,\"@«»]+)[,}]")
HEAD = re.compile(r"^\s*(?:pub )?(?:data|record) ([^\s(){}.;,\"@«»]+)")
# names that the kit's script took for facts
OTHERWISE = {"entry_IsPlace": "entry_place", "Placed-of": "placed_of", "PlacedOf": "placed_of"}


def files(root):
    for folder, dirs, names in os.walk(os.path.join(root, "crates")):
        dirs[:] = sorted(d for d in dirs if d != "out")
        for n in sorted(names):
            if n.endswith((".rt", ".antt")):
                yield os.path.join(folder, n)


def of_a_function(path):
    return path.endswith(("/Answers.antt", "/Invariants.antt", "/Proof.antt"))


def bare(text, mark):
    """The lines without comments, for the search of names."""
    return [line.split(mark)[0] for line in text.split("\n")]


def declared(root):
    found = {}
    for path in files(root):
        with open(path, encoding="utf-8") as f:
            for line in f:
                if re.match(r"(pub )?(ghost )?use ", line):
                    found.update((m.group(1), path) for m in ALIAS.finditer(line))
        if not path.endswith(".antt"):
            continue
        with open(path, encoding="utf-8") as f:
            lines = bare(f.read(), "--")
        for line in lines:
            for pattern in (SIGNATURE, HEAD):
                m = pattern.match(line)
                if m and (not of_a_function(path) or re.search(r"^(?!pub |abbrev pub )\S+ :", line) and "goal." not in line):
                    found.setdefault(m.group(1), path)
    return found


def spelled(name):
    if name in OTHERWISE:
        return OTHERWISE[name]
    parts = name.split("-")
    if len(parts) == 1 or not all(re.fullmatch(r"[\w'ℕℤ]+", p) for p in parts):
        return name
    if name[0].isupper():
        return "".join(p[0].upper() + p[1:] for p in parts)
    return "_".join(parts)


def turned(text, table, rust):
    out = []
    mark = "//" if rust else "--"
    for line in text.split("\n"):
        code, sep, note = line.partition(mark)
        parts = re.split(r'("(?:[^"\\]|\\.)*")', code)
        for i in range(0, len(parts), 2):
            parts[i] = WORD.sub(lambda m: table.get(m.group(0), m.group(0)), parts[i])
        out.append("".join(parts) + sep + note)
    return "\n".join(out)


def library_words(text):
    """A word of the library has no other one's name."""
    if "AllByRecursion as All" not in text:
        return text
    uses = re.compile(r"(?:pub )?(?:ghost )?use |--")
    lines = text.replace("AllByRecursion as All", "AllByRecursion").split("\n")
    return "\n".join(line if uses.match(line) else re.sub(r"(?<![\w'.-])All(?![\w'-])", "AllByRecursion", line) for line in lines)


def main():
    root = os.getcwd()
    names = declared(root)
    table = {n: spelled(n) for n in names if spelled(n) != n}
    if "--list" in sys.argv:
        for n in sorted(table):
            clash = " FALLS TOGETHER" if table[n] in names or list(table.values()).count(table[n]) > 1 else ""
            print(f"{n} {table[n]} {os.path.relpath(names[n], root)}{clash}")
        return
    for path in files(root):
        with open(path, encoding="utf-8") as f:
            text = f.read()
        new = library_words(turned(text, table, path.endswith(".rt")))
        if new != text:
            with open(path, "w", encoding="utf-8") as f:
                f.write(new)
    for c in sorted(os.listdir(os.path.join(root, "crates"))):
        subprocess.run(["rt", "fmt"], cwd=os.path.join(root, "crates", c), stdout=subprocess.DEVNULL, check=False)
    print(f"{len(table)} names respelled")


main()
