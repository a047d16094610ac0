#!/usr/bin/env python3
"""Brings the names of definitions and lemmas to snake case, in one pass over the files that port.py has turned.

usage: python3 tools/respell.py          at the top of the repository, once, on the commit that port.py left

A name is respelled where a file of specs/ or proofs/ defines it: as a word of its own, a field, a constructor or a lemma. `cutAll` becomes
`cut_all`, `no-child` becomes `no_child`. Types, modules and facts keep their capitals; functions of src/, answers that a proof file owes by name
(`tie.` in its type) and names of the library stay. A lemma whose name falls together with a word of a file that uses it gets `_lem`.
The same words are respelled in must-fail edits, in comments and between the backquotes of the pages.
"""

import glob
import re
import subprocess
import sys

WORD = r"[^\s(){}\[\];,.«»`|]+"
DEFINED = re.compile(r"^(\s*)(?:(?:abbrev|unfoldable|pub|private)\s+)*(?:(data|record)\s+)?(" + WORD + r")\s*(?:\([^)]*\)\s*|\{[^}]*\}\s*)*:(\s.*|)$")


def read(path):
    with open(path, encoding="utf-8") as f:
        return f.read()


def files(*patterns):
    return sorted(p for s in patterns for p in glob.glob(s, recursive=True) if "/out/" not in p)


def snake(name):
    s = re.sub(r"([a-z0-9])([A-Z])", r"\1_\2", name)
    s = re.sub(r"([A-Z])([A-Z][a-z])", r"\1_\2", s)
    return s.lower().replace("-", "_")


def lower(name):
    return name[0].islower() or not name[0].isalpha()


def defined():
    """name -> the paths that define it."""
    found = {}
    for p in files("crates/*/specs/**/*.antt", "crates/*/proofs/**/*.antt"):
        for line in read(p).split("\n"):
            code = line.split("--")[0].rstrip()
            m = DEFINED.match(code)
            if not m or code.lstrip().startswith(("use ", "let ", "mod ", "pub mod ", "module ")):
                continue
            name, rest = m.group(3), m.group(4)
            if "tie." in rest.split("→")[0].split("(")[0] or name.endswith("-spec") or name.startswith("+"):
                continue
            found.setdefault(name, set()).add(p)
    return found


def table():
    code = files("crates/*/specs/**/*.antt", "crates/*/proofs/**/*.antt")
    bare = {}
    for p in code:
        text = re.sub(r"--.*", "", read(p))
        bare[p] = (set(re.findall(WORD, text)), {m.group(1) for m in re.finditer("(?<![.\\w'-])(" + WORD + ")", text)})
    for p in files("crates/*/src/**/*.rt"):
        text = re.sub(r"//.*", "", read(p))
        bare[p] = (set(re.findall(WORD, text)), set(re.findall(r"([a-z_0-9]+):\s", text)))
    owed = set()
    for p in files("crates/*/proofs/**/Proof.antt"):
        owed |= {(p, m) for m in re.findall(r"^(\S+) : (?:\([^)]*\) → )*tie\.", read(p), re.M)}
    words = defined()
    stated = {n for n, where in words.items() if any("/specs/" in p for p in where)}
    new, taken = {}, {}

    def clashes(name, to):
        """A file that has both, and could take one for the other. Walks by hand under proofs/+F are written anew."""
        there = (free for p, (used, free) in bare.items() if name in used and "/+" not in p and (p.endswith(".antt") or name not in stated))
        return any(to in free for free in there)

    # words of specs/ first: they keep the plain spelling
    for name in sorted(words, key=lambda n: (n not in stated, "-" in n, n)):
        if not lower(name) or not (re.search(r"[a-z0-9][A-Z]", name) or "-" in name) or not re.match(r"[A-Za-z]", name):
            continue
        if all((p, name) in owed for p in words[name]):
            continue
        to = snake(name)
        while to in taken or (to in words and name not in stated) or clashes(name, to):
            to += "_lem" if not to.endswith("_lem") else "_2"
        taken[to] = name
        new[name] = to
    return new, owed


# a fact named like the word that it is about, before that word gets the name
FIRST = [("crates/form/proofs/Leaves.antt", "is_leaf", "leaf_holds")]


def main():
    for p, name, to in FIRST:
        with open(p, encoding="utf-8") as f:
            t = f.read()
        with open(p, "w", encoding="utf-8") as f:
            f.write(re.sub(r"(?<![.\w'-])" + name + r"(?![\w'-])", to, t))
    new, owed = table()
    one = re.compile("(?<![^\\s(){}\\[\\];,.«»`|])(" + "|".join(re.escape(n) for n in sorted(new, key=len, reverse=True)) + ")(?![^\\s(){}\\[\\];,.«»`|])")

    def turn(path, text, keep):
        def put(m):
            before = text[max(0, m.start() - 4):m.start()]
            if before == "tie." or m.group(1) in keep:
                return m.group(1)
            return new[m.group(1)]
        return one.sub(put, text)

    for p in files("crates/*/specs/**/*.antt", "crates/*/proofs/**/*.antt", "crates/*/src/**/*.rt", "crates/*/must-fail/*.edit", "tests/wrong/*.edit"):
        t = read(p)
        keep = {n for q, n in owed if q == p}
        u = turn(p, t, keep)
        if u != t:
            with open(p, "w", encoding="utf-8") as f:
                f.write(u)
    for p in files("README.md", "docs/*.md"):
        t = read(p)
        u = re.sub(r"`[^`\n]+`", lambda m: turn(p, m.group(0), set()), t)
        if u != t:
            with open(p, "w", encoding="utf-8") as f:
                f.write(u)
    for n in sorted(new):
        print(n, new[n])


main()
