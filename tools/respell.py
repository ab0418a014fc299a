#!/usr/bin/env python3
"""Brings this repository's own definitions and lemmas to snake case.

usage: python3 tools/respell.py            in the repository, once, right after /opt/rattle/port/port.py: rewrites crates/
       python3 tools/respell.py names      prints each old name and the new one
       python3 tools/respell.py text FILE..  respells the names in other files (pages: between backticks; .edit files: whole)

A name is declared in specs/ or in a lemma file of proofs/: a definition, a lemma, a field, a constructor. Types, modules,
functions of src/, strings and the library's names stay. The names are kept in docs/PORT-NAMES.txt, so that `text` works later.
"""

import collections
import glob
import os
import re
import sys

TOKEN = re.compile(r"[^\W\d][\w'\-]*")
KEPT = "docs/PORT-NAMES.txt"
# Names of the library that a lemma file here declares again for itself.
LIBRARY = {"and-false", "not-true", "add-one"}
# Lemmas whose names port.py had put into snake case already, and which would fall together with a definition: by crate.
SNAKE = {
    "history": {"index_ok": "index_ok_law", "node_at": "node_at_law", "left_behind": "left_behind_law"},
    "journal": {"read_number": "read_number_law"},
    "table": {"store_at": "store_at_law"},
    "tree": {"place_ok": "place_ok_law"},
}
# Where such a lemma is cited by another crate: the path of its file.
SNAKE_FILES = {
    "Rattle.table.proofs.ByKind": {"store_at": "store_at_law"},
}


def snake(name):
    if not re.match(r"[a-z]", name) or not re.search(r"[A-Z\-]", name):
        return name
    name = re.sub(r"([a-z0-9])([A-Z])", r"\1_\2", name).replace("-", "_").lower()
    return re.sub(r"__+", "_", name)


def files(*patterns):
    return sorted({f for p in patterns for f in glob.glob(p, recursive=True) if "/out/" not in f})


def read(path):
    with open(path, encoding="utf-8") as f:
        return f.read()


def pieces(path, text):
    """The text in pieces (kind, piece): 'code', 'comment', 'string' or 'clause' (what a .rt file says in the logic's words)."""
    if path.endswith(".antt"):
        at = 0
        for m in re.finditer(r"(?m)--(?=[ \n-]|$).*", text):
            yield "code", text[at : m.start()]
            yield "comment", m.group(0)
            at = m.end()
        yield "code", text[at:]
        return
    at = 0
    for m in re.finditer(r"(//.*)|(b?\"(?:\\.|[^\"\\])*\")|(b'(?:\\.|[^'\\])')", text):
        yield "code", text[at : m.start()]
        yield ("comment" if m.group(1) else "string"), m.group(0)
        at = m.end()
    yield "code", text[at:]


def declared():
    found = collections.defaultdict(set)
    for f in files("crates/*/specs/**/*.antt", "crates/*/proofs/*.antt"):
        code = "".join(t for k, t in pieces(f, read(f)) if k == "code")
        for line in code.split("\n"):
            m = re.match(r"\s*(?:(?:unfoldable|abbrev|pub|private|opaque)\s+)*([a-z][\w'\-]*(?: [a-z][\w'\-]*)*)\s*:", line)
            if m:
                for name in m.group(1).split():
                    found[name].add(f)
            for name in re.findall(r"\bas ([a-z][\w'\-]*)", line):
                found[name].add(f)
            m = re.match(r"module _ (.*) where", line)
            if m:
                for group in re.findall(r"[({]([a-z][\w'\- ]*) :", m.group(1)):
                    for name in group.split():
                        found[name].add(f)
    return found


def names():
    found = declared()
    old = {n for n in found if snake(n) != n and n not in LIBRARY}
    # A definition has the plain name; a lemma about it that would fall together with it is its law.
    taken = {snake(n) for n in old if "-" not in n}
    taken |= {n for n in found if snake(n) == n}
    return {n: snake(n) + ("_law" if "-" in n and snake(n) in taken else "") for n in old}


def kept():
    new = {}
    for line in read(KEPT).splitlines():
        if line.startswith("#") or not line.strip():
            continue
        a, b = line.split()
        new[a] = b
    return new


def functions():
    return {n for f in files("crates/*/src/**/*.rt") for n in re.findall(r"\bfn (\w+)", read(f))}


def turn_code(text, new, calls=frozenset()):
    def one(m):
        name = m.group(0)
        if name not in new:
            return name
        # In a proof by hand `c.before.all-below.ensures` is a call's, not the lemma of that name.
        if m.start() and text[m.start() - 1] == "." and name.replace("-", "_") in calls:
            return name
        return new[name]

    return TOKEN.sub(one, text)


def turn_words(text, new):
    """A comment or a page: only what stands between backticks, and names in camel case."""
    text = re.sub(r"`[^`\n]*`", lambda m: turn_code(m.group(0), new), text)
    return TOKEN.sub(lambda m: new.get(m.group(0), m.group(0)) if re.search(r"[a-z][A-Z]", m.group(0)) else m.group(0), text)


def turn_file(path, new, calls):
    text = read(path)
    crate = path.split("/")[1]
    new = dict(new)
    new.update(SNAKE.get(crate, {}) if path.endswith(".antt") else {})
    by_hand = path.endswith("Proof.antt")
    out = []
    for kind, t in pieces(path, text):
        if kind == "code":
            t = turn_code(t, new, calls if by_hand else frozenset())
        elif kind == "comment":
            t = turn_words(t, new)
        out.append(t)
    text = "".join(out)
    for module, those in SNAKE_FILES.items():
        m = re.search(r"use " + re.escape(module) + r"\.\{([^}]*)\}", text)
        if m and any(re.search(r"\b" + a + r"\b", m.group(1)) for a in those):
            text = TOKEN.sub(lambda t: those.get(t.group(0), t.group(0)), text)
    return text


def write(path, text):
    if text != read(path):
        with open(path, "w", encoding="utf-8") as f:
            f.write(text)


def main(argv):
    if argv[:1] == ["text"]:
        new = kept()
        for path in argv[1:]:
            write(path, turn_code(read(path), new) if path.endswith(".edit") else turn_words(read(path), new))
        return
    new = names()
    if argv[:1] == ["names"]:
        for n in sorted(new):
            print(n, new[n])
        return
    calls = frozenset(functions())
    for path in files("crates/*/specs/**/*.antt", "crates/*/proofs/**/*.antt", "crates/*/src/**/*.rt"):
        write(path, turn_file(path, new, calls))
    os.makedirs("docs", exist_ok=True)
    with open(KEPT, "w", encoding="utf-8") as f:
        f.write("# Each definition, lemma, field and constructor that tools/respell.py respelled: the old name and the new one.\n")
        for n in sorted(new):
            f.write(f"{n} {new[n]}\n")


main(sys.argv[1:])
