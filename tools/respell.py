#!/usr/bin/env python3
"""Brings the names of this repository's definitions and lemmas to snake case: what port.py left in camel case or with dashes.

usage: python3 tools/respell.py            at the top, once, after port.py

A name is of the repository where a file of specs/ or a file of lemmas in proofs/ declares it; a name that a file takes from a library stays as it is in
that file. Types and modules keep their capital, names of src/ their spelling. A lemma that would fall together with a definition gets _lem.
"""
import collections
import os
import re
import sys

TOKEN = re.compile(r"[^\s(){}\[\],;.«»\"`:]+")
DECLARES = re.compile(r"^(\s*)((?:abbrev |unfoldable |pub |data |record )*)([^\s:(){}λ]+)((?:\s+[({][^:]*:[^)}]*[)}])*)\s*(?::|where)")
OTHER = ("use", "--", "mod", "pub mod", "module", "let", "elim", "in", "open")
USE = re.compile(r"^(?:pub |ghost )?use ([^;{]*?)(?:\.?\{([^}]*)\}|)(?: as [^;\s]+)?;?\s*$")


def snake(name):
    return re.sub(r"(?<=[a-z0-9])([A-Z])", lambda m: "_" + m.group(1).lower(), name).replace("-", "_")


def crates(root):
    return sorted(c for c in os.listdir(os.path.join(root, "crates")) if os.path.isdir(os.path.join(root, "crates", c, "src")))


def files(root):
    """Each .antt and .rt file with its kind: 'law' (specs/ and lemmas), 'proof' (of one function), 'code'."""
    for c in crates(root):
        for folder, dirs, names in os.walk(os.path.join(root, "crates", c)):
            dirs[:] = sorted(d for d in dirs if d != "out")
            for f in sorted(names):
                path = os.path.join(folder, f)
                depth = os.path.relpath(folder, os.path.join(root, "crates", c)).split(os.sep)
                if f.endswith(".rt"):
                    yield path, "code"
                elif f.endswith(".antt"):
                    yield path, "law" if len(depth) == 1 else "proof"


def read(path):
    with open(path, encoding="utf-8") as f:
        return f.read()


def odd(name):
    return bool(name[0].islower() and re.search(r"[A-Z-]", name))


def declared(text):
    names = set()
    for line in text.splitlines():
        bare = line.strip()
        if bare.startswith(OTHER) and not bare.startswith("in-") or not bare:
            continue
        m = DECLARES.match(line)
        if m and "=" not in line.split(":")[0]:
            names.add(m.group(3))
    return names


def taken(text, own):
    """The names that a file takes from libraries."""
    out = set()
    for line in text.splitlines():
        m = USE.match(line)
        if not m or not m.group(2):
            continue
        path = m.group(1).rstrip(".").split(".")
        if path[0] == "Rattle" and len(path) > 1 and path[1] in own:
            continue
        out |= {w.strip().split(" as ")[0] for w in m.group(2).split(",")}
    return out


def turned(text, names, kept):
    def one(m):
        w = m.group(0)
        if w in kept or m.start() and text[m.start() - 1] == "." and not odd(w):
            return w
        return names.get(w, w)

    return TOKEN.sub(one, text)


def in_proof(text, names, kept, fields):
    """In a function's own proof a name after a dot is of Rattle's making, unless it is a field of ours; one that it declares itself stays."""
    own = {m.group(1) for m in re.finditer(r"(?m)^(?:abbrev |pub )*([^\s:(){}]+) :", text)}

    def one(m):
        w = m.group(0)
        if w in kept or w in own:
            return w
        if m.start() and text[m.start() - 1] == ".":
            return fields.get(w, w)
        return names.get(w, w)

    return TOKEN.sub(one, text)


def in_code(text, names):
    """In code only what the clauses can name: imports and clauses, where a name has no operator between."""
    return re.sub(r"(?<![\w'-])[a-z][A-Za-z0-9_']*(?:-[A-Za-z0-9_']+)*(?![\w'])", lambda m: names.get(m.group(0), m.group(0)), text)


def main():
    root = os.getcwd()
    own = set(crates(root))
    every = list(files(root))
    names, defs = set(), set()
    for path, kind in every:
        if kind == "law":
            for n in declared(read(path)):
                names.add(n)
                if "/specs/" in path:
                    defs.add(n)
    turn = {}
    settled = {n for n in names if not odd(n)}
    wanted = collections.defaultdict(set)
    for n in sorted(names):
        if odd(n):
            wanted[snake(n)].add(n)
    for s, olds in sorted(wanted.items()):
        meet = olds | ({s} & settled)
        first = sorted(meet, key=lambda n: (n not in defs, n != s, n))[0] if len(meet) > 1 else None
        for n in sorted(meet):
            turn[n] = s if first is None or n == first else s + "_lem"
            if first is not None and turn[n] != n:
                print(f"together: {sorted(meet)}: {n} is now {turn[n]}")
    turn = {n: t for n, t in turn.items() if n != t}
    spoken = {n: t for n, t in turn.items() if odd(n)}
    fields = {}
    for path, kind in every:
        if kind != "law":
            continue
        for m in re.finditer(r"(?m)^\s+pub ([^\s:(){}]+) : ", read(path)):
            if m.group(1) in turn:
                fields[m.group(1)] = turn[m.group(1)]
    changed = 0
    for path, kind in every:
        text = read(path)
        if kind == "code":
            new = in_code(text, spoken)
        else:
            kept = {n for n in taken(text, own)}
            new = turned(text, turn, kept) if kind == "law" else in_proof(text, turn, kept, fields)
        if new != text:
            changed += 1
            with open(path, "w", encoding="utf-8") as f:
                f.write(new)
    print(f"respell: {len(turn)} names, {changed} files")
    with open(os.path.join(root, "tools", "respelled.txt"), "w", encoding="utf-8") as f:
        f.writelines(f"{n} {turn[n]}\n" for n in sorted(turn))


if __name__ == "__main__":
    sys.exit(main())
