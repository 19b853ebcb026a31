#!/usr/bin/env python3
"""Lists what a change of spelling renamed in specs/ and in files of lemmas, by the places of the declarations, as docs/PORT-NAMES.md has it.

usage: python3 tools/port_names.py OLD NEW > docs/PORT-NAMES.md

OLD and NEW are folders with crates/: the repository before and after. It stops where a file has not as many declarations as before.
"""
import os
import re
import sys

WORDS = r"(?:(?:abbrev|unfoldable|opaque|pub|data|record)\s+)*"
DECLARES = re.compile(r"^\s*" + WORDS + r"([^\s:(){}=]+(?:\s+[^\s:(){}=]+)*?)(?:\s*[({][^:]*:[^)}]*[)}])*\s*:\s")
OTHER = ("use ", "pub use", "unfoldable use", "--", "mod ", "pub mod", "let ", "in ", "elim ", "open ")
HEAD = """# What was renamed

Each definition, constructor, field and lemma whose name was turned to today's spelling, as it was and as it is, file by file: specs/ and the files of lemmas in proofs/.
Made by `tools/port_names.py`; `port.py` and `tools/respell.py` did the renaming. A file that is not named here kept all of its names, and no name moved to another
file or crate by it. What would have fallen together with another name ends in `_lem`.
"""


def declared(path):
    names = []
    with open(path, encoding="utf-8") as f:
        for line in f:
            bare = line.strip()
            if not bare or bare.startswith(OTHER):
                continue
            m = DECLARES.match(line.rstrip("\n") + " ")
            before = line.split(":")[0]
            if m and not any(it in before for it in "=→λ"):
                names += m.group(1).split()
    return names


def files(root, crate):
    for part in ("specs", "proofs"):
        folder = os.path.join(root, "crates", crate, part)
        for name in sorted(os.listdir(folder)) if os.path.isdir(folder) else ():
            if name.endswith(".antt"):
                yield f"{part}/{name}"


def main(old, new):
    print(HEAD)
    total = 0
    for crate in sorted(os.listdir(os.path.join(old, "crates"))):
        rows = []
        for file in files(old, crate):
            before, after = (declared(os.path.join(root, "crates", crate, file)) for root in (old, new))
            if len(before) != len(after):
                sys.exit(f"{crate}/{file}: {len(before)} declarations before, {len(after)} after")
            rows += [(file[: -len(".antt")], a, b) for a, b in zip(before, after) if a != b]
        if rows:
            print(f"## {crate}\n\n| file | was | is |\n|---|---|---|")
            for file, a, b in rows:
                print(f"| {file} | `{a}` | `{b}` |")
            print()
        total += len(rows)
    print(f"{total} names in all.")


if __name__ == "__main__":
    if len(sys.argv) != 3:
        sys.exit(__doc__)
    main(*sys.argv[1:])
