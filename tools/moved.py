#!/usr/bin/env python3
"""Says which definitions, theorems, contracts, structs and proofs are new, gone, moved or changed since a revision: moved.py FROM [TO].

An item is known by its kind and name (a contract by its function's crate too, a struct by its name). Moved: the same text in another file.
Changed: another text (of a theorem the statement, of a function signature and contract), whether moved or not. What stayed is counted, and
named with --stayed. Only specs/ (laws and search apart) and public functions and structs of src/ are looked at; proofs are the files of
proofs/, a moved one by git's measure. TO is the working tree where it is not given."""
import re
import subprocess
import sys
import tempfile

import tree


def at(revision):
    """The tree of a revision."""
    if revision is None:
        return tree.Tree()
    with tempfile.TemporaryDirectory() as d:
        made = subprocess.run(["git", "-C", tree.ROOT, "archive", revision, "crates.txt", "crates"], capture_output=True, check=True)
        subprocess.run(["tar", "-x", "-C", d], input=made.stdout, check=True)
        return tree.Tree(d)


def items(t):
    """The items of a tree by their key; two of one name in one key stand in a list."""
    found = {}
    for i in t.items("specs", "src"):
        if i.file.part == "src" and not i.public:
            continue
        kind = {"type": "definition", "theorem": "theorem", "definition": "definition", "function": "contract", "struct": "struct"}[i.kind]
        name = f"{i.file.crate}::{i.name}" if kind == "contract" else i.name
        found.setdefault((kind, name), []).append(i)
    return found


def text(i):
    return " ".join(" ".join(i.code + [i.module]).replace("·specs.specs", ".specs").split())


def proofs(revisions, said):
    """Adds what git says of the files with proofs."""
    where = ["--", ":(glob)crates/*/proofs/**/*.antt", ":(glob)crates/*/specs/laws/**/*.antt"]
    git = ["git", "-C", tree.ROOT]
    listed = subprocess.run(git + ["diff", "--name-status", "-B", "-M", *revisions] + where, capture_output=True, text=True, check=True).stdout
    touched = 0
    for line in listed.splitlines():
        sign, *paths = [p.removeprefix("crates/") for p in line.split("\t")]
        touched += sign != "D"
        what = {"A": "new", "C": "new", "D": "gone", "R": "moved", "M": "changed"}[sign[0]]
        said.setdefault(("proof", what), []).append(" to ".join(paths))
    listing = ["ls-tree", "-r", "--name-only", revisions[1]] if revisions[1:] else ["ls-files"]
    now = subprocess.run(git + listing, capture_output=True, text=True, check=True).stdout.splitlines()
    count = sum(re.fullmatch(r"crates/[^/]+/(proofs|specs/laws)/.*\.antt", path) is not None for path in now)
    said[("proof", "stayed")] = ["(the others)"] * (count - touched)


def main():
    stayed = "--stayed" in sys.argv
    revisions = [a for a in sys.argv[1:] if not a.startswith("--")]
    before, after = items(at(revisions[0])), items(at(revisions[1] if revisions[1:] else None))
    said = {}
    for key in list(before) + [k for k in after if k not in before]:
        old, new = list(before.get(key, [])), list(after.get(key, []))
        for n in list(new):
            same = [o for o in old if text(o) == text(n)]
            near = [o for o in same if o.file.path == n.file.path] or same
            if near:
                old.remove(near[0])
                new.remove(n)
                if near[0].file.path == n.file.path:
                    said.setdefault((key[0], "stayed"), []).append(key[1])
                else:
                    said.setdefault((key[0], "moved"), []).append(f"{key[1]} ({near[0].file.path} to {n.file.path})")
        for o, n in zip(old, new):
            path = o.file.path if o.file.path == n.file.path else f"{o.file.path} to {n.file.path}"
            said.setdefault((key[0], "changed"), []).append(f"{key[1]} ({path})")
        for o in old[len(new):]:
            said.setdefault((key[0], "gone"), []).append(f"{key[1]} ({o.file.path})")
        for n in new[len(old):]:
            said.setdefault((key[0], "new"), []).append(f"{key[1]} ({n.file.path})")
    proofs(revisions, said)
    for kind in ("definition", "theorem", "contract", "struct", "proof"):
        for what in ("new", "gone", "moved", "changed", "stayed"):
            names = said.get((kind, what), [])
            if names:
                print(f"{kind}s {what}: {len(names)}")
                if what != "stayed" or stayed and kind != "proof":
                    print("".join(f"  {name}\n" for name in sorted(names)), end="")


main()
