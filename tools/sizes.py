#!/usr/bin/env python3
"""Prints the lines of each crate by part: specs (definitions and claims), laws, search, proofs, src; and its must-fail edits.

    sizes.py              as a table; lines that are not blank, comments included
    sizes.py FROM [TO]    lines added and removed by part between two revisions (TO: the working tree, where it is not given)

A file that was moved counts by what changed in it."""
import collections
import os
import subprocess
import sys

import tree

PARTS = ("specs", "laws", "search", "proofs", "src", "edits")


def part_of(path):
    """The crate and part of a path below crates/, or None for a program's input and output."""
    crate, _, rest = path.partition("/")
    for start, part in (("proofs/laws", "laws"), ("specs/search", "search"), ("specs", "specs"), ("proofs", "proofs"), ("src", "src"), ("must-fail", "edits")):
        if rest.startswith(start):
            return crate, part
    return None


def table(head, rows):
    """A table in Markdown, with a last row of sums."""
    width = len(head) - 1
    rows = rows + [["total"] + [sum(r[k] for r in rows) for k in range(1, width + 1)]]
    print("| " + " | ".join(head) + " |")
    print("|---" * len(head) + "|")
    for row in rows:
        print("| " + " | ".join([row[0] if row[0] == "total" else f"`{row[0]}`"] + [f"{n:,}" if n else "" for n in row[1:]]) + " |")


def sizes():
    count = collections.Counter()
    for folder, _, names in os.walk(tree.CRATES):
        for name in names:
            path = os.path.relpath(os.path.join(folder, name), tree.CRATES)
            at = part_of(path)
            if at and name.endswith((".antt", ".rt")):
                count[at] += sum(bool(line.strip()) for line in tree.read(os.path.join(folder, name)).split("\n"))
            elif at and name.endswith(".edit"):
                count[at] += 1
    rows = [[crate] + [count[crate, part] for part in PARTS] for crate in tree.Tree().crates]
    table(["crate", *PARTS], rows)


def changes(revisions):
    command = ["git", "-C", tree.ROOT, "diff", "--numstat", "-B", "-M", "-z", *revisions, "--", "crates"]
    fields = iter(subprocess.run(command, capture_output=True, text=True, check=True).stdout.split("\0"))
    added, removed, crates = collections.Counter(), collections.Counter(), []
    for entry in fields:
        if not entry:
            continue
        plus, minus, path = entry.split("\t")
        if not path:  # moved: the old path and the new one follow
            next(fields)
            path = next(fields)
        at = part_of(path.removeprefix("crates/"))
        if at and plus != "-":
            added[at] += int(plus)
            removed[at] += int(minus)
            crates += [at[0]] if at[0] not in crates else []
    head = ["crate"] + [f"{part} {sign}" for part in PARTS for sign in ("+", "−")]
    table(head, [[c] + [n[c, part] for part in PARTS for n in (added, removed)] for c in crates])


if sys.argv[1:]:
    changes(sys.argv[1:])
else:
    sizes()
