#!/usr/bin/env python3
"""Checks that every must-fail edit applies, without proving anything: a line for each that does not and exit status 1, else a count.

An edit, crates/CRATE/must-fail/NAME.edit, is lines `file: path`, `old: text` and `new: text`; a file holds for the pairs after it, and pairs are
made one after the other. The file is one of the crate's src/, specs/ or proofs/, the old text stands in it exactly once, and the new one is another."""
import glob
import os
import sys

import tree


def fault_of(edit):
    """Why an edit does not apply, or None."""
    crate, path, old, texts = os.path.dirname(os.path.dirname(edit)), "", "", {}
    pairs = 0
    for line in tree.read(edit).split("\n"):
        if line.startswith("file: "):
            path = line.removeprefix("file: ")
        elif line.startswith("old: "):
            old = line.removeprefix("old: ")
        elif line.startswith("new:"):
            new = line.removeprefix("new:").removeprefix(" ")
            full = os.path.join(crate, path)
            if path.split("/")[0] not in ("src", "specs", "proofs") or not os.path.isfile(full):
                return f"no file {path} in src/, specs/ or proofs/ of the crate"
            text = texts.get(path) or tree.read(full)
            if not old or text.count(old) != 1:
                return f"{text.count(old) if old else 'no old text for'} places in {path} for: {old or new}"
            if old == new:
                return f"it changes nothing: {old}"
            texts[path], old, pairs = text.replace(old, new), "", pairs + 1
    return None if pairs else "no old: and new:"


def main():
    edits = sorted(glob.glob(os.path.join(tree.CRATES, "*", "must-fail", "*.edit")))
    findings = [f"{os.path.relpath(edit, tree.ROOT)}: {fault}" for edit, fault in ((edit, fault_of(edit)) for edit in edits) if fault]
    print("\n".join(findings) or f"{len(edits)} must-fail edits apply")
    sys.exit(bool(findings))


if __name__ == "__main__":
    main()
