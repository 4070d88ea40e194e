#!/usr/bin/env python3
"""Checks that quotation marks stand around the papers' own words: quotes.py PAPER... A line for each fault and exit status 1, else a count.

Every stretch in double quotes in a comment of crates/*/specs/*.antt and crates/*/proofs/Claims.antt and ExactlyOne.antt is in one of the papers, word for word: white space, the case of its first
letter and marks at its end apart. Two or three dots stand for words that are left out."""
import glob
import os
import re
import sys

ROOT = os.path.join(os.path.dirname(os.path.abspath(__file__)), "..")


def plain(text):
    return " ".join(re.sub(r"\*\*|`", "", text).split())


def comments(path):
    """The comments of a file with their first lines; lines that follow each other are one comment."""
    block = []
    for number, line in enumerate([*open(path), ""], 1):
        m = re.match(r"\s*-- ?(.*)", line)
        if m:
            block.append(m.group(1))
        elif block:
            yield number - len(block), plain(" ".join(block))
            block = []


def stands(words, papers):
    return any(w in paper for paper in papers for w in (words, words[0].swapcase() + words[1:]))


def main():
    papers = [plain(open(path).read()) for path in sys.argv[1:]]
    if not papers:
        sys.exit(__doc__)
    count, faults = 0, []
    for path in sorted(glob.glob(f"{ROOT}/crates/*/specs/*.antt") + glob.glob(f"{ROOT}/crates/*/proofs/Claims.antt") + glob.glob(f"{ROOT}/crates/*/proofs/ExactlyOne.antt")):
        for line, comment in comments(path):
            for quote in re.findall(r'"((?:[^"]|"end")+)"', comment):
                count += 1
                parts = [part.strip(" ,;:.") for part in re.split(r"\.\.+", quote)]
                if not all(stands(part, papers) for part in parts if part):
                    faults.append(f'{os.path.relpath(path, ROOT)}:{line}: "{quote}" is not in the papers')
    print("\n".join(faults) if faults else f"{count} quotations of crates/*/specs and proofs/Claims.antt are in the papers")
    sys.exit(bool(faults))


main()
