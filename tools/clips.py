#!/usr/bin/env python3
"""Checks the sheet for the studio: clips.py [--write]. A line for each fault and exit status 1, else a count.

- docs/clips.tsv: eight columns, clips ascending; kana where there is Japanese and pinyin where there is Mandarin, each column in its own letters;
- include/herbassolh.h: a clip's name, or a name and a number, is that clip (HB_CLIP_TENS + 2 is 11); every HB_CLIP_ name stands on the sheet;
  the English yaku are the names of HB_YAKU_, and there is a sentence for each HB_REFUSAL_;
- the crates: a language has words for the clips that `is_phrase` (crates/speech_told/specs/Sheet.antt) and `on_sheet`
  (crates/speech_numerals/specs/Heard.antt) give it, and for no others; every clip of a message is one of them, which is proved, and
  that every clip of the sheet is in a message is tested (other_scorer/tests/say_sheet.rs);
- HB_MESSAGE_MAX: the longest that the theorems NAME_short let a message be;
- docs/CLIPS.md: its tables are those of docs/clips.tsv; --write writes them anew."""
import os
import re
import sys

import tree

SHEET = "docs/clips.tsv"
PAGE = "docs/CLIPS.md"
HEADER = "include/herbassolh.h"
PHRASES = "crates/speech_told/specs/Sheet.antt"
NUMERALS = "crates/speech_numerals/specs/Heard.antt"
SHORT = ("crates/speech_told/proofs/Claims.antt", "crates/speech_table/proofs/Claims.antt")
DECLARED = "interface/archive/src/lib.rs"
HEADS = ["clip", "name", "ja", "kana", "en", "ko", "zh", "pinyin"]
LANGUAGES = [("ja", "Japanese"), ("en", "English"), ("ko", "Korean"), ("zh", "Mandarin")]  # 1 to 4
LETTERS = {
    "ja": r"[\u3005\u3040-\u30ff\u4e00-\u9fff、]+", "kana": r"[\u3040-\u30ff、 ]+", "en": r"[A-Za-z', ]+", "ko": r"[가-힣, ]+",
    "zh": r"[\u4e00-\u9fff、，]+", "pinyin": r"[a-zāáǎàēéěèīíǐìōóǒòūúǔùüǘǚǜ, ]+",
}
SECTIONS = [
    ("Numbers", 0, 53), ("Players, points and what is said of a hand", 60, 83), ("Items of fu", 84, 94), ("Tiles", 100, 133), ("Yaku", 141, 176),
    ("Accepted, and the refusals", 200, 222),
]
START = "<!-- the tables below are written by tools/clips.py --write -->\n"


def read(path):
    return tree.read(os.path.join(tree.ROOT, path))


def sheet():
    """The rows of the table that tools read, without their heads."""
    heads, *lines = read(SHEET).rstrip("\n").split("\n")
    rows = [line.split("\t") for line in lines]
    if heads.split("\t") != HEADS or any(len(row) != len(HEADS) for row in rows):
        sys.exit(f"{SHEET}: the columns are {', '.join(HEADS)}")
    return [dict(zip(HEADS, row)) for row in rows]


def check_sheet(rows):
    numbers = [int(row["clip"]) for row in rows]
    if numbers != sorted(set(numbers)):
        yield f"{SHEET}: the clips do not ascend"
    for row in rows:
        for column, letters in LETTERS.items():
            words = row[column]
            if words and (not re.fullmatch(letters, words) or words != words.strip()):
                yield f"{SHEET}: {row['clip']}: {column} is {words!r}"
        for words, reading in (("ja", "kana"), ("zh", "pinyin")):
            if bool(row[words]) != bool(row[reading]):
                yield f"{SHEET}: {row['clip']}: {words} {row[words]!r} is read {row[reading]!r}"


def check_header(rows):
    text = read(HEADER)
    names = {name: int(number) for name, number in re.findall(r"^\s*(HB_CLIP_\w+) = (\d+)", text, flags=re.M)}
    used = set()
    for row in rows:
        name, _, more = row["name"].partition(" + ")
        used.add(name)
        if name not in names or str(names[name] + int(more or 0)) != row["clip"]:
            yield f"{SHEET}: {row['name']} is {names[name] + int(more or 0) if name in names else 'no name'} in {HEADER}; here {row['clip']}"
    yield from (f"{SHEET}: no clip is named by {name}" for name in names if name not in used)
    by_name = {row["name"]: row for row in rows}
    for name, number in re.findall(r"HB_YAKU_(\w+) = (\d+)", text):
        here = by_name.pop(f"HB_CLIP_YAKU + {number}", {"en": None})["en"]
        if here != name.lower().replace("_", " "):
            yield f"{SHEET}: yaku {number} is {here!r}; in {HEADER} it is HB_YAKU_{name}"
    for _, number in [("ACCEPTED", "0"), *re.findall(r"HB_REFUSAL_(\w+) = (\d+)", text)]:
        if by_name.pop(f"HB_CLIP_REFUSAL + {number}", None) is None:
            yield f"{SHEET}: no sentence for refusal {number}"
    yield from (f"{SHEET}: {HEADER} has no {name}" for name in by_name if name.startswith(("HB_CLIP_YAKU +", "HB_CLIP_REFUSAL +")))


def defined(path, name):
    """A definition that is made of ltb, eqb, not, && and || of a language l and a clip c, as a function of these."""
    full = os.path.join(tree.ROOT, path)
    if not os.path.exists(full):
        sys.exit(f"{path}: no such file")
    found = re.search(rf"^{name}((?: \w+)+) =((?:\s+.*)*?)(?=\n\S|\n\n|\Z)", tree.read(full), flags=re.M)
    if not found:
        sys.exit(f"{path}: no definition of {name}")
    text = re.sub(r"\b(?:ltb|eqb) (\w+) (\w+)", lambda m: f"({m[1]} {'<' if m[0].startswith('ltb') else '=='} {m[2]})", found[2])
    text = " ".join(text.replace("&&", " and ").replace("||", " or ").split())
    if re.sub(r"\b(?:and|or|not|l|c|\d+)\b|[()<= ]", "", text):
        sys.exit(f"{path}: {name} is not understood: {text}")
    return lambda l, c: bool(eval(text, {"l": l, "c": c}))


def check_crates(rows):
    phrase, numeral = defined(PHRASES, "is_phrase"), defined(NUMERALS, "on_sheet")
    by_clip = {int(row["clip"]): row for row in rows}
    for language, (column, name) in enumerate(LANGUAGES, 1):
        here = {clip for clip, row in by_clip.items() if row[column]}
        there = {clip for clip in range(256) if phrase(language, clip) or numeral(language, clip)}
        for clips, where in ((here - there, "on the sheet alone"), (there - here, f"in {PHRASES} and {NUMERALS} alone")):
            if clips:
                yield f"{SHEET}: {name}: {ranges(clips)} {where}"


def ranges(clips):
    """Clips in words: 40, 42 to 53."""
    parts = []
    for clip in sorted(clips):
        if parts and parts[-1][1] == clip - 1:
            parts[-1][1] = clip
        else:
            parts.append([clip, clip])
    return ", ".join(f"{a} to {b}" if b > a + 1 else f"{a}, {b}" if b > a else str(a) for a, b in parts)


def tables(rows):
    """The tables of the page."""
    text = ["## What a language does not have\n", "| language | clips to record | clips that it does not have |", "|---|---|---|"]
    for column, name in LANGUAGES:
        here = [int(row["clip"]) for row in rows if row[column]]
        text.append(f"| {name} | {len(here)} | {ranges({int(row['clip']) for row in rows} - set(here))} |")
    for title, first, last in SECTIONS:
        text += [f"\n## {title}\n", "| clip | name | Japanese | kana | English | Korean | Mandarin | pinyin |", "|---" * 8 + "|"]
        for row in rows:
            if first <= int(row["clip"]) <= last:
                text.append("| " + " | ".join([row["clip"], f"`{row['name']}`"] + [row[column] or "—" for column in HEADS[2:]]) + " |")
    return "\n".join(text) + "\n"


def check_longest():
    """HB_MESSAGE_MAX, in the header and in its declaration in Rust, is the longest that a theorem NAME_short lets a message be."""
    short = [int(n) for path in SHORT for n in re.findall(r"^ *pub \w+_short :.*≤ (\d+)$", read(path), flags=re.M)]
    if len(short) != 6:
        yield f"{' and '.join(SHORT)}: {len(short)} theorems NAME_short of six messages"
    for path, pattern in ((HEADER, r"HB_MESSAGE_MAX = (\d+)"), (DECLARED, r"MESSAGE_MAX: usize = (\d+)")):
        if int(re.search(pattern, read(path)).group(1)) != max(short, default=0):
            yield f"{path}: the longest message has {max(short, default=0)} clips at most"


def main():
    rows = sheet()
    head, mark, below = read(PAGE).partition(START)
    if not mark:
        sys.exit(f"{PAGE}: no line {START.strip()}")
    if "--write" in sys.argv[1:]:
        with open(os.path.join(tree.ROOT, PAGE), "w", encoding="utf-8") as file:
            file.write(head + START + "\n" + tables(rows))
        below = "\n" + tables(rows)
    faults = [*check_sheet(rows), *check_header(rows), *check_crates(rows), *check_longest()]
    if below != "\n" + tables(rows):
        faults.append(f"{PAGE}: its tables are not those of {SHEET}; clips.py --write writes them")
    print("\n".join(faults) or f"{len(rows)} clips of the sheet agree with header, crates and page")
    sys.exit(bool(faults))


main()
