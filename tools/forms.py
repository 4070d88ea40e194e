#!/usr/bin/env python3
"""Counts the places of docs/DESIGN-PASS.md in crates/*/src, point by point: forms.py [--list] [COMMIT]

COMMIT: the tree of that commit instead of the files that stand here. --list: each place with its file and line, and the comment "stays .." above it.
A place is a function, a field, a constant or a loop; a pattern below says which. Lines of comment are no places."""
import re
import subprocess
import sys

HEAD = re.compile(r"^\s*(?:pub )?(?:extern \"C\" )?fn (\w+)")
# what a comment above a function says of a number that stands for "none" or for a refusal
NONE = re.compile(r"\b(0|34|68)\b,? (where|for|stays|past|at)\b|, or (0|34)\b|\bor 0\.|, 0 \w+ it names none|or nothing where the buffer")
KIND = r"(shape|way|kind|language|liable|riichi|situation|how|verdict|letter)"


class Function:
    """A function of a file: its line, the comment above it, its head up to the body, and its body."""

    def __init__(self, lines, at):
        self.line, self.name = at + 1, HEAD.match(lines[at]).group(1)
        above = at - 1
        while above >= 0 and lines[above].lstrip().startswith(("//", "#[")):
            above -= 1
        self.comment = " ".join(lines[above + 1:at])
        indent = re.match(r"\s*", lines[at]).group()
        end = next((i for i in range(at, len(lines)) if lines[i].rstrip() in (indent + "}", indent + ";")), len(lines) - 1)
        text = lines[at:end + 1]
        opens = next((i for i, line in enumerate(text) if line.rstrip() == indent + "{" or (line.rstrip().endswith("{") and "requires" not in line
                                                                                        and "ensures" not in line)), 0)
        self.head = " ".join(text[:opens + 1])
        self.body = [line for line in text[opens + 1:] if not line.lstrip().startswith("//")]
        self.result = re.search(r"-> (.*?)\s*(requires|ensures|where|\{|$)", self.head)
        self.result = self.result.group(1).strip() if self.result else ""


def none_by_number(f):
    """A refusal, or "none", is a number that the function gives."""
    return re.fullmatch(r"u(8|16|32|size)", f.result) and (NONE.search(f.comment) or re.search("refus|unwritable", f.name))


def refusal_numbers(f):
    """It writes refusals as numbers."""
    text = "\n".join(f.body)
    return re.search(r"(refused|unsettled|no_entry)\((p, |g, )?\d+\)|refusal: [1-9]\d*\b|Refused\(\d+\)", text) or (
        re.search(r"return [1-9]\d*;", text) and re.search("refus|unwritable|slip", f.name))


def four_times(f):
    """The same is written out for each of four places or seats, or more."""
    text = "\n".join(f.body)
    arrays = re.findall(r"\b(\w+)\[0\]", text)
    if any(all(f"{a}[{i}]" in text for i in range(1, 4)) for a in arrays):
        return True
    alike = [re.sub(r"\b(?:seat )?\d+\b", "#", line.strip().rstrip(",")) for line in f.body]
    return any(alike.count(line) >= 4 and "#" in line for line in alike) or any(
        len(re.findall(r"\b" + name + r"\(", text)) >= 4 and re.search(r"\b" + name + r"\([^()]*\b3\b", text) and name not in ("Fu", "Points", "Han", "field")
        for name in set(re.findall(r"\b(\w+)\(", text)))


def calls_the_generic(f):
    """It is one line over the generic function that took the twins' bodies."""
    return len(f.body) <= 2 and re.search(r"^\s*(correct|finish|book|put_set|splits_off)\(", "\n".join(f.body))


POINTS = [
    # point, what is counted, test of a function, pattern of a line
    ("1a", "enums of the shape of Option or Result", None, r"^(pub )?enum Answer\b"),
    ("1b", "structs with a refusal by its number", None, r"^\s*(pub )?refusal: u(8|16),$"),
    ("1c", "structs with a flag and a value beside it", None, r"^\s*(pub )?(valued|sound|fine|end): bool,$"),
    ("1d", "functions that write a refusal as its number", refusal_numbers, None),
    ("1e", "functions that give a number for a refusal or for none", none_by_number, None),
    ("1f", "kinds by number: fields and constants", None, rf"^    pub {KIND}: u8,$|^pub const (RIICHI|WIN|DRAW|CHOMBO|MULTI_RON|PAO|CORRECTION): u8"),
    ("1g", "kinds by number: parameters", lambda f: re.search(rf"\b{KIND}: u8", f.head), None),
    ("2a", "tables of lengths and paddings", None, r"^(pub )?const (LENGTHS|PADS): \[usize; 5\]"),
    ("2b", "functions that write out the same for four places or seats", four_times, None),
    ("2c", "functions that make a bool or a number wider", lambda f: re.fullmatch(r"one|mark|wide\w*|long|tall|han_of", f.name), None),
    ("2d", "functions for two types, sizes or constants", lambda f: f.name in (
        "put_tiles", "put_yaku", "code_at", "way_at", "meld_codes", "meld_ways", "scaled_three", "scaled_four", "over_33", "put", "draw", "count", "least",
        "correct_win", "correct_draw", "correct_chombo", "correct_multi_ron", "book_result", "book_correction", "concealed_at", "kans_at", "items_at",
        "tetra", "triangle", "three", "pack_regular", "pack_other") and f.result != "ReadingCount" and not calls_the_generic(f), None),
    ("3a", "loops that count an index by hand", None, r"^\s*(while\b|loop \{)"),
    ("3b", "loops over a range", None, r"^\s*for \w+ in .*\.\."),
    ("4a", "zero values written out", lambda f: re.search(r"\bm: 0,|how: 0,", "\n".join(f.body)), None),
    ("4b", "equality or order of values by hand", lambda f: f.name in ("same", "beats") or re.search(r"\.0 (<|==|<=|!=) \w+(\.\w+)*\.0", "\n".join(f.body)),
     None),
    ("5a", "functions with a buffer and a place in it", lambda f: re.search(r"buf: &mut \[u8\],.*\bat: usize", f.head), None),
    ("5b", "functions that require a seat's or a meld count's bound", lambda f: re.search(
        r"requires.*((winner|discarder|seat|holder|feeder) ≤ 3|\.m ≤ 4|\bm ≤ 4)", f.head), None),
    ("6a", "functions that test melds by their number beside them", lambda f: re.search(r"\b0 < m\b.*\b3 < m\b", " ".join(f.body)), None),
    ("6b", "functions with an array and how much of it is used", lambda f: re.search(
        r"number: u8, hands|c: \[u8; 13\], n|g: \[u8; 4\], n|\[u8; 4\]; 3\], n|groups: \[u8; 4\], size|prefix: \[u8; \d\], ", f.head), None),
    ("7a", "functions that choose a step by a kind's number", lambda f: re.search(r"if kind == |if k == [01] \{|language == 2 \{", "\n".join(f.body)), None),
]


def sources(commit):
    """The lines of each file of crates/*/src."""
    listing = ["git", "ls-tree", "-r", "--name-only", commit, "crates"] if commit else ["git", "ls-files", "crates"]
    for name in subprocess.run(listing, capture_output=True, text=True, check=True).stdout.split():
        if re.fullmatch(r"crates/\w+/src/\w+\.rt", name):
            if commit:
                yield name, subprocess.run(["git", "show", f"{commit}:{name}"], capture_output=True, text=True, check=True).stdout.split("\n")
            else:
                with open(name, encoding="utf-8") as file:
                    yield name, file.read().split("\n")


def stays(lines, at):
    """The reason that stands above a line (from 0): a line of comment that begins with "stays"."""
    near = [line for line in lines[max(0, at - 6):at + 2] if re.match(r"\s*// stays\b", line)]
    return near[-1].strip() if near else ""


def main():
    listed = "--list" in sys.argv
    commit = next((x for x in sys.argv[1:] if x != "--list"), None)
    files = [(name, lines, [Function(lines, i) for i, line in enumerate(lines) if HEAD.match(line)]) for name, lines in sources(commit)]
    for key, said, test, pattern in POINTS:
        found = [(name, f.line, f.name, stays(lines, f.line - 1)) for name, lines, functions in files for f in functions if test and test(f)]
        found += [(name, i + 1, line.strip(), stays(lines, i)) for name, lines, _ in files for i, line in enumerate(lines)
                  if pattern and not line.lstrip().startswith("//") and re.search(pattern, line)]
        kept = sum(1 for *_, reason in found if reason)
        print(f"{key} {len(found):4} {said}" + (f"; {kept} with a reason beside them" if kept else ""))
        if listed:
            for name, n, text, reason in found:
                print(f"        {name}:{n}: {text[:90]}  {reason}")


if __name__ == "__main__":
    main()
