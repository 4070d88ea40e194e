#!/usr/bin/env python3
"""Checks the words of docs/STYLE.md: one word for one thing, and no retired word in an identifier. A line for each finding and exit status 1, else a count.

- the table, rows of | `word` | means | `word` | means |: no word stands in two cells; no meaning has a second one (a `;` followed by "in a", "of a"
  or "also", or " also " anywhere; quotations and names in backquotes apart);
- the paragraph that begins with `Retired:`: its words in backquotes stand in no cell, and in no identifier of crates/ (.rt, .antt), include/,
  interface/, other_scorer/, portable/, tools/ and desk/, as a whole part of it. Parts of an identifier lie between _ - · and where lower case becomes upper.
  A scope after a word, `many` (position, game, log), means only crates whose names begin so, or those folders beside crates/.
Comments and strings are not looked at, nor what a file has from the kit: names that it imports from elsewhere than this tree, and paths into it."""
import functools
import glob
import os
import re
import sys

import tree

PAGE = "docs/STYLE.md"
FOLDERS = ("desk", "include", "interface", "other_scorer", "portable", "tools")  # beside crates/
SECOND = re.compile(r";\s+(?:in an?|of an?|also)\b|\balso\b")
SPAN = re.compile(r"`([^`]+)`")
PART = re.compile(r"[A-Z]?[a-zà-ÿ]+|[A-Z]+(?![a-z])|\d+")
C_LIKE = r'/\*.*?\*/|//[^\n]*|"(?:[^"\\]|\\.)*"|\'(?:[^\'\\]|\\.)\''
PYTHON = r'"""(?:[^\\]|\\.)*?"""|"(?:[^"\\\n]|\\.)*"|\'(?:[^\'\\\n]|\\.)*\'|#[^\n]*'
HIDDEN = {".c": C_LIKE, ".h": C_LIKE, ".rs": C_LIKE, ".py": PYTHON, ".sh": r"\"(?:[^\"\\]|\\.)*\"|'[^']*'|(?<![^\s])#[^\n]*", ".rt": r"//[^\n]*", ".antt": r"(?<![^\s])--[^\n]*"}
SHELL = re.compile(r"\$\{?(\w+)|^\s*(?:local )?(\w+)(?==|\(\))", flags=re.M)
USE = re.compile(r"^\s*(?:unfoldable )?(?:pub )?(?:ghost )?use ([^;{\n]+?)(?:\.\{([^}]*)\}| as (\S+?))?;?$", flags=re.M)


def parts(name):
    """The parts of an identifier, in lower case."""
    return [part.lower() for piece in re.split(r"[_\-·]", name) for part in PART.findall(piece)]


@functools.cache
def met(name, words):
    """Those of some words that an identifier has as whole parts."""
    here = parts(name)
    return [word for word in words if any(here[k:k + len(wanted)] == wanted for wanted in [parts(word)] for k in range(len(here)))]


def table(text):
    """The words of the table with their meanings."""
    for number, line in enumerate(text.split("\n"), 1):
        cells = [cell.strip() for cell in line.strip("|").split(" | ")] if line.startswith("| `") else []
        for word, meaning in zip(cells[::2], cells[1::2]):
            yield from ((number, name, meaning) for name in SPAN.findall(word))


def retired(text):
    """The retired words, each with its scope: none where it has none."""
    paragraph = re.search(r"^\**Retired:[^`]*`.*?(?=\n\s*\n|\Z)", text, flags=re.M | re.S)
    found = re.findall(r"`([^`]+)`(?:\s+\(([^)]*)\))?", paragraph.group(0)) if paragraph else []
    return {word: tuple(filter(None, re.split(r",\s+", scope))) for word, scope in found}


def check_table(rows, gone):
    if not rows or not gone:
        yield f"{PAGE}: no {'row of the table' if not rows else 'line that begins with Retired:'}"
    seen = {}
    for number, word, meaning in rows:
        if word in seen:
            yield f"{PAGE}:{number}: `{word}` stands in line {seen[word]} too"
        if word in gone and not gone[word]:
            yield f"{PAGE}:{number}: `{word}` is retired"
        second = SECOND.search(re.sub(r"\"[^\"]*\"|`[^`]*`", "_", meaning))
        if second:
            yield f"{PAGE}:{number}: `{word}` has a second meaning: ..{second.group(0)}.."
        seen.setdefault(word, number)


def bare(path, text):
    """A source without comments and strings, its lines as they were."""
    return re.sub(HIDDEN[os.path.splitext(path)[1]], lambda m: re.sub(r"[^\n]", " ", m.group(0)), text, flags=re.S)


def from_kit(text, crates):
    """The names that a file of crates/ has from the kit, and the text without the statements that say so."""
    names = {"mathlib", "lib", "Prim"}
    for use in list(USE.finditer(text)):
        path, listed, alias = use.groups()
        head = re.split(r"::|\.", path)[0]
        own = head == "Rattle" and path.split(".")[1] in crates or head in crates
        if not own:
            names |= {alias or re.split(r"::|\.", path)[-1]} | {word for name in (listed or "").split(",") for word in name.split()} | ({head} - {"Rattle"})
            text = text.replace(use.group(0), re.sub(r"[^\n]", " ", use.group(0)))
    return names, text


def identifiers(path, crates):
    """The identifiers of a source, each with its line."""
    text, kit = bare(path, tree.read(os.path.join(tree.ROOT, path))), set()
    if path.startswith("crates/"):
        kit, text = from_kit(text, crates)
    for number, line in enumerate(text.split("\n"), 1):
        if path.endswith(".sh"):
            yield from ((number, a or b) for a, b in SHELL.findall(line))
        elif not kit:
            yield from ((number, name) for name in re.findall(r"[A-Za-z_]\w*", line))
        else:
            for word in re.split(r"[\s(){}\[\],;&⌜⌝]+", line):
                names = re.split(r"::|\.", word)
                yield from ((number, name) for name in names if names[0] not in kit and name not in kit)


def sources():
    for pattern in ["crates/**/*.rt", "crates/**/*.antt"] + [f"{folder}/**/*{ending}" for folder in FOLDERS for ending in (".c", ".h", ".rs", ".py", ".sh")]:
        for path in sorted(glob.glob(os.path.join(tree.ROOT, pattern), recursive=True)):
            if "/target/" not in path and "/out/" not in path:
                yield os.path.relpath(path, tree.ROOT)


def check_sources(gone, counted):
    crates = [line.split(":")[0] for line in tree.read(os.path.join(tree.ROOT, "crates.txt")).split("\n") if line and not line.startswith("#")]
    for path in sources():
        first, second, *_ = path.split(os.sep)
        where = second if first == "crates" else first
        words = tuple(word for word, scope in gone.items() if not scope or where.startswith(scope))
        counted.append(path)
        for number, name in identifiers(path, crates):
            yield from (f"{path}:{number}: {name}: `{word}` is retired" for word in met(name, words))


def main():
    text, counted = tree.read(os.path.join(tree.ROOT, PAGE)), []
    rows, gone = list(table(text)), retired(text)
    findings = [*check_table(rows, gone), *dict.fromkeys(check_sources(gone, counted))]
    print("\n".join(findings) or f"{len(rows)} words of {PAGE} have one meaning each; none of {len(gone)} retired ones is in an identifier of {len(counted)} files")
    sys.exit(bool(findings))


if __name__ == "__main__":
    main()
