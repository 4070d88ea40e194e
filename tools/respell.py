#!/usr/bin/env python3
"""Spells the project's own definitions, lemmas and fields as today's Rattle does: respell.py FOLDER KIT.

In every .antt and .rt file below FOLDER/crates a name that such a file declares and that has a capital inside, a dash or a prime gets underscores
and an apostrophe: isRunStart is is_run_start, every-none is every_none. Types and modules keep their capitals, functions of src/ their names.
A name that the library below KIT has too changes only in files that declare it or import it from a crate of FOLDER. A new name that a file
already has with another meaning is printed, and the script writes nothing. What it renamed is printed, old and new, a line each.
"""
import collections
import os
import re
import sys

NAME = r'[^\s(){}.;,@"«»`]+'
DECLARED = re.compile(rf"^\s*(?:(?:pub|abbrev|unfoldable|pattern|axiom)\s+)*({NAME})(?: \{{[^{{}}]*\}})? :(?:\s|$)", re.M)
BOUND = re.compile(rf"\blet ({NAME}) [:=]|λ ({NAME})\.|\(((?:{NAME} )+): |\{{((?:{NAME} )+): |λ \(({NAME}) :")
USE = re.compile(r"\buse ([^\s;{]+?)(?:\.)?(?:\{([^}]*)\})?(?: as ([^\s;]+))?;?\s*$", re.M)
PATH = re.compile(rf"(?<![^\s(){{}};,@\"«»`])(?:{NAME})(?:\.{NAME})*|(?<=[)}}])(?:\.{NAME})+")
# names that fall together with another meaning of the new spelling
ALIAS = {"hand_at": "hand_at_lem", "entry_length": "entry_length_lem", "in_order": "in_order_lem"}


def snake(name):
    name = name.replace("′", "'")
    if not re.match(r"[a-zα-ω]", name):
        return name
    name = re.sub(r"(?<=[A-Z])([A-Z])", lambda m: m[1].lower(), name)
    name = re.sub(r"(?<=[a-z0-9'])([A-Z])", lambda m: "_" + m[1].lower(), name)
    name = re.sub(r"-([A-Z])", lambda m: "_" + m[1].lower(), name)
    return name.replace("-", "_")


def strip(text):
    return re.sub(r"--(?![^\s]).*|(?<!:)//.*", "", text)


def files(root):
    for folder, dirs, names in os.walk(root):
        dirs[:] = sorted(d for d in dirs if d != "out")
        for name in sorted(names):
            if name.endswith((".antt", ".rt")):
                yield os.path.join(folder, name)


def declared(text):
    return set(DECLARED.findall(strip(text)))


def main():
    root, kit = sys.argv[1], sys.argv[2]
    crates = os.path.join(root, "crates")
    texts = {p: open(p, encoding="utf-8").read() for p in files(crates)}
    own_crates = set(os.listdir(crates))
    own = collections.defaultdict(set)
    for path, text in texts.items():
        if path.endswith(".antt"):
            for name in declared(text):
                own[name].add(path)
    library = set()
    for path in files(kit):
        if path.endswith(".antt") and "/examples/" not in path:
            library |= declared(open(path, encoding="utf-8", errors="replace").read())
    # a lemma that would have its function's name ends in _lem
    functions = {snake(n) for n in own if "-" not in n}
    lemma = lambda n: snake(n) + "_lem" * ("-" in n and snake(n) in functions)
    new = {n: ALIAS.get(n, lemma(n)) for n in own}
    new = {n: s for n, s in new.items() if n != s and re.match(r"[a-zα-ω]", n)}
    renamed, clashes = collections.Counter(), []
    result = {}
    for path, text in texts.items():
        code = strip(text)
        mine, theirs, modules = set(declared(code)), set(), set()
        for steps, names, alias in USE.findall(code):
            steps = steps.split(".")
            is_own = steps[0] == "package" or steps[0] == "Rattle" and len(steps) > 1 and steps[1] in own_crates
            is_made = is_own and ("declared" in steps or steps[-1] in ("Tie", "Statement", "Goals", "Given"))
            if names:
                for it in names.split(","):
                    first = it.strip().split(" as ")[0].strip()
                    last = it.strip().split(" as ")[-1].strip()
                    (mine if is_own and not is_made else theirs).add(first)
                    mine.add(last) if last != first else None
            elif alias and is_own and not is_made:
                modules.add(alias)
            elif is_own and not is_made:
                modules.add(steps[-1])
        def is_renamed(name, head, is_first):
            if name not in new or path.endswith(".rt") and name in ALIAS:
                return False
            if is_first:
                return name in mine or name not in theirs and name not in library
            if head in modules or head.startswith("Rattle"):
                return True
            if head in ("goal", "tie", "c", "w", "l"):
                return False
            return name not in library

        def turn(m):
            steps = m[0].split(".")
            head = steps[0]
            out = []
            for k, step in enumerate(steps):
                bare = step
                if head == "Rattle" and (k < len(steps) - 1 or "proofs" in steps):
                    out.append(step)
                elif step and is_renamed(bare, head, k == 0 and step != ""):
                    out.append(new[bare])
                    renamed[bare, new[bare]] += 1
                else:
                    out.append(step)
            return ".".join(out)

        def line(l):
            mark = re.search(r"(?:^|(?<=\s))--(?=\s|$)" if path.endswith(".antt") else r"//", l)
            code, comment = (l[: mark.start()], l[mark.start() :]) if mark else (l, "")
            # in a comment only what stands between backticks is a name
            return PATH.sub(turn, code) + re.sub(r"`[^`]*`", lambda m: PATH.sub(turn, m[0]), comment)

        after = "\n".join(line(l) for l in text.split("\n"))
        result[path] = after
        # a new name that the file already had
        before_tokens = {it.split(".")[0] for it in PATH.findall(code)}
        if path.endswith(".antt"):
            for name in set(re.findall(NAME, code)) & set(new):
                if new[name] in before_tokens and (name in mine):
                    clashes.append((name, new[name], path))
        # two names that become one
        back = collections.defaultdict(set)
        for name in mine & set(new):
            back[new[name]].add(name)
        for s, ns in back.items():
            if len(ns) > 1:
                clashes.append((ns, s, path))
    for c in clashes:
        print("clash:", *c, file=sys.stderr)
    if "--write" in sys.argv:
        for path, text in result.items():
            if text != texts[path]:
                open(path, "w", encoding="utf-8").write(text)
    for (a, b), n in sorted(renamed.items()):
        print(a, b, n)


main()
