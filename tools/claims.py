#!/usr/bin/env python3
"""Checks docs/CLAIMS.md against the tree. One line for each fault and exit status 1; else a count. With --write it first writes the page's last
section, "Where each stands", anew.

Of a name in backquotes:
- with `::` it is a function or struct of a crate; a bare name behind one, in the same cell, may be a function of the same crate;
- with a slash it is a must-fail edit (crate/edit) or a path, below crates/ or the root, or below some crate where it begins with specs/ or proofs/;
- a bare name is a definition, theorem, type or member of one in specs/ or proofs/Claims.antt, a struct, an exported call, a crate, or a Rattle word;
- after "theorem" it is a theorem; `name`, `name` (`path`) and `path`: `name`, `name` say that the names stand in that file, and
  `function` ≡ `name` that the function's contract has it; in a column "edit" everything but a crate is an edit;
- with a space, a bracket or another sign it is text or a command, whose tools/ and .sh files exist.
And every exported call, every theorem that a file directly in specs/ or proofs/Claims.antt declares `pub`, and every must-fail edit stands in a row of a table; the figures given for tools/lines.py, tools/promises.py and the edits are theirs. Sections of document 02's requests (## S-n) are checked like the others, and stand
in the order of their numbers.
The last section gives file and line of each definition, theorem, type, field, struct and function that the page names, a row each: of a field or case
where its type is named in the same cell ("Demand 3" names `Demand3`), of a name that stands in several files each of them, what says how the code
finds an answer (specs/search/) only where nothing else has the name. A place that is not true any more, or is missing, is a fault.
Of README.md, docs/DECISIONS.md and the last section of docs/REFUSALS.md the names are checked alone; there a law may be named too. README.md names
every crate."""
import fnmatch
import glob
import os
import re
import sys

import lines
import promises
import tree

PAGE = os.path.join(tree.ROOT, "docs", "CLAIMS.md")
WORDS = {"ensures", "requires", "pub", "bool", "ps", "write_all", "axioms="}
SPAN = re.compile(r"`([^`]+)`")
NAMES = r"((?:`[^`]+`(?:, and | and |, )?)+)"
PLACES = "## Where each stands"
PLACES_TEXT = """
Written by `python3 tools/claims.py --write`: every definition, theorem, type and function that this page names, with its file below `crates/` and its line.

| name | is | at |
|---|---|---|
"""


class Page:
    """The page read against a tree."""

    def __init__(self, t):
        self.tree = t
        self.faults, self.rows, self.checked = [], set(), 0
        self.places = set()  # (name, what it is, file, line)
        self.place_rows = []  # those that the page names, as the rows of its last section
        self.stated = {}
        for i in t.items("specs", "search"):
            for name in [i.name] + i.members:
                self.stated.setdefault(name, []).append(i)
        self.functions = {}
        for i in t.items("src"):
            self.functions.setdefault((i.file.crate, i.name), i)
        self.exported = {i.name for i in t.items("src") if i.exported}

    def function(self, name):
        """The function or struct that crate::[module::]name is."""
        path = name.split("::")
        item = self.functions.get((path[0], path[-1]))
        in_module = len(path) == 2 or item and os.path.basename(item.file.path) == path[1] + ".rt"
        return item if item and in_module else None

    def path_exists(self, name):
        places = [os.path.join(tree.CRATES, name), os.path.join(tree.ROOT, name)]
        if name.startswith(("specs/", "src/", "proofs/", "must-fail/")):
            places.append(os.path.join(tree.CRATES, "*", name))
        return any(glob.glob(p) for p in places)

    def fault_of(self, name, column, crate):
        """What is wrong with a name, or None."""
        if re.search(r"[ (\[{&#<]", name):
            for word in name.split():
                if re.match(r"(tools|interface|scorer|\.ci)/", word) and not os.path.exists(os.path.join(tree.ROOT, word)):
                    return "no such file"
            return None
        if name in WORDS:
            return None
        if column == "edit" and name not in self.tree.crates:
            return None if name in self.tree.edits else "no such edit"
        if "::" in name:
            return None if self.function(name) else "no such function"
        if "/" in name:
            return None if name in self.tree.edits or self.path_exists(name) else "no such edit or path"
        if "*" in name:
            return None if fnmatch.filter(self.exported, name) else "no such call"
        if re.search(r"\.\w+$", name):
            return None if self.path_exists(name) or any(f.endswith("/" + name) for f in self.tree.files) else "no such file"
        known = name in self.stated or name in self.exported or name in self.tree.crates or (crate, name) in self.functions
        if known or any(i.kind == "struct" and i.name == name for i in self.tree.items("src")):
            return None
        return "no such definition, theorem or function"

    def place(self, name, item):
        """What a name is at an item, its file and its line."""
        if name == item.name:
            return "call" if item.exported else item.kind, item.file.path, item.line
        lines = tree.read(os.path.join(tree.CRATES, item.file.path)).split("\n")
        member = re.compile(r"\s+(?:pub )?" + re.escape(name) + " :(?: |$)")
        line = next(n for n in range(item.line, len(lines)) if member.match(lines[n])) + 1
        sort = "field" if re.match(r"(pub )?record", item.code[0]) else "case"
        return f"{sort} of `{item.name}`", item.file.path, line

    def places_of(self, name, column, crate, text):
        """Where a name of a cell stands: what it is, file and line."""
        if column == "edit" or name in WORDS:
            return []
        function = self.function(name) if "::" in name else self.functions.get((crate, name)) if column == "met by" else None
        if function or "::" in name:
            return [self.place(function.name, function)] if function else []
        types = set(SPAN.findall(text)) | ({"Demand3"} if "Demand 3" in text else set())
        paths = {path for _, path in re.findall(NAMES + r" ?\(`([^`]+\.antt)`\)", text)} | set(re.findall(r"`([^`]+\.antt)`: ", text))
        found = self.stated.get(name, [])
        found = [i for i in found if i.file.part == "specs"] or found
        found = [i for i in found if name != i.name and i.name in types] + [i for i in found if name == i.name]
        found = [i for i in found if i.file.path in paths and name == i.name] or found
        found += [i for i in self.tree.items("src") if i.name == name and (i.kind == "struct" or i.exported)]
        return [self.place(name, i) for i in found]

    def stands_in(self, name, path):
        file = self.tree.files.get(path)
        return file and any(name == i.name or name in i.members for i in file.items)

    def cell(self, at, text, column):
        """Checks a cell of a table, or a line of text."""
        crate = None
        for name in SPAN.findall(text):
            self.checked += 1
            fault = self.fault_of(name, column, crate)
            if fault:
                self.faults.append(f"{at}: `{name}`: {fault}")
            self.places.update((name, *place) for place in self.places_of(name, column, crate, text))
            if "::" in name or name in self.tree.crates:
                crate = name.split("::")[0]
        for group in re.findall(r"[Tt]heorems? " + NAMES, text):
            for name in SPAN.findall(group):
                if not any(i.kind == "theorem" and i.name == name for i in self.stated.get(name, [])):
                    self.faults.append(f"{at}: `{name}`: no such theorem")
        behind = re.findall(r"`([^`]+\.antt)`: " + NAMES, text)
        before = re.findall(NAMES + r" ?\(`([^`]+\.antt)`\)", text)
        for path, group in behind + [(path, group) for group, path in before]:
            for name in SPAN.findall(group):
                if not self.stands_in(name, path):
                    self.faults.append(f"{at}: `{name}`: not in {path}")
        for name, definition in re.findall(r"`([^` ]+)` ≡ `([^` ]+)`", text):
            item = self.function(name) or next((i for i in self.tree.items("src") if i.exported and i.name == name), None)
            if item and definition not in " ".join(item.code):
                self.faults.append(f"{at}: `{name}`: its contract has no `{definition}`")

    def read(self):
        header = []
        for number, line in enumerate(tree.read(PAGE).partition("\n" + PLACES)[0].split("\n"), 1):
            at = f"docs/CLAIMS.md:{number}"
            if not line.startswith("|"):
                header = []
                self.cell(at, line, "")
                continue
            cells = [c.strip() for c in line.strip("|").split(" | ")]
            if not header:
                header = cells
                continue
            for k, text in enumerate(cells):
                self.cell(at, text, header[k].strip() if k < len(header) else "")
                self.rows.update(SPAN.findall(text))
        order = sorted(self.places, key=lambda place: (place[0].lower(), place))
        self.place_rows = [f"| `{name}` | {kind} | `{path}:{line}` |" for name, kind, path, line in order]

    def others(self):
        """The names of the other pages."""
        for i in self.tree.items("laws"):
            self.stated.setdefault(i.name, []).append(i)
        for path in ("README.md", "docs/DECISIONS.md"):
            for number, line in enumerate(tree.read(os.path.join(tree.ROOT, path)).split("\n"), 1):
                self.cell(f"{path}:{number}", line, "")
        for line in tree.read(os.path.join(tree.ROOT, "docs", "REFUSALS.md")).partition("\n## Where each")[2].split("\n"):
            self.cell("docs/REFUSALS.md", line, "")

        readme = SPAN.findall(tree.read(os.path.join(tree.ROOT, "README.md")))
        self.faults += [f"README.md: no word of the crate {crate}" for crate in self.tree.crates if crate not in readme]

    def missing(self):
        """Exported calls, theorems and edits that have no row."""
        for edit in sorted(self.tree.edits - self.rows):
            self.faults.append(f"{edit}: an edit without a row")
        for i in self.tree.items("src", "specs"):
            if i.exported and i.name not in self.rows:
                self.faults.append(f"{i.where()}: {i.name}: an exported call without a row")
            if i.kind == "theorem" and i.public and i.name not in self.rows:
                self.faults.append(f"{i.where()}: {i.name}: a theorem without a row")

    def sections(self):
        """Document 02's requests have a section each, in the order of their numbers."""
        numbers = re.findall(r"^## S-(\d+):", tree.read(PAGE), flags=re.M)
        if numbers != [str(n) for n in range(1, 15)]:
            self.faults.append(f"docs/CLAIMS.md: sections S-{', S-'.join(numbers)}: S-1 to S-14 are to stand in this order")

    def standing(self):
        """The places of the last section that are not true, and those that are missing."""
        before, _, after = tree.read(PAGE).partition("\n" + PLACES + "\n")
        first = before.count("\n") + 3
        given = {line: number for number, line in enumerate(after.split("\n"), first) if line.startswith("| `")}
        wanted = set(self.place_rows)
        wrong = [f"docs/CLAIMS.md:{number}: not so: {line}" for line, number in given.items() if line not in wanted]
        wrong += [f"docs/CLAIMS.md: \"Where each stands\" lacks {line}" for line in self.place_rows if line not in given]
        if wrong:
            self.faults += wrong[:20] + [f"{len(wrong)} places: `python3 tools/claims.py --write` writes them anew"]

    def write_places(self):
        """Writes the last section anew; the rest of the page stays as it is."""
        before = tree.read(PAGE).partition("\n" + PLACES + "\n")[0].rstrip("\n")
        with open(PAGE, "w", encoding="utf-8") as file:
            file.write(before + "\n\n" + PLACES + "\n" + PLACES_TEXT + "\n".join(self.place_rows) + "\n")

    def figures(self):
        """The figures that the page gives for the other tools."""
        text = tree.read(PAGE)
        count, characters = lines.totals(lines.Count(self.tree))
        papers = "{:,} and {:,} of them for what documents 01 and 02 ask for".format(*lines.totals(lines.Count(self.tree, papers=True)))
        public, inner, _ = promises.count(self.tree)
        tried = f"The gate tries all {len(self.tree.edits)}"
        for wanted in (f"{count:,} lines and {characters:,} characters", papers, f"{public} public functions", f"{inner} of them have a `requires`", tried):
            if wanted not in text:
                self.faults.append(f"docs/CLAIMS.md: it should say: {wanted}")
        if tried not in tree.read(os.path.join(tree.ROOT, "docs", "DECISIONS.md")):
            self.faults.append(f"docs/DECISIONS.md: it should say: {tried}")


def main():
    if sys.argv[1:] not in ([], ["--write"]):
        sys.exit("claims.py [--write]")
    page = Page(tree.Tree())
    page.read()
    if sys.argv[1:]:
        page.write_places()
    page.sections()
    page.standing()
    page.missing()
    page.figures()
    page.others()
    names = f"{page.checked} names in docs/CLAIMS.md, README.md, docs/DECISIONS.md and docs/REFUSALS.md, all in the tree, {len(page.place_rows)} with file and line"
    print("\n".join(page.faults) if page.faults else names)
    sys.exit(bool(page.faults))


if __name__ == "__main__":
    main()
