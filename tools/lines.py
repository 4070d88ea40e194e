#!/usr/bin/env python3
"""Counts what the exported contracts and the theorems rest on: what an auditor has to believe.

It starts from the signature and contract (`requires`, `ensures`) of every `extern "C"` function and from the statement of every theorem
declared `pub` in a file directly in crates/*/specs or in crates/*/proofs/Claims.antt, and follows each name to its end: through definitions and types of specs/, and the Rattle
structs and enums that they or a signature name. Counted, once each: those contracts and statements, definitions (head and equations), types
(`record`, `data`), structs, and the head of a `module _ (..)` around any of them. Characters are those of the counted lines, spaces at both
ends and line ends left out.
Not counted: proofs under a statement, proofs/laws/ and specs/search/, the kit's own names, attributes. Given apart: comment lines at what is
counted, and import lines of the files of specs/ that hold any of it.

The row `papers` counts what documents 01 and 02 ask for, without what is said, every reading and a claim written; `total` counts all.
Then it lists names of proofs/laws/ and specs/search/ through which meaning passes (they are not followed), files of specs/ that import
specs/search/, imports that name nothing, and the definitions of specs/ that nothing exported or claimed reaches, with who cites them: they may
go. Exit status 1 where one of the first three is found. With --each, every counted item too."""
import os
import re
import sys

import tree

KINDS = {"definition": "definitions", "type": "definitions", "theorem": "statements", "function": "contracts", "struct": "structs"}
BESIDE = ("speech_", "score_readings", "claim_writer", "unfinished_writer")  # what is said, every reading, writers: no document of the two asks for them
CALLS = ("hb_say", "hb_reading", "hb_write_claim", "hb_write_unfinished", "hb_unfinished", "claim_within", "unfinished_within", "record_within")  # their calls, and what is said of these
# definitions of the one answer that a theorem of an ExactlyOne.antt names: its relation says what it is, and the search that gives it is not followed
ONE_ANSWER = {("score", "score_of"), ("score_readings", "nth_of"), ("claim", "judged_of"), ("waits", "waits_of"), ("claim_writer", "written_of"),
              ("claim_writer", "buffer_of"), ("cards", "cards_of"), ("log_entry", "next_of"), ("ready", "fewest_swaps")}
COLUMNS = ("definitions", "statements", "contracts", "structs")


class Count:
    """What is reached from the contracts and theorems of a tree."""

    def __init__(self, t, papers=False):
        """With `papers`, from what documents 01 and 02 ask for alone: without what is said, every reading and a claim written."""
        self.tree = t
        self.roots = [i for i in t.items("src") if i.exported] + [i for i in t.items("specs") if i.kind == "theorem" and i.public]
        if papers:
            self.roots = [i for i in self.roots if not i.file.crate.startswith(BESIDE) and not i.name.startswith(CALLS)]
        self.reached, self.through = {}, {}
        todo = list(self.roots)
        while todo:
            item = todo.pop()
            if id(item) in self.reached:
                continue
            self.reached[id(item)] = item
            for other in t.uses(item):
                if (item.file.crate, item.name) in ONE_ANSWER:
                    continue
                if other.file.part in ("laws", "search"):
                    self.through.setdefault(id(other), (other, item))
                else:
                    todo.append(other)
        self.items = sorted(self.reached.values(), key=lambda i: (t.crates.index(i.file.crate), i.file.part == "src", i.file.path, i.line))

    def rows(self):
        """For each crate: lines by kind, characters, comment lines, import lines."""
        rows, modules, files = {}, set(), set()
        for i in self.items:
            row = rows.setdefault(i.file.crate, dict.fromkeys(COLUMNS + ("characters", "comments", "imports"), 0))
            code = list(i.code)
            if i.module and (i.file.path, i.module) not in modules:
                modules.add((i.file.path, i.module))
                code.append(i.module)
            row[KINDS[i.kind]] += len(code)
            row["characters"] += sum(len(line) for line in code)
            row["comments"] += i.comments
            if i.file.part == "specs" and i.file.path not in files:
                files.add(i.file.path)
                row["imports"] += i.file.import_lines
        return rows

    def unreached(self):
        """Definitions and types of specs/ that are not reached, with who cites them."""
        return [(i, self.citers(i)) for i in self.tree.items("specs") if i.kind != "theorem" and id(i) not in self.reached]

    def astray(self):
        """Imports from this tree that name no definition, theorem or struct in it (constants and functions apart), so that nothing is left out unseen."""
        for f in self.tree.files.values():
            for name, (module, there) in f.imports.items():
                of_code = module.split("::")[0] in self.tree.crates and there[0].isupper() and not there.isupper()
                constant = module.endswith(".declared.TheConstants")
                proof = re.fullmatch(r"Rattle\.(\w+)\.proofs\.(\w+)", module)  # a law in a file that is not read here: it has to stand there
                if constant or (proof and self.law_stands(*proof.groups(), there)):
                    continue
                if (re.match(rf"Rattle\.(?:{'|'.join(self.tree.crates)})\.", module) or of_code) and not self.tree.in_module(module, there):
                    yield f"{f.path}: {name} from {module}"

    @staticmethod
    def law_stands(crate, file, name):
        """A `pub` law of that name stands in crates/CRATE/proofs/FILE.antt."""
        path = os.path.join(tree.CRATES, crate, "proofs", file + ".antt")
        return os.path.exists(path) and re.search(rf"^pub {re.escape(name)} :", tree.read(path), re.MULTILINE) is not None

    def searchers(self):
        """Files of specs/, outside laws and search, that import search."""
        for f in self.tree.files.values():
            names = [name for name, (module, _) in f.imports.items() if ".specs.search." in module]
            names += [name for name, module in f.aliases.items() if ".specs.search." in module]
            if f.part == "specs" and names and not any((f.crate, i.name) in ONE_ANSWER for i in f.items):
                yield f"{f.path}: {', '.join(names)}"

    def citers(self, item):
        """Where the name of an item stands, beside its own definition."""
        word = re.compile(r"(?<![\w'′.-])" + re.escape(item.name) + r"(?![\w'′-])")
        found = set()
        for f in self.tree.files.values():
            if f is not item.file and item.name in f.imports and self.tree.named(f, item.name) is item:
                found.add("contracts of " + f.crate if f.part == "src" else f.part + " of " + f.crate)
        if any(word.search(" ".join(i.code + i.proof)) for i in item.file.items if i is not item):
            found.add("its own file")
        module = item.file.path[len(item.file.crate) + 1:-5].replace("/", ".") + "."
        for path in self.tree.paths("*", "proofs/**/*.antt"):
            text = tree.read(os.path.join(self.tree.root, path))
            if f"{item.file.crate}.{module}" in text and word.search(text):
                found.add("proofs of " + path.split("/")[0])
        return ", ".join(sorted(found)) or "nothing"


def totals(count):
    """Lines and characters in all."""
    rows = count.rows().values()
    return sum(row[c] for row in rows for c in COLUMNS), sum(row["characters"] for row in rows)


def added(rows):
    return {c: sum(r[c] for r in rows.values()) for c in COLUMNS + ("characters", "comments", "imports")}


def main():
    count = Count(tree.Tree())
    if "--each" in sys.argv[1:]:
        for i in count.items:
            print(len(i.code), sum(map(len, i.code)), i.name, i.where())
    rows = count.rows()
    rows["papers"] = added(Count(count.tree, papers=True).rows())
    rows["total"] = added({n: r for n, r in rows.items() if n != "papers"})
    print(f"{'crate':12}{'lines':>7}{'characters':>12}" + "".join(f"{c:>13}" for c in COLUMNS) + f"{'comments':>11}{'imports':>9}")
    for name, row in rows.items():
        lines = sum(row[c] for c in COLUMNS)
        print(f"{name:12}{lines:7}{row['characters']:12}" + "".join(f"{row[c]:13}" for c in COLUMNS) + f"{row['comments']:11}{row['imports']:9}")
    faults = [f"meaning passes through {o.name} ({o.where()}), named by {i.name} ({i.where()})" for o, i in count.through.values()]
    faults += [f"a file of specs/ imports search/: {line}" for line in count.searchers()]
    faults += [f"an import that names nothing: {line}" for line in count.astray()]
    print("".join(fault + "\n" for fault in faults), end="")
    left = count.unreached()
    if left:
        print("nothing exported or claimed reaches:")
        for item, citers in left:
            print(f"  {item.name} ({item.where()}, {len(item.code)} lines); cited by {citers}")
    sys.exit(bool(faults))


if __name__ == "__main__":
    main()
