"""What stands in the tree, for the tools beside this file: the items of crates/*/specs, of crates/*/proofs/Claims.antt, ExactlyOne.antt, SearchClaims.antt and laws/
(.antt),
those of crates/*/src (.rt), and the must-fail edits.

An .antt item is a head ([abbrev|unfoldable] [pub] [record|data] NAME .. : ..), its deeper-indented lines, and the equations that begin with
NAME. `abbrev` and `unfoldable` make a definition, `record` and `data` a type; a head with neither is a theorem: its equations, and an
`unfolding` before them, are its proof. Items inside `module _ (..) where` stand two columns in. A `ruleset NAME = ..` lists theorems and says
nothing of its own, so that it is no item."""
import glob
import os
import re
from dataclasses import dataclass, field

ROOT = os.path.normpath(os.path.join(os.path.dirname(os.path.abspath(__file__)), ".."))
CRATES = os.path.join(ROOT, "crates")
INDEX = ("Lib.antt", "laws.antt", "search.antt")

HEAD = re.compile(r"(abbrev |unfoldable )?(pub )?(record |data )?([^\s:(){}]+)(?: [^:]*?|(?: [({].*?[)}])*) ?:(?: |$)")
MEMBER = re.compile(r"\s+(?:pub )?([^\s:(){}]+) :(?: |$)")
IMPORT = re.compile(r"(?:unfoldable )?(pub |ghost )?use ([^{};]+?)(?:(?:\.|::)\{([^}]*)\}| as (\S+?))?;?$")


def read(path):
    with open(path, encoding="utf-8") as file:
        return file.read()


@dataclass
class Item:
    """A definition, type or theorem of an .antt file, or a struct, enum or function of an .rt file."""
    kind: str  # definition, type, theorem; struct, function
    name: str
    public: bool
    file: "File"
    line: int
    code: list = field(default_factory=list)  # what counts: of a theorem the statement, of a function its signature and contract
    proof: list = field(default_factory=list)
    comments: int = 0
    members: list = field(default_factory=list)  # constructors, fields
    module: str = ""  # the head of the module that it stands in
    exported: bool = False
    repr_c: bool = False

    def where(self):
        return f"{self.file.path}:{self.line}"


@dataclass
class File:
    """A source file: its crate, its path below crates/, its part (specs, which the claims belong to; laws; search; src), items and imports."""
    crate: str
    path: str
    part: str
    items: list = field(default_factory=list)
    imports: dict = field(default_factory=dict)  # name here -> (module, name there)
    aliases: dict = field(default_factory=dict)  # name here -> module
    again: dict = field(default_factory=dict)  # names that it hands on (pub use)
    import_lines: int = 0


def add_import(file, statement):
    """Takes in one `use`."""
    m = IMPORT.match(statement)
    handed, path, names, alias = m.groups()
    path = path.strip()
    if names is None and alias is None and "::" in path:
        path, names = path.rsplit("::", 1)
    if names is None:
        file.aliases[alias or path.split(".")[-1]] = path
        return
    for name in names.split(","):
        there, _, here = name.strip().partition(" as ")
        file.imports[here or there] = (path, there)
        if handed == "pub ":
            file.again[here or there] = (path, there)


def antt_file(crate, path, text):
    """The items of an .antt file."""
    part = "laws" if "/laws/" in path else "search" if "/specs/search/" in path or path.endswith("/proofs/SearchClaims.antt") else "specs"
    file = File(crate, path, part)
    lines = text.split("\n")
    modules, item, body, comments, statement = [], None, False, 0, ""
    for number, line in enumerate(lines, 1):
        bare = line.strip()
        indent = len(line) - len(line.lstrip())
        if statement:
            statement += " " + bare
        elif re.match(r"(unfoldable )?(pub )?use ", line):
            statement = bare
        if statement:
            file.import_lines += 1
            if statement.count("{") == statement.count("}"):
                add_import(file, statement)
                statement = ""
            continue
        if not bare:
            comments = 0
            continue
        if bare.startswith("--"):
            if item and indent > 2 * len(modules):
                item.comments += 1
            elif not bare.startswith("-- ----"):
                comments += 1
            continue
        if re.match(r"(pub )?mod ", line):
            continue
        if modules and not modules[-1].endswith("where"):
            modules[-1] += " " + bare  # the head of a module goes on
            continue
        closing = bare.startswith(("}", ")"))
        while modules and indent < 2 * len(modules) and not closing:
            modules.pop()
        base = 2 * len(modules)
        if indent == base and bare.startswith("module "):
            modules.append(bare)
            continue
        if indent <= base and not closing:
            if re.match(r"(pub )?ruleset ", bare):
                item = None
                continue
            first = bare.split()[0]
            equation = item and (first == item.name or first == "unfolding")
            if equation:
                body = True
            else:
                head = HEAD.match(bare)
                if not head:
                    raise SystemExit(f"{path}:{number}: no head of an item: {bare[:60]}")
                opens, public, sort, name = head.groups()
                kind = "type" if sort else "definition" if opens else "theorem"
                item = Item(kind, name, bool(public), file, number, comments=comments, module=" ".join(modules))
                file.items.append(item)
                body = False
            comments = 0
        elif indent > base and item.kind == "type":
            member = MEMBER.match(line)
            if member:
                item.members.append(member.group(1))
        (item.proof if body and item.kind == "theorem" else item.code).append(bare)
    return file


def rt_file(crate, path, text):
    """The structs, enums, functions and methods (TYPE::NAME) of an .rt file; of a function or method its signature and contract."""
    file = File(crate, path, "src")
    item, comments, repr_c, statement = None, 0, False, ""
    owner, margin = "", ""  # the type of the impl block that a line stands in, and how far its methods stand in
    for number, line in enumerate(text.split("\n"), 1):
        bare = line.strip()
        if not item and (block := re.match(r"impl(?:<[^>]*>)? (?:.* for )?(\w+)", line)):
            owner, margin = block.group(1), "    "
        elif not item and line.startswith("}"):
            owner, margin = "", ""
        elif statement or re.match(margin + r"(ghost )?use ", line):
            statement += " " * bool(statement) + bare
            file.import_lines += statement.startswith("ghost") and not owner
            if statement.count("{") == statement.count("}"):
                add_import(file, re.sub(r",? ?\}", "}", statement.replace("{ ", "{")))
                statement = ""
        elif bare.startswith("//"):
            if item:
                item.comments += 1
            else:
                comments += 1
        elif line.startswith("#[repr(C)]"):
            repr_c = True
        elif bare.startswith("#["):
            pass
        elif item:
            if item.kind == "function" and line.startswith(margin + "{"):
                item = None
                continue
            item.code.append(bare)
            if line.startswith(margin + "}"):
                item = None
        else:
            m = re.match(margin + r"(pub )?(extern \"C\" )?(fn|struct|enum) (\w+)", line)
            if m:
                kind = "function" if m.group(3) == "fn" else "struct"
                name = owner + "::" * bool(owner) + m.group(4)
                new = Item(kind, name, bool(m.group(1)), file, number, [bare], comments=comments, exported=bool(m.group(2)), repr_c=repr_c)
                file.items.append(new)
                item = None if kind == "struct" and bare.endswith(";") else new
            if bare:
                repr_c = False
            comments = 0
    return file


class Tree:
    """All of it: of the working tree, or below another root."""

    def __init__(self, root=ROOT):
        self.crates = [l.split(":")[0].split()[0] for l in read(os.path.join(root, "crates.txt")).split("\n") if l and not l.startswith("#")]
        self.root = os.path.join(root, "crates")
        self.files = {}
        for crate in self.crates:
            for pattern in ("specs/**/*.antt", "proofs/Claims.antt", "proofs/ExactlyOne.antt", "proofs/SearchClaims.antt", "proofs/laws/**/*.antt"):
                for path in self.paths(crate, pattern):
                    if os.path.basename(path) not in INDEX:
                        self.files[path] = antt_file(crate, path, read(os.path.join(self.root, path)))
            for path in self.paths(crate, "src/*.rt"):
                self.files[path] = rt_file(crate, path, read(os.path.join(self.root, path)))
        self.edits = {path.split("/")[0] + "/" + os.path.basename(path)[:-5] for path in self.paths("*", "must-fail/*.edit")}

    def paths(self, crate, pattern):
        """Paths below crates/."""
        found = glob.glob(os.path.join(self.root, crate, pattern), recursive=True)
        return sorted(os.path.relpath(full, self.root) for full in found)

    def items(self, *parts):
        return [i for f in self.files.values() if f.part in parts for i in f.items]

    def struct(self, crate, name):
        """The struct or enum of a crate."""
        for f in self.files.values():
            if f.crate == crate and f.part == "src":
                for i in f.items:
                    if i.kind == "struct" and i.name == name:
                        return i
        return None

    def in_module(self, module, name):
        """The item that a name of a module is; None where the module is the kit's."""
        if "::" in module or re.fullmatch(r"\w+", module):
            return self.struct(module.split("::")[0], name)
        m = re.match(r"Rattle\.(\w+)\.(specs|proofs)\.(.*)", module)
        if not m:
            return None
        crate, folder, path = m.groups()
        declared = re.match(r"declared\.(\w+)", path)
        if declared:
            return self.struct(crate, declared.group(1))
        file = self.files.get(f"{crate}/{folder}/{path.replace('.', '/')}.antt")
        return self.named(file, name, handed=True) if file else None

    def named(self, file, name, handed=False):
        """The item that a name is in a file (or, `handed`, that the file hands on)."""
        for i in file.items:
            if i.kind == "function":
                continue
            if i.name == name or (i.kind == "type" and name in i.members and not re.match(r"(pub )?record", i.code[0])):
                return i
        if "." in name:
            alias, _, rest = name.partition(".")
            if alias in file.aliases and "." not in rest:
                return self.in_module(file.aliases[alias], rest)
            module, _, rest = name.rpartition(".")
            return self.in_module(module, rest)
        given = (file.again if handed else file.imports).get(name)
        return self.in_module(*given) if given else None

    def uses(self, item):
        """The items that an item's counted text names. A variable that has the name of an item in sight counts as that item."""
        text = " ".join(item.code) + (" " + item.module if item.module else "")
        if item.file.part == "src":
            text = re.sub(r"\b\w+:(?!:)", " ", text)  # names of fields and parameters
        text = re.sub(r"(?<=[{;])\s*[^\s={};]+ =(?= )", " ", text)  # names of fields in a record
        found = {}
        for word in re.split(r"[\s(){}\[\],;&⌜⌝]+", text):
            word = word.rstrip(".")
            if "." in word and word.split(".")[0] not in item.file.aliases and not word.startswith("Rattle."):
                word = word.split(".")[0]  # a value, and a field of it
            if word and not word.startswith(".") and word != item.name:
                other = self.named(item.file, word)
                if other and other is not item:
                    found[id(other)] = other
        return list(found.values())
