"""The four rules that go beyond writing MIR down, and what they have to know of a function's locals.

MIR names every intermediate value and copies every argument. Written as it is, the C takes a quarter more flash and stack. Each rule below says
why the C still does what the MIR does; where its condition is not met, the local is a variable, or the argument is copied, as in MIR.

1. A value that only the next statement uses stands in that statement (`read`, `whole`, `written`).
   Right because nothing is written between the two: what the value reads has not changed. The function is written from its start again, with the
   local as a variable, if the value is used twice, or not by the next statement, or not on every way there. A call could write what another
   operand of the same statement reads, and C orders operands as it likes; so a call stands only in a statement that reads nothing else.
2. A struct or an array of over 8 bytes is lent to a called function, `const *`, and not copied (`lend`).
   Right because nobody writes it while the call runs. The called function does not: MIR that writes a parameter is refused, and behind `const`
   the C compiler refuses it too. Nor is it reached another way: it is a variable of the caller that no reference reaches, or was lent to the
   caller under the same rule, or the call is given no reference that it can write through, a raw pointer among them, in any part of an argument
   (Types.writes). Otherwise it is copied.
3. A copy of what was lent, made only to be indexed, is what was lent (`read`, `may_write`).
   MIR indexes nothing but memory, so it copies a parameter before it indexes it. Right because such a copy is assigned once, and never written
   after: if a write or a reference that could write is met, or a raw pointer to it is handed on, it is a variable again. By rule 2 the original
   stays as it was.
4. An array of constants that is only read is `static const` (`tables`).
   Right because it is assigned once, only with constants, and then, as in rule 3, never written: each call of the function would make the same.
   One that the MIR itself lends is written so too (`static`).

What assigns no bytes, or to a local that nothing reads, is left out (`needed`), and so is a test that nothing is left to depend on: a value has no
effect but to be read."""
from dataclasses import dataclass, replace

import interface
from c_types import PTR, Types, type_of
from flow import every, pruned, whole
from instances import places, reads
from mir import Unknown, form

OVER = 8  # bytes; a struct up to this size is passed as cheaply as its address
PARTS = {"lifetimes", "outlives", "params", "generics", "types", "locals", "body"}  # of a function


class Again(Exception):
    """A function has to be written again: more is known of its locals."""


@dataclass
class Value:
    """A value in C."""
    text: str
    type: tuple
    loose: bool = False  # an operator binds it
    alone: bool = False  # a call is in it, so that it stands only in a statement that reads nothing else (rule 1)
    shared: bool = False  # a place that a reference reaches (rule 2)
    number: int = None  # a constant
    times: tuple = (0, "")  # a product with a constant: the constant, and the other factor
    table: int = None  # an address: the array that is only read that it is of (rules 3, 4)
    mutable: bool = True  # a place: it may be written
    within: int = None  # a place: the array that is only read that it lies in (rules 3, 4)
    sized: tuple = None  # the type whose size it is, or a product with that

    def inside(self):
        """The text as an operand."""
        return f"({self.text})" if self.loose else self.text


@dataclass
class Pointer:
    """A raw pointer: what it runs over, whether that may be written, the type of its elements, the offset in bytes, and as in Value."""
    start: str
    mutable: bool
    element: tuple
    offset: Value = None
    table: int = None
    alone: bool = False


class Locals:
    """The locals of one function of the MIR, as far as the rules have to know them."""

    def __init__(self, types: Types, instances, name):
        self.types, self.instances, self.name, self.node, self.helpers = types, instances, name, instances.function(name), set()
        homes = {local["home"] for local in self.node.get("locals", ())}
        if set(self.node) != PARTS or not homes <= {"ValueLocal", "MemorySlot"}:
            raise Unknown(f"parts of a function: {sorted(self.node)}, {sorted(homes)}")
        self.kinds = [type_of(local["ty"]) for local in self.node["locals"]]
        self.slots = {i for i, local in enumerate(self.node["locals"]) if local["home"] == "MemorySlot"}  # those that a reference can reach
        self.parameters = range(1, self.node["params"] + 1)
        self.empty = {i for i, kind in enumerate(self.kinds) if types.is_empty(kind)}  # these stand nowhere
        path, _ = instances.path(name)
        names = interface.names(types.libraries.parameters(path), len(self.parameters), "v", 1)
        self.names = ["v0"] + names + [f"v{i}" for i in range(len(names) + 1, len(self.kinds))]
        self.pointees = self.find_pointees()
        self.empty |= {local for local, kind in self.pointees.items() if kind and types.is_empty(kind)}
        self.body = self.needed(whole(self.node["body"]))
        given = [assign for assign in self.all("Assign") if not assign[0]["steps"]]
        assigned = [place["local"] for place, _ in given] + [call[2]["local"] for call in self.all("Call")]
        if (self.slots | set(assigned)) & set(self.parameters):
            raise Unknown("a parameter that is written")
        self.lent = {i for i in self.parameters if self.kinds[i][0] in ("array", "named") and types.size(self.kinds[i]) > OVER}
        types.lent[name] = self.lent, any(types.writes(self.kinds[i]) for i in self.parameters)
        self.kept = {0, *self.parameters, *self.slots}  # the locals that are variables in C
        # the arrays of rules 3 and 4, until one is seen to be written
        self.tables = {place["local"]: value for place, value in given
                       if place["local"] in self.slots - self.empty and assigned.count(place["local"]) == 1 and self.is_constant(value) is not None}
        self.statics = {lend[0]["local"]: self.static(*lend) for lend in self.all("LendStatic")}  # constant arrays behind a `&`
        self.untyped = set()  # the raw pointers that are variables assigned more than once
        self.begin()

    def all(self, kind):
        """What stands in all statements of a kind."""
        return [content for name, content, *_ in every(self.body) if name == kind]

    def needed(self, body):
        """A body without what assigns no bytes, or what is never read."""
        while True:
            self.read_at_all = {local for name, content, *_ in every(body) for local in reads({name: content})}
            left = pruned(body, self.is_needless)
            if left == body:
                return body
            body = left

    def is_needless(self, statement):
        """Whether a statement assigns what has no bytes, or to a local that nothing reads."""
        if statement[0] not in ("Assign", "LendStatic"):
            return False
        place = statement[1][0]
        is_read = place["local"] == 0 or place["local"] in self.read_at_all
        return not is_read or place["local"] in self.empty or self.types.is_empty(self.kind_of(place))

    def find_pointees(self):
        """The type at which each raw pointer, or one made from it, is read or written. None where there is no such type, or more than one."""
        found = {local: set() for local, kind in enumerate(self.kinds) if kind == PTR}
        for place in places(self.node["body"]):
            if place["local"] in found and place["steps"] and form(place["steps"][0])[0] == "Deref":
                found[place["local"]].add(type_of(form(place["steps"][0])[1]))
        flows = [s["Assign"] for s in self.node["body"] if isinstance(s, dict) and "Assign" in s]
        flows = [(place["local"], form(value)) for place, value in flows if place["local"] in found and not place["steps"]]
        flows = [(to, content[1] if name == "Op2" else content) for to, (name, content) in flows if name == "Opd" or (name == "Op2" and content[0] == "Offset")]
        flows = [(to, form(of)[1]["local"]) for to, of in flows if form(of)[0] == "Copy" and not form(of)[1]["steps"]]
        for _ in flows:
            for to, of in flows:
                if of in found:
                    found[of] |= found[to]
        return {local: next(iter(kinds)) if len(kinds) == 1 else None for local, kinds in found.items()}

    def static(self, place, node, content):
        """A constant that is lent to a local, and to no other: its type and what it is."""
        t = type_of(node)
        written = [assign[0] for assign in self.all("Assign") + self.all("LendStatic")] + [call[2] for call in self.all("Call")]
        whole = [*self.parameters] + [other["local"] for other in written if not other["steps"]]
        if place["steps"] or whole.count(place["local"]) != 1:
            raise Unknown("a constant that is lent to a part of a local, or to one with another value")
        if self.kinds[place["local"]] != ("ref", False, t):
            raise Unknown(f"a constant of type {t} that is lent to one of type {self.kinds[place['local']]}")
        return t, content

    def begin(self):
        """Nothing of the function is written yet."""
        self.pending = {}  # by local, the values that are not yet written (rule 1)
        self.used = set()  # the locals that are read
        self.seen = set(self.parameters)  # the locals that stand in what is written
        self.top = []  # the declarations above it
        self.pointers = {}  # the raw pointers that are variables
        self.loops = []  # the scopes of the loops around
        self.labels = {}  # the ends of blocks and loops that have a name
        self.reads, self.calls = 0, []  # of the statement at hand: how many locals it reads, and which of them are calls

    def declared(self, local, kind=None):
        """The declaration of a local, or of a parameter."""
        kind = kind or (("ref", False, self.kinds[local]) if local in self.lent else self.kinds[local])
        return f"{self.types.c(kind)} {self.names[local]}".replace("* ", "*")

    def declare(self, local):
        """Declares a local above, where it comes first in a statement that does not declare it."""
        if local not in self.seen:
            self.seen.add(local)
            self.top.append(self.declared(local) + ";")

    # ---- rule 1: a value that only the next statement uses

    def read(self, local):
        """A local; or what is pending for it, which is then used up: a second use finds nothing pending, and the local is kept."""
        self.used.add(local)
        self.reads += 1
        if local in self.pointers:
            return self.pointers[local]
        if local in self.statics:
            return self.lent_static(local, *self.statics[local])
        table = local if local in self.tables else None
        if local in self.tables and "Opd" in self.tables[local]:
            return replace(self.operand(self.tables[local]["Opd"]), mutable=False, within=table)
        if local in self.kept:
            self.declare(local)
            mutable = local not in self.tables and local not in self.lent
            return Value("*" * (local in self.lent) + self.names[local], self.kinds[local], shared=local in self.slots, mutable=mutable, within=table)
        if local not in self.pending:
            self.keep(local)
        value = self.pending.pop(local)
        self.calls += [local] if value.alone else []
        return value

    def lent_static(self, local, t, content):
        """The address of a constant, which stands above from its first use on."""
        if local not in self.seen:
            self.seen.add(local)
            self.top.append(f"static const {self.declared(local, t)} = {self.initializer(t, content)};")
        return Value("&" + self.names[local], self.kinds[local])

    def initializer(self, t, node):
        """A constant that is lent, in braces."""
        name, content = form(node)
        if name == "Ints":
            name, content = "Parts", [{"Int": {"width": content["width"], "value": number}} for number in content["values"]]
        if name == "Repeat" and t[0] == "array":
            name, content = "Parts", [content[0]] * content[1]
        if name == "Int" and t == ("int", content["width"]):
            return self.constant(t, content["value"] % 2 ** t[1]).text
        if name == "Bool" and t == ("bool",) and content in (True, False):
            return str(content).lower()
        if name == "Parts" and t[0] in ("array", "named"):
            return self.filled(t, content, self.initializer)
        raise Unknown(f"a constant {name} of type {t}, lent")

    def keep(self, *locals_):
        """These are variables."""
        self.kept.update(locals_)
        raise Again

    def whole(self, value):
        """What a statement assigns or tests, now that it is made: a call may stand in it only where it reads nothing else."""
        if self.calls and self.reads > 1:
            self.keep(*self.calls)
        value.alone = value.alone or bool(self.calls)
        return value

    def written(self, *lines):
        """Lines are written: nothing may be pending that they did not use."""
        if self.pending:
            self.keep(*self.pending)
        return list(lines)

    # ---- rule 2: a big argument is lent

    def call(self, name, nodes):
        """A call with its arguments."""
        lent, writes = self.types.lent[name]
        given = [self.lend(node, writes) if i in lent else self.plain(self.operand(node)).text
                 for i, (node, kind) in enumerate(zip(nodes, self.types.parameters(name)), 1) if not self.types.is_empty(kind)]
        return f"{self.types.function(name)}({', '.join(given)})"

    def lend(self, node, writes):
        """The address of what MIR copies for a call; writes: the call is given something that it can write through."""
        pending = node["Copy"]["local"] in self.pending
        value = self.operand(node)
        if value.alone or (value.shared and writes):
            if not pending:
                raise Unknown("an argument that a call may write")
            self.keep(node["Copy"]["local"])
        return value.text[1:] if value.text[0] == "*" else "&" + value.text

    # ---- rules 3 and 4: an array that is only read

    def is_constant(self, node):
        """True for an aggregate, or an array of one value, of numbers; False for what was lent; None for what may change."""
        name, content = form(node)
        if name in ("Aggregate", "Repeat"):
            return all(form(part)[0] == "Int" for part in (content if name == "Aggregate" else content[:1])) or None
        place = content["Copy"] if name == "Opd" and form(content)[0] == "Copy" else {"local": 0}
        return False if place["local"] in self.lent and all(form(step)[0] == "Field" for step in place["steps"]) else None

    def may_write(self, within, wrongly=True):
        """Wrongly: an array that was taken for one only read is written, or something behind a `&` is."""
        if wrongly and within is None:
            raise Unknown("a write behind a `&`")
        if wrongly:
            del self.tables[within]
            raise Again
