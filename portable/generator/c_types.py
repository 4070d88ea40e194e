"""Types. In the generator a type of MIR is a tuple: ("int", width), ("bool",), ("unit",), ("ptr",), ("ref", is mutable, type),
("slice", is mutable, type), ("array", type, length), ("named", path, types and constants that it is given) or, as one of these, ("const", number).

In C an integer is uintN_t, whatever its sign, since MIR has none on types; an array is a struct with the member `at`, so that it is copied by
value as MIR copies it; a slice is a pointer and 64 bits of length; an enum is a tag and a union; a raw pointer is one to void. No two types share
memory but the variants of an enum, whose tag says which was written, so the order of bytes in a number changes no answer. C99 has no struct
without members: a type with no bytes, as unit, a closure that captures nothing, or a reference to one, stands nowhere in C (`is_empty`)."""
import json

import interface
from mir import Unknown, form
from names import Names

# what a declared type says of itself beside its name and shape; a cell could be written behind a `&`
SAID = {"lifetimes", "bounds", "type_params", "const_params", "type_bounds", "owns", "is_cell", "is_tuple"}
BYTE, WORD, BOOL, UNIT, PTR = ("int", 8), ("int", 64), ("bool",), ("unit",), ("ptr",)


def type_of(node, given=()):
    """The type that a node of the JSON names; given: the types that stand for its parameters."""
    name, content = form(node)
    if name == "Int" and content in (8, 16, 32, 64):
        return "int", content
    if name in ("Bool", "Unit", "Ptr"):
        return (name.lower(),)
    if name == "Param" and content < len(given):
        return given[content]
    if name == "Named":
        return "named", content[0]["name"], tuple(type_of(t, given) for t in content[1])
    if name == "Const":
        return "const", content
    if name == "Array":
        return "array", type_of(content[0], given), length_of(content[1], given)
    if name == "Ref" and content[1] in ("Imm", "Mut"):
        return "ref", content[1] == "Mut", type_of(content[2], given)
    if name == "Struct" and content[0] == "&[]":
        pointer, length = [type_of(t, given) for t in content[1]]
        if pointer[0] == "ref" and length == WORD:
            return "slice", pointer[1], pointer[2]
    raise Unknown(f"type {json.dumps(node)[:100]}")


def length_of(node, given=()):
    """The length of an array."""
    name, content = form(node)
    if name == "Param" and content < len(given) and given[content][0] == "const":
        return given[content][1]
    if name != "Lit":
        raise Unknown(f"length {json.dumps(node)[:100]}")
    return content


class Types:
    """C's names of functions and types, and the definitions of types in order. Of each function, `lent` has the parameters that are lent and
    whether it can write."""

    def __init__(self, instances):
        self.instances, self.libraries = instances, instances.libraries
        self.declared, self.shapes, self.defined, self.text, self.names = {}, {}, {}, [], Names()
        self.lent = {}

    def function(self, name):
        """C's name of a function."""
        path, types = self.instances.path(name)
        return self.names.of(("function", name), path, [self.word(type_of(t)) for t in types], 2)

    def parameters(self, name):
        """The types of a function's parameters."""
        node = self.instances.function(name)
        return [type_of(local["ty"]) for local in node["locals"][1:node["params"] + 1]]

    # ---- declared types

    def add_shapes(self, name):
        """Takes in the declared types of a function: the fields, or the variants of an enum."""
        for node in self.instances.function(name)["types"]:
            kind, content = form(node["shape"])
            said = set(node) - {"name", "shape", "view"}
            if kind not in ("Fields", "Variants") or said != SAID or node["is_cell"] is not False:
                raise Unknown(f"{name}: shape {kind} of {node['name']}, {sorted(said)}, is_cell {node.get('is_cell')}")
            shape = (kind, content, node["type_params"])
            known, by = self.declared.setdefault(node["name"], (shape, name))
            if known != shape:
                raise Unknown(f"two shapes of {node['name']}, in {by} and in {name}")

    def shape(self, t):
        """What a named type is made of: a list of types, or of an enum a tuple of such lists."""
        if t not in self.shapes:
            (kind, content, count), _ = self.declared.get(t[1], ((None, None, None), None))
            if count != len(t[2]):
                raise Unknown(f"{t[1]} with {len(t[2])} types of {count}")
            self.shapes[t] = [type_of(f, t[2]) for f in content] if kind == "Fields" else tuple([type_of(f, t[2]) for f in fields] for fields in content)
        return self.shapes[t]

    def is_enum(self, t):
        return t[0] == "named" and isinstance(self.shape(t), tuple)

    def members(self, t):
        """The names of a type's fields or variants."""
        return interface.names(self.libraries.members(t[1]), len(self.shape(t)), "variant" if self.is_enum(t) else "f")

    def is_empty(self, t):
        """A type with no bytes, or a reference to one: it stands nowhere in C."""
        if t[0] in ("ref", "array"):
            return self.is_empty(t[2] if t[0] == "ref" else t[1]) or (t[0] == "array" and t[2] == 0)
        return t == UNIT or (t[0] == "named" and not self.is_enum(t) and all(map(self.is_empty, self.shape(t))))

    def writes(self, t):
        """Whether something can be written through a value of a type."""
        if t[0] in ("ref", "slice"):
            return t[1] or self.writes(t[2])
        if t[0] == "array":
            return self.writes(t[1])
        if t[0] == "named":
            return any(self.writes(f) for fields in (self.shape(t) if self.is_enum(t) else [self.shape(t)]) for f in fields)
        return t == PTR

    # ---- C's names

    def c(self, t):
        """C's name of a type; the first time its definition too, after those of what it is made of."""
        if t in (BOOL, PTR) or t[0] == "int":
            return "bool" if t == BOOL else "void *" if t == PTR else f"uint{t[1]}_t"
        if self.is_empty(t):
            return "void"
        if t[0] == "ref":
            inner = self.c(t[2])
            return f"{inner}{'' if t[1] else 'const '}*" if inner[-1] == "*" else f"{'' if t[1] else 'const '}{inner} *"
        if t[0] == "slice":
            if self.is_empty(t[2]):
                raise Unknown(f"a slice of {t[2]}, which has no bytes")
            name = ("slice_mut" if t[1] else "slice") + ("" if t[2] == BYTE else "_" + self.word(t[2]))
            body = f" {self.c(('ref', t[1], t[2]))}at; uint64_t len; "
        elif t[0] == "array":
            name, body = self.word(t), f" {self.c(t[1])} at[{t[2]}]; "
        elif t[0] == "named":
            name = self.names.of(t, t[1], [self.word(part) for part in t[2]], 1)
            body = self.body(self.shape(t), self.members(t)) if name not in self.defined else ""
        else:
            raise Unknown(f"a variable of type {t[0]}")
        if name not in self.defined:
            self.defined[name] = t
            self.text.append(f"typedef struct {{{body}}} {name};")
        if self.defined[name] != t:
            raise Unknown(f"two types with the name {name}")
        return name

    def word(self, t):
        """A type in a name."""
        if t[0] in ("ref", "slice"):
            return {"ref": ("ref_", "mut_"), "slice": ("slice_", "slice_mut_")}[t[0]][t[1]] + self.word(t[2])
        if t[0] == "array":
            return f"{self.word(t[1])}x{t[2]}"
        if t[0] == "named":
            return self.names.of(t, t[1], [self.word(part) for part in t[2]], 1).removeprefix("core_")
        return f"u{t[1]}" if t[0] == "int" else str(t[-1])

    def body(self, shape, members):
        """What stands in the definition of a struct or an enum."""
        if isinstance(shape, list):
            return "\n" + "".join(f"    {self.c(t)} {name};\n" for name, t in zip(members, shape) if not self.is_empty(t)).replace("* ", "*")
        variants = [(name, "".join(f" {self.c(t)} f{i};" for i, t in enumerate(fields) if not self.is_empty(t)).replace("* ", "*"))
                    for name, fields in zip(members, shape)]
        union = "".join(f"        struct {{{fields} }} {name};\n" for name, fields in variants if fields)
        return "\n    uint8_t tag;\n" + (f"    union {{\n{union}    }} as;\n" if union else "")

    # ---- sizes

    def layout(self, t):
        """The bytes of a value in MIR, which its offsets count, and what they are aligned to: fields stand in order, after an enum's tag."""
        if t == BOOL or t[0] == "int":
            return (1, 1) if t == BOOL else (t[1] // 8, t[1] // 8)
        if t[0] == "array":
            size, align = self.layout(t[1])
            return t[2] * size, align
        if t[0] != "named":
            return 0 if t == UNIT else 16 if t[0] == "slice" else 8, 1 if t == UNIT else 8
        ends, align = [int(self.is_enum(t))], 1
        for fields in self.shape(t) if self.is_enum(t) else [self.shape(t)]:
            end = ends[0]
            for size, least in map(self.layout, fields):
                end, align = -(-end // least) * least + size, max(align, least)
            ends.append(end)
        return -(-max(ends) // align) * align, align

    def size(self, t):
        """The bytes of a value, those between fields left out; of an enum with fields and without parameters, over 8."""
        if t == BOOL or t[0] == "int":
            return 1 if t == BOOL else t[1] // 8
        if t[0] == "array":
            return t[2] * self.size(t[1])
        if self.is_enum(t):
            fields = max((sum(map(self.size, fields)) for fields in self.shape(t)), default=0)
            return 1 + (fields if t[2] or not fields else 8)
        return 0 if self.is_empty(t) else sum(map(self.size, self.shape(t))) if t[0] == "named" else 16 if t[0] == "slice" else 8
