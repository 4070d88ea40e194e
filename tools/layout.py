#!/usr/bin/env python3
"""Checks include/herbassolh.h against the Rattle sources, and prints a C file of assertions that makes the compiler check the rest.

From the signature of every `pub extern "C"` function it takes the structs that C sees, and those in their fields. Each is `#[repr(C)]` and has a
partner in the header, Hb and its name (or the name in PARTNER), with the same fields in the same order; a struct of one nameless number is that number there. The C file
asserts, by the layout that C gives the Rattle struct on a target with lengths of 64 bits and on one of 32: the offset and exact type (array length
too) of each field, and the size and alignment of each struct; and it declares every exported call again from its Rattle signature, so that another
type in the header does not compile. A slice is a pointer and a length, `&Struct` a pointer. A struct or call in one of the two and not in the other,
a field added, gone or moved, or a struct with bytes between its members that the header does not name for that, is a fault: a line each, and exit
status 1."""
import os
import re
import sys

import tree

HEADER = os.path.join(tree.ROOT, "include", "herbassolh.h")
PRIMITIVE = {"u8": ("uint8_t", 1), "i8": ("int8_t", 1), "bool": ("bool", 1), "u16": ("uint16_t", 2), "i16": ("int16_t", 2),
             "u32": ("uint32_t", 4), "i32": ("int32_t", 4), "u64": ("uint64_t", 8), "i64": ("int64_t", 8)}


PARTNER = {"NthReading": "HbReading"}  # C has no other reading; in Rattle a reading is without its worth


def partner(name):
    return PARTNER.get(name, "Hb" + name)


class Fault(Exception):
    pass


def parameters(text):
    """The parts between commas that stand in no bracket."""
    parts, depth, part = [], 0, ""
    for c in text:
        depth += (c in "([{<") - (c in ")]}>")
        if c == "," and depth == 0:
            parts.append(part)
            part = ""
        else:
            part += c
    return [p.strip() for p in parts + [part] if p.strip()]


class Layout:
    """The structs that C sees, laid out for a target whose lengths have so many bytes."""

    def __init__(self, t, word):
        self.tree = t
        self.primitive = {**PRIMITIVE, "usize": ("size_t", word)}
        self.structs = {}  # name -> (fields: [(name, C type, array length or None, offset)], size, alignment)
        self.padded = set()  # those with bytes between members or after the last, their own, not those of a member
        self.calls = {}  # name -> C declaration
        for i in t.items("src"):
            if i.exported:
                self.calls[i.name] = self.declaration(i)

    def type_of(self, text, file):
        """C type, array length or None, size, alignment."""
        array = re.fullmatch(r"\[(.+); (\d+)\]", text)
        if array:
            c, length, size, align = self.type_of(array.group(1), file)
            if length is not None:
                raise Fault(f"{file.path}: {text}: an array of arrays")
            return c, int(array.group(2)), size * int(array.group(2)), align
        if text in self.primitive:
            c, size = self.primitive[text]
            return c, None, size, size
        item = self.tree.named(file, text)
        if not item or item.kind != "struct":
            raise Fault(f"{file.path}: {text}: no struct that C can see")
        newtype = re.fullmatch(r"(?:pub )?struct \w+\((?:pub )?(\w+)\);", item.code[0])
        if newtype:
            if not item.repr_c:
                raise Fault(f"{item.where()}: {item.name} is given to C without #[repr(C)]")
            return self.type_of(newtype.group(1), item.file)
        _, size, align = self.struct(item)
        return partner(item.name), None, size, align

    def struct(self, item):
        if item.name in self.structs:
            return self.structs[item.name]
        if not item.repr_c:
            raise Fault(f"{item.where()}: {item.name} is given to C without #[repr(C)]")
        fields, end, largest = [], 0, 1
        for line in item.code[1:-1]:
            field = re.fullmatch(r"(?:pub )?(\w+): (.+),", line)
            if not field:
                raise Fault(f"{item.where()}: {line}: no field")
            c, length, size, align = self.type_of(field.group(2), item.file)
            at = -(-end // align) * align
            self.padded |= {item.name} if at > end else set()
            fields.append((field.group(1), c, length, at))
            end, largest = at + size, max(largest, align)
        self.structs[item.name] = fields, -(-end // largest) * largest, largest
        self.padded |= {item.name} if end % largest else set()
        return self.structs[item.name]

    def argument(self, text, file):
        """The C types of a parameter: two for a slice."""
        reference = re.fullmatch(r"&(mut )?(.+)", text)
        if not reference:
            c, length, _, _ = self.type_of(text, file)
            if length is not None:
                raise Fault(f"{file.path}: {text}: an array by value")
            return [c]
        mutable, target = reference.groups()
        const = "" if mutable else "const "
        slice_ = re.fullmatch(r"\[(\w+)\]", target)
        if slice_:
            return [f"{const}{self.type_of(slice_.group(1), file)[0]} *", "size_t"]
        c, length, _, _ = self.type_of(target, file)
        if length is not None:
            raise Fault(f"{file.path}: {text}: a reference to an array")
        return [f"{const}{c} *"]

    def declaration(self, item):
        signature = re.split(r" (?:requires|ensures) ", " ".join(item.code))[0]
        m = re.fullmatch(r'pub extern "C" fn (\w+)\((.*)\)(?: -> (.+))?', signature)
        name, given, result = m.groups()
        types = [t for p in parameters(given) for t in self.argument(p.split(": ", 1)[1], item.file)]
        back = self.argument(result, item.file)[0] if result else "void"
        return f"{back} {name}({', '.join(types) or 'void'});"


def declared(text):
    """The names, C types and array lengths (or None) of the fields or parameters in a declaration such as `const uint8_t *a, b[4]`."""
    found, kind = [], ""
    for part in text.split(","):
        m = re.fullmatch(r"((?:const )?\w+ )?(\**)(\w+)(?:\[(\w+)\])?", " ".join(part.split()).replace("* ", "*"))
        if not m:
            raise Fault(f"include/herbassolh.h: {part.strip()}: no declaration")
        kind = m.group(1) or kind
        found.append((m.group(3), kind + m.group(2) if m.group(2) else kind.strip(), m.group(4)))
    return found


def header():
    """The header's structs, each with its fields, and its calls, each with what it gives and its parameters."""
    text = re.sub(r"/\*.*?\*/", " ", tree.read(HEADER), flags=re.S)
    text = re.sub(r"^#.*$", "", text, flags=re.M)
    structs = {}
    for body, name in re.findall(r"typedef struct (?:\w+ )?\{([^}]*)\} (\w+);", text):
        structs[name] = [field for line in body.split(";") if line.strip() for field in declared(line)]
    calls = {}
    for back, name, given in re.findall(r"^(\w+) (hb_\w+)\(([^)]*)\);", text, flags=re.M):
        calls[name] = back, [] if given == "void" else [p for part in given.split(",") for p in declared(part)]
    return structs, calls


def padding():
    """The structs that the header names for bytes between their members."""
    text = " ".join(re.sub(r"^ \*", "", line) for line in tree.read(HEADER).split("\n"))
    said = re.search(r"\(padding\): in ((?:Hb\w+, )*Hb\w+)\.", " ".join(text.split()))
    return set(said.group(1).split(", ")) if said else set()


def faults_of(layouts):
    structs, calls = header()
    layout, said = layouts[8], []
    for name, (fields, _, _) in layout.structs.items():
        here, there = [f[0] for f in fields], structs.get(partner(name))
        if there is None:
            said.append(f"include/herbassolh.h: no struct {partner(name)} ({', '.join(here)})")
        elif here != [field for field, _, _ in there]:
            said.append(f"include/herbassolh.h: {partner(name)} has {', '.join(field for field, _, _ in there)}; {name} has {', '.join(here)}")
    said += [f"include/herbassolh.h: {n}: no such struct is given to C" for n in structs if n not in set(map(partner, layout.structs))]
    said += [f"include/herbassolh.h: no {declaration}" for n, declaration in layout.calls.items() if n not in calls]
    said += [f"include/herbassolh.h: {n}: no such exported call" for n in sorted(set(calls) - set(layout.calls))]
    padded = {partner(name) for one in layouts.values() for name in one.padded}
    if padded != padding():
        said.append(f"include/herbassolh.h: bytes between members are in {', '.join(sorted(padded))}; it names {', '.join(sorted(padding())) or 'none'}")
    return said


def assertions(layout):
    for name, (fields, size, align) in layout.structs.items():
        c = partner(name)
        yield f'_Static_assert(sizeof({c}) == {size} && _Alignof({c}) == {align}, "{c}: size {size}, alignment {align}");'
        for field, kind, length, at in fields:
            wanted = f"{kind} *" if length is None else f"{kind} (*)[{length}]"
            said = kind if length is None else f"{kind}[{length}]"
            yield f'_Static_assert(offsetof({c}, {field}) == {at}, "{c}.{field} at {at}");'
            yield f'_Static_assert(_Generic(&(({c} *)0)->{field}, {wanted}: 1, default: 0), "{c}.{field} is {said}");'


def c_file(layouts):
    """The assertions for each width of a length, and the calls."""
    yield "/* Made by tools/layout.py from the Rattle sources. */"
    yield '#include "herbassolh.h"'
    for word, layout in layouts.items():
        yield f"#if SIZE_MAX == UINT{8 * word}_MAX"
        yield from assertions(layout)
        yield "#endif"
    yield from layouts[8].calls.values()


def main():
    t = tree.Tree()
    try:
        layouts = {word: Layout(t, word) for word in (8, 4)}
    except Fault as fault:
        sys.exit(f"{fault}")
    faults = faults_of(layouts)
    if faults:
        sys.exit("\n".join(faults))
    print("\n".join(c_file(layouts)))


if __name__ == "__main__":
    main()
