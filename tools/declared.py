#!/usr/bin/env python3
"""Checks that interface/archive/src/lib.rs, through which the tester's tool and the comparison call the archive, declares what include/herbassolh.h does.

Every call of the header stands in its `extern "C"` block with the same types, and no other; every struct that is `#[repr(C)]` there has the header's
fields, by name, order and type, Hb left out of its name; every struct of the header is there; and every constant that names one of the header's in its
comment has that value. A bool of C is a u8 in Rust (so that a byte other than 0 or 1 is seen), and a `#[repr(transparent)]` struct is what it holds.
`const T *` is *const T or &T, `T *` is *mut T or &mut T. A line for each fault and exit status 1; else a count."""
import os
import re
import sys

import layout
import tree

RUST = os.path.join(tree.ROOT, "interface", "archive", "src", "lib.rs")
PRIMITIVE = {"u8": ("uint8_t", "bool"), "i8": ("int8_t",), "u16": ("uint16_t",), "i16": ("int16_t",), "u32": ("uint32_t",), "i32": ("int32_t",),
             "u64": ("uint64_t",), "i64": ("int64_t",), "usize": ("size_t",)}


class Declared:
    """What the Rust file declares."""

    def __init__(self, text):
        text = re.sub(r"(?m)^\s*//(?!/ .*\(HB_).*$", "", text)
        self.constants = re.findall(r"/// .*\((HB_\w+)\)\.?\npub const (\w+): usize = (\w+);", text)
        self.transparent = dict(re.findall(r"#\[repr\(transparent\)\]\n(?:#\[[^\n]*\]\n)*pub struct (\w+)\(pub (.+)\);", text))
        self.structs = {}
        for name, body in re.findall(r"#\[repr\(C\)\]\n(?:#\[[^\n]*\]\n)*pub struct (\w+) \{(.*?)\n\}", text, flags=re.S):
            self.structs[name] = re.findall(r"pub (\w+): (.+?),\n", body + "\n")
        self.calls = {}
        block = re.search(r'extern "C" \{(.*?)\n\}', text, flags=re.S).group(1)
        for name, given, back in re.findall(r"fn (\w+)\((.*?)\)(?: -> (\w+))?;", block, flags=re.S):
            self.calls[name] = back or "void", [part.split(":")[1].strip() for part in layout.parameters(" ".join(given.split()))]

    def is_type(self, rust, c, length=None):
        """Whether a Rust type is a C type, of an array its length too."""
        rust = self.transparent.get(rust, rust)
        array = re.fullmatch(r"\[(.+); (\d+)\]", rust)
        if array:
            return length == array.group(2) and self.is_type(array.group(1), c)
        pointer = re.fullmatch(r"(\*const |\*mut |&mut |&)(\w+)", rust)
        if pointer:
            const = "const " if pointer.group(1) in ("*const ", "&") else ""
            target = re.fullmatch(r"(const )?(\w+) \*", c)
            return bool(target) and (target.group(1) or "") == const and self.is_type(pointer.group(2), target.group(2))
        if rust in PRIMITIVE:
            return length is None and c in PRIMITIVE[rust]
        return length is None and c == "Hb" + rust


def faults_of(rust, structs, calls, text):
    for name, fields in structs.items():
        given = rust.structs.get(name.removeprefix("Hb"))
        if given is None:
            yield f"no struct {name.removeprefix('Hb')}"
        elif [field for field, _ in given] != [field for field, _, _ in fields]:
            yield f"{name.removeprefix('Hb')} has {', '.join(field for field, _ in given)}; {name} has {', '.join(field for field, _, _ in fields)}"
        else:
            for (field, kind), (_, c, length) in zip(given, fields):
                if not rust.is_type(kind, c, length):
                    yield f"{name.removeprefix('Hb')}.{field} is {kind}; {name}'s is {c}{f'[{length}]' if length else ''}"
    yield from (f"{name}: the header has no Hb{name}" for name in rust.structs if "Hb" + name not in structs)
    for name, (back, parameters) in calls.items():
        if name not in rust.calls:
            yield f"no {name}"
            continue
        result, given = rust.calls[name]
        if not (back == result == "void" or rust.is_type(result, back)):
            yield f"{name} gives {result}; the header's gives {back}"
        if len(given) != len(parameters) or not all(rust.is_type(kind, c, length) for kind, (_, c, length) in zip(given, parameters)):
            yield f"{name} takes {', '.join(given)}; the header's takes {', '.join(c for _, c, _ in parameters)}"
    yield from (f"{name}: the header has no such call" for name in rust.calls if name not in calls)
    defined = dict(re.findall(r"^#define (HB_\w+) (\w+)", text, flags=re.M)) | dict(re.findall(r"\b(HB_\w+) = (\w+)", text))
    for name, here, value in rust.constants:
        if defined.get(name) != value:
            yield f"{here} is {value}; {name} is {defined.get(name, 'not in the header')}"


def main():
    rust = Declared(tree.read(RUST))
    try:
        structs, calls = layout.header()
    except layout.Fault as fault:
        sys.exit(f"{fault}")
    faults = [f"interface/archive/src/lib.rs: {fault}" for fault in faults_of(rust, structs, calls, tree.read(layout.HEADER))]
    print("\n".join(faults) or f"{len(calls)} calls, {len(structs)} structs and {len(rust.constants)} constants of the header stand in interface/archive as it has them")
    sys.exit(bool(faults))


if __name__ == "__main__":
    main()
