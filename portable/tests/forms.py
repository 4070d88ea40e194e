#!/usr/bin/env python3
"""Generic Rattle through the generator: forms.py build FOLDER, or forms.py check FOLDER GENERATOR RLIBS..

forms/lib.rt.in is a crate with what the repository's code is written with: Result and `?`, Option, iterators, closures, traits, const parameters,
derives, slices of structs. It is Rust too, once its ghost lines are gone. build: proves it in FOLDER, and has rustc build it with a program that
calls each hb_.. function with many values and prints a hash of its answers. check: has the generator in the folder GENERATOR write the crate as C,
gcc build the same calls over it, and compares. Exit status 1 if a hash differs."""
import os
import re
import shutil
import subprocess
import sys

HERE = os.path.dirname(os.path.abspath(__file__))
SOURCE = os.path.join(HERE, "forms", "lib.rt.in")
FUNCTION = re.compile(r"^pub fn (hb_\w+)\((.*?)\)(?: -> (\w+))? \{", re.M)
C = {"u8": "uint8_t", "u16": "uint16_t", "u32": "uint32_t", "usize": "size_t", "bool": "bool"}
VALUES = {"u8": [*range(13), 30, 49, 50, 51, 99, 100, 128, 199, 200, 201, 254, 255], "u16": [*range(7), 300, 301, 65535],
          "usize": [0, 1, 2, 3, 4, 5, 7, 8, 9]}
STRICT = ["-Wall", "-Wextra", "-Wconversion", "-Wshadow", "-Wpedantic", "-Werror"]

C_START = """#include "forms.h"
#include <stdio.h>
#include <string.h>
static uint64_t hash;
static void add(uint64_t n)
{
    for (int i = 0; i < 8; i++) hash = (hash ^ (n >> 8 * i & 255)) * UINT64_C(1099511628211);
}
"""
RUST_START = """fn add(hash: &mut u64, n: u64) {
    for i in 0..8 { *hash = (*hash ^ (n >> 8 * i & 255)).wrapping_mul(1099511628211); }
}
"""


def lists():
    """Sixty lists of up to 12 bytes, small ones most of all, and how much of each is lent."""
    x = 7
    for i in range(60):
        made = []
        for _ in range(12):
            x = (x * 1103515245 + 12345) % 2 ** 32
            made.append((x >> 16 >> 5) % 256 if (x >> 16) % 5 == 0 else x >> 16 >> 5 & 15)
        yield made, (0, 1, 2, 3, 4, 5, 8, 9, 12, 8)[i % 10]


def functions(source):
    """Each function: its name, its parameters as (name, type), and the type of its result."""
    for name, given, result in FUNCTION.findall(source):
        yield name, [tuple(p.split(": ")) for p in given.split(", ") if p], result


def is_list(kind):
    return "[" in kind


def c_type(name, kind):
    """A parameter in the header."""
    return f"{'' if 'mut' in kind else 'const '}uint8_t *{name}, size_t {name}_len" if is_list(kind) else f"{C[kind]} {name}"


def header(source):
    lines = [f"{C[result]} {name}({', '.join(c_type(*p) for p in given) or 'void'});" for name, given, result in functions(source)]
    return "\n".join(["#include <stdbool.h>", "#include <stddef.h>", "#include <stdint.h>", *lines, ""])


def nested(given, loop, call):
    """Calls in a loop for each parameter."""
    lines = [loop(i, kind) + " {" for i, (_, kind) in enumerate(given)] + call + ["}"] * len(given)
    return "\n".join(lines)


def c_program(source):
    """The calls in C."""
    text = [C_START]
    rows, lengths = zip(*lists())
    text.append(f"static const uint8_t lists[60][12] = {{{', '.join('{' + ', '.join(map(str, row)) + '}' for row in rows)}}};")
    text.append(f"static const size_t lengths[60] = {{{', '.join(map(str, lengths))}}};")
    text += [f"static const {C[t]} values_{t}[] = {{{', '.join(map(str, values))}}};" for t, values in VALUES.items()]
    text.append("int main(void)\n{")
    for name, given, _ in functions(source):
        lent = [i for i, (_, kind) in enumerate(given) if is_list(kind)]
        args = [f"own{i}, lengths[i{i}]" if i in lent else f"values_{kind}[i{i}]" for i, (_, kind) in enumerate(given)]
        call = [f"uint8_t own{i}[12]; memcpy(own{i}, lists[i{i}], 12);" for i in lent] + [f"add({name}({', '.join(args)}));"]
        call += [f"for (int j = 0; j < 12; j++) add(own{i}[j]);" for i in lent]
        text.append("hash = UINT64_C(14695981039346656037);")
        text.append(nested(given, lambda i, kind: f"for (int i{i} = 0; i{i} < {60 if is_list(kind) else len(VALUES[kind])}; i{i}++)", call))
        text.append(f'printf("{name} %016llx\\n", (unsigned long long)hash);')
    return "\n".join(text + ["return 0;\n}\n"])


def rust_program(source):
    """The source and the same calls in Rust."""
    plain = re.sub(r"(?m)^ghost use.*\n|^#!\[tactic.*\n|^    requires \{.*\}\n|^    ghost .*\n", "", source)
    rows, lengths = zip(*lists())
    text = ["#![allow(warnings)]", plain, RUST_START, f"const LISTS: [[u8; 12]; 60] = {list(map(list, rows))};"]
    text.append(f"const LENGTHS: [usize; 60] = {list(lengths)};")
    text += [f"const {t.upper()}: [{t}; {len(values)}] = {values};" for t, values in VALUES.items()]
    text.append("fn main() {")
    for name, given, _ in functions(source):
        lent = [i for i, (_, kind) in enumerate(given) if is_list(kind)]
        args = [f"&mut own{i}[0..LENGTHS[i{i}]]" if i in lent else f"{kind.upper()}[i{i}]" for i, (_, kind) in enumerate(given)]
        call = [f"let mut own{i} = LISTS[i{i}];" for i in lent] + [f"let answer = {name}({', '.join(args)}) as u64;", "add(&mut hash, answer);"]
        call += [f"for j in 0..12 {{ add(&mut hash, own{i}[j] as u64); }}" for i in lent]
        text.append("let mut hash = 14695981039346656037u64;")
        text.append(nested(given, lambda i, kind: f"for i{i} in 0..{60 if is_list(kind) else len(VALUES[kind])}", call))
        text.append(f'println!("{name} {{:016x}}", hash);')
    return "\n".join(text + ["}\n"])


def put(folder, name, text):
    path = os.path.join(folder, name)
    os.makedirs(os.path.dirname(path), exist_ok=True)
    with open(path, "w", encoding="utf-8") as file:
        file.write(text)
    return path


def run(*command, **given):
    return subprocess.run(command, check=True, capture_output=True, text=True, **given).stdout


def build(folder):
    """The proved library, and what the calls answer as rustc builds them."""
    with open(SOURCE, encoding="utf-8") as file:
        source = file.read()
    crate = os.path.join(folder, "crates", "forms")
    put(folder, "crates.txt", "forms:\n")
    put(crate, "src/lib.rt", source)
    run("rt", "lib", cwd=crate)
    shutil.rmtree(os.path.join(folder, "rlib"), ignore_errors=True)
    shutil.copytree(os.path.join(crate, "out", "rlib"), os.path.join(folder, "rlib"))
    put(folder, "forms.h", header(source))
    put(folder, "calls.c", c_program(source))
    program = put(folder, "calls.rs", rust_program(source))
    run("rustc", "-O", "-C", "overflow-checks=on", "--edition", "2021", program, "-o", program[:-3])
    put(folder, "wanted", run(program[:-3]))


def check(folder, generator, rlibs):
    """The hashes of C that differ, or why there are none."""
    with open(os.path.join(folder, "wanted"), encoding="utf-8") as file:
        wanted = file.read().splitlines()
    try:
        text = run(sys.executable, "-B", os.path.join(generator, "generate.py"), "forms", "forms.h", "no kit", os.path.join(folder, "rlib"), *rlibs)
        c = put(folder, "forms.c", text)
        run("gcc", "-std=c99", "-O1", *STRICT, "-I", folder, "-c", c, "-o", c[:-2] + ".o")
        run("gcc", "-std=c99", "-O1", "-I", folder, c[:-2] + ".o", os.path.join(folder, "calls.c"), "-o", c[:-2])
        found = run(c[:-2], timeout=20).splitlines()
    except (subprocess.CalledProcessError, subprocess.TimeoutExpired) as error:
        return [(getattr(error, "stderr", "") or str(error))[:300]]
    return [line for line in wanted if line not in found] + [line for line in found if line not in wanted]


def main():
    command, folder, *given = sys.argv[1:]
    if command == "build":
        return build(folder)
    differ = check(folder, given[0], given[1:])
    print("\n".join(differ) if differ else "generic forms: C answers as Rust does")
    return sys.exit(bool(differ))


main()
