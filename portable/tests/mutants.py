#!/usr/bin/env python3
"""Wrong generators must be found: mutants.py LIBRARY FORMS RLIBS..

Each edit makes a copy of the generator wrong in one place; the copy without an edit has to be right. It is found where the generator stops, gcc
with -Werror refuses the file, interface/tests/ fails or does not end, or small.py or forms.py fails, the latter with what it built in the folder
FORMS. Exit status 1 if one is not found."""
import glob
import os
import shutil
import subprocess
import sys
import tempfile

HERE = os.path.dirname(os.path.abspath(__file__))
ROOT = os.path.dirname(os.path.dirname(HERE))
GENERATOR = os.path.join(ROOT, "portable", "generator")
GCC = ["gcc", "-std=c99", "-I", os.path.join(ROOT, "include")]

EDITS = [
    # operations
    ("expressions", '"Lt": "<"', '"Lt": "<="'), ("expressions", '"Le": "<="', '"Le": "<"'), ("expressions", '"Eq": "=="', '"Eq": "!="'),
    ("expressions", '"Sub": "-"', '"Sub": "+"'), ("expressions", '"Div": "/"', '"Div": "%"'), ("expressions", '"And": "&"', '"And": "|"'),
    ("expressions", '"Shr": ">>"', '"Shr": "<<"'),
    # a signed comparison, a signed cast read as unsigned; no cut to the width; no brackets
    ("expressions", 'read = self.signed if sign == "Signed" else Value.inside', 'read = Value.inside'),
    ("expressions", "{self.signed(a) if sign == 'Signed' else a.inside()}", "{a.inside()}"),
    ("expressions", 'return Value(f"({self.types.c(a.type)})({text})", a.type)', 'return Value(text, a.type, loose=True)'),
    ("rules", 'return f"({self.text})" if self.loose else self.text', 'return self.text'),
    ("expressions", 'f"({self.types.c(a.type)})~{a.inside()}"', 'f"({self.types.c(a.type)}){a.inside()}"'), ("expressions", '"WrapAdd": "+"', '"WrapAdd": "-"'),
    # offsets in bytes taken for indices
    ("expressions", '{offset.number // size}', '{offset.number}'),
    ("expressions", "index = offset.times[1] if offset.times[0] == size", "index = offset.text if offset.times[0] == size"),
    # a sum of two constants as narrow as they are written; the sizes of arrays and of structs in MIR
    ("expressions", '"Add": operator.add', '"Add": lambda a, b: (a + b) % 2 ** 32'),
    ("c_types", 'return t[2] * size, align', 'return (t[2] + 1) * size, align'),
    ("c_types", '-(-end // least) * least + size, max(align, least)', 'end + size, align'),
    # rule 1: a call moved past a read; a value moved past another statement
    ("rules", 'if self.calls and self.reads > 1:', 'if False:'),
    ("rules", '        if self.pending:\n            self.keep(*self.pending)\n', ''),
    # rule 2: an argument lent though the call can write it, itself or through what a struct holds
    ("rules", 'if value.alone or (value.shared and writes):', 'if value.alone:'),
    ("c_types", 'return any(self.writes(f)', 'return False and any(self.writes(f)'),
    # rules 3 and 4: an array that is written taken for one only read; one that a raw pointer is made of
    ("rules", '        if wrongly:\n            del self.tables[within]\n            raise Again\n', ''),
    ("expressions", '        self.may_write(value.table, value.table is not None)\n', ''),
    # statements
    ("statements", 'parts = [("!" + value.inside(), s[3])]', 'parts = [(value.inside(), s[3])]'),
    ("statements", '{value.inside()} == {key}', '{value.inside()} != {key}'),
    ("statements", '"break;" if scope is self.loops[-1][0] else "continue;"', '"continue;" if scope is self.loops[-1][0] else "break;"'),
    ("statements", '"break;" if scope is self.loops[-1][0] else "continue;"', '"break;"'),
    # an exit over two loops or blocks taken for one of the innermost loop; a test with an arm that holds something left out
    ("statements", 'if self.loops and scope in self.loops[-1]:', 'if self.loops:'), ("flow", 'or any(parts)', 'or all(parts)'),
    # members, tags, constants
    ("expressions", 'self.types.members(kind)[content], self', 'self.types.members(kind)[content - 1], self'),
    ("expressions", '("at", ("ref", *kind[1:]))', '("len", ("ref", *kind[1:]))'), ("expressions", 'f".tag = {number}"', 'f".tag = {1 - number}"'),
    ("expressions", '", ".join([value.text] * length_of(content[1]))', '", ".join([value.text] * (length_of(content[1]) - 1))'),
    ("expressions", 'content["value"] % 2 ** content["width"]', 'content["value"] % 2 ** 31'),
    ("expressions", '"{{0}}" if value.number == 0 or value.text == "false"', '"{{0}}" if True'),
    # constants that are lent, the address behind one, a field of a struct that is the first of two
    ("rules", 'content["value"] % 2 ** t[1]', 'content["value"] % 2 ** 32'),
    ("rules", 'for number in content["values"]]', 'for number in content["values"][::-1]]'),
    ("expressions", 'value.text[1:] if value.text[0] == "&" else', ''),
    ("expressions", 'f"({value.text[1:]})" if value.text[:2] == "**" else ', ''),
    # generic functions: a type, an impl, a constant or a method that is not the one given; a drop that writes left out; types that have bytes
    ("instances", 'return self.types[number]', 'return self.types[0]'), ("instances", 'return given.impls[content]', 'return given.impls[0]'),
    ("instances", 'of, (impl, _) = content[2], self.impl(content[0], given)', 'of, (impl, _) = content[2], (given.impls or [self.impl(content[0], given)])[0]'),
    ("instances", 'self.instance(methods[number]', 'self.instance(methods[-1]'), ("instances", 'return {"Lit": number}', 'return {"Lit": number - 1}'),
    ("instances", 'return all(form(step)[0] == "Field" for step in content[0]["steps"])', 'return True'),
    ("instances", 'return content[0] is None or self.does_nothing(content[0])', 'return True'),
    ("instances", 'name = path + said(types, [impl for impl, _ in impls])', 'name = path + said(types)'),
    ("c_types", 'all(map(self.is_empty, self.shape(t)))', 'any(map(self.is_empty, self.shape(t)))'),
    ("c_types", 'return given[content]\n', 'return given[-1]\n'),
    # the header's structs
    ("header_calls", 'if ref and t[1] else []', 'if False else []'), ("header_calls", 'else f"signed{t[1]}({text})"', 'else "0"'),
    ("header_calls", 'return "size_t" if t == WORD else', 'return "uint32_t" if t == WORD else'),
]


def run(*command, out=None, seconds=600):
    """The exit status and the last line of a command; None without an end."""
    try:
        ended = subprocess.run(command, stdout=out or subprocess.PIPE, stderr=subprocess.PIPE, timeout=seconds)
    except subprocess.TimeoutExpired:
        return None, "no end"
    lines = (ended.stdout or b"").decode(errors="replace").strip().split("\n")
    return ended.returncode, lines[-1]


def found_by(generator, folder, test, library, forms, rlibs):
    """What finds a wrong generator, or None."""
    c, program = os.path.join(folder, "wrong.c"), os.path.join(folder, "wrong")
    with open(c, "w") as file:
        if run(sys.executable, "-B", os.path.join(generator, "generate.py"), library, "herbassolh.h", "no kit", *rlibs, out=file)[0] != 0:
            return "the generator"
    if run(*GCC, "-O1", "-Wall", "-Wextra", "-Wconversion", "-Werror", "-c", c, "-o", program + ".o")[0] != 0:
        return "gcc"
    run(*GCC, test, program + ".o", "-o", program)
    status, last = run(program, seconds=20)
    if status != 0:
        return f"interface/tests/: {last}"
    if run(sys.executable, "-B", os.path.join(HERE, "small.py"), generator)[0] != 0:
        return "small.py"
    return None if run(sys.executable, "-B", os.path.join(HERE, "forms.py"), "check", forms, generator, *rlibs)[0] == 0 else "forms.py"


def main():
    alive = 0
    with tempfile.TemporaryDirectory() as folder:
        test, generator = os.path.join(folder, "test.o"), os.path.join(folder, "portable", "generator")
        os.symlink(os.path.join(ROOT, "tools"), os.path.join(folder, "tools"))  # the generator reads layout.py there
        run(*GCC, "-r", "-nostdlib", *glob.glob(os.path.join(ROOT, "interface", "tests", "*.c")), "-o", test)
        shutil.copytree(GENERATOR, generator)
        library, forms, *rlibs = sys.argv[1:]
        found = found_by(generator, folder, test, library, forms, rlibs)
        if found:
            sys.exit(f"mutants.py: the generator itself is found wrong by {found}")
        for module, old, new in EDITS:
            shutil.rmtree(generator)
            shutil.copytree(GENERATOR, generator)
            path = os.path.join(generator, module + ".py")
            with open(path) as file:
                source = file.read()
            if source.count(old) != 1:
                sys.exit(f"mutants.py: {source.count(old)} places in {module}.py for {old!r}")
            with open(path, "w") as file:
                file.write(source.replace(old, new))
            found = found_by(generator, folder, test, library, forms, rlibs)
            alive += found is None
            print(f"{found or 'NOT FOUND'} | {module}: {old.strip()[:60]!r} -> {new.strip()[:60]!r}", flush=True)
    print(f"{len(EDITS)} wrong generators, {alive} not found")
    sys.exit(alive != 0)


main()
