#!/usr/bin/env python3
"""Forms of MIR that the generator does not know must stop it by name: unknown.py LIBRARY RLIBS..

Each edit puts another form in the place of a known one, in the first function that the exported calls reach and that has it. The generator has to
stop, and to name the function and the form. Exit status 1 if one goes on, or if a form that is edited stands nowhere."""
import json
import os
import subprocess
import sys
import tempfile

HERE = os.path.dirname(os.path.abspath(__file__))
GENERATOR = os.path.join(os.path.dirname(HERE), "generator")
sys.path.insert(0, GENERATOR)
sys.dont_write_bytecode = True

from generate import c_file  # noqa: E402
from instances import Instances  # noqa: E402
from mir import Libraries, Unknown  # noqa: E402

EDITS = [  # what stands there, what to put there, and what the generator names
    ('"Shl"', '"Rotate"', "Rotate"), ('{"Shr": "Unsigned"}', '{"Shr": "Signed"}', "Shr Signed"), ('{"Div": "Unsigned"}', '{"Div": "Signed"}', "Div Signed"),
    ('{"Rem": "Unsigned"}', '{"Rem": "Signed"}', "Rem Signed"), ('"And"', '"Nand"', "Nand"), ('"Unsigned"', '"Wrapping"', "Wrapping"),
    ('"Op1": ["Not"', '"Op1": ["Neg"', "Neg"), ('"Cast": ["Unsigned"', '"Cast": ["Float"', "Cast"), ('{"Int": 8}', '{"Int": 128}', "128"),
    ('"Loop"', '"While"', "While"), ('{"Exit": 1}', '{"Exit": 9}', "Exit 9"), ('"Switch"', '"Match"', "Match"), ('"Block", "Loop"', '"Loop"', "Exit"),
    ('"Fn"', '"Closure"', "not direct"), ('{"Deref": {"Int": 8}}', '{"Deref": {"Int": 16}}', "16"), ('{"Variant": 0}', '{"Downcast": 0}', "Downcast"),
    ('"Aggregate"', '"Union"', "Union"), ('"AddrOf"', '"AddrOfMut"', "AddrOfMut"), ('"False"', '"Never"', "Never"), ('"Fields"', '"Opaque"', "Opaque"),
    ('"Variants"', '"Layers"', "Layers"), ('"params"', '"parameters"', "parameters"),
    ('{"Fn": ["', '{"Fn": ["gone::', "gone::"), ('"Lit"', '"Size"', "Size"),
    ('"&[]"', '"&str"', "&str"), ('"Imm"', '"Weak"', "Weak"), ('"MemorySlot"', '"Register"', "Register"),
    # parameters that are not given, or given and not asked for; impls; types that are cells; a constant that is lent
    ('{"types": [], "dicts": []}', '{"types": [{"Int": 8}], "dicts": []}', "types"), ('{"types": [], "dicts": []}', '{"types": []}', "a call with"),
    ('"generics": {"types": []', '"generics": {"types": [0]', "types"), ('"type_params": 0', '"type_params": 1', "two shapes"),
    ('{"types": [{"Int": 8}], "dicts"', '{"types": [], "dicts"', "types"), ('{"Int": 8}], "dicts"', '{"Param": 7}], "dicts"', "parameter 7"),
    ('"dicts": [{"Given": 0}', '"dicts": [{"Given": 7}', "impl 7"), ('"dicts": [{"Given": 0}', '"dicts": [{"Above": 0}', "impl Above"),
    ('{"Impl": ["core::clone::U8Clone"', '{"Impl": ["core::clone::U16Clone"', "16"),
    ('"core::clone::U8Clone", [], []', '"core::clone::U8Clone", [], [0]', "no form"),
    ('{"Method": [{"Given": 0}, 0', '{"Method": [{"Given": 0}, 5', "method 5"), ('"is_cell": false', '"is_cell": true', "is_cell"),
    ('"SizeOf"', '"AlignOf"', "AlignOf"), ('"LendStatic"', '"LendMut"', "LendMut"), ('"Ints"', '"Bools"', "Bools"),
    ('"values": [', '"values": [0, ', "values"), ('{"Deref": {"Array": [{"Int": 64}, {"Lit": 5}]}}', '{"Deref": {"Int": 32}}', "start"),
]


def said(libraries, library, old, new):
    """The function that was edited, and what the generator says then: nothing where it goes on. No function: the form stands nowhere."""
    instances, reached = Instances(libraries), []
    for name in sorted(libraries.exports(library)):
        instances.reached(instances.instance(name, [], []), reached, set(reached))
    order = list(dict.fromkeys(instances.path(name)[0] for name in reached))
    for name in order:
        text = json.dumps(libraries.functions[name])
        if old in text:
            kept, libraries.functions[name] = libraries.functions[name], json.loads(text.replace(old, new))
            try:
                c_file(libraries, library, "herbassolh.h", "no kit")
                return name, None
            except Unknown as unknown:
                return name, str(unknown)
            finally:
                libraries.functions[name] = kept
    return None, None


def main():
    library, folders = sys.argv[1], sys.argv[2:]
    libraries, bad = Libraries(folders), 0
    for old, new, named in EDITS:
        function, text = said(libraries, library, old, new)
        right = text is not None and named in text and (function in text or named == "gone::")
        bad += not right
        print(f"{old} -> {new} in {function}: {text or 'GOES ON'}"[:200] + ("" if right else "  WRONG"))
    # the program itself: its exit status, and nothing written
    with tempfile.TemporaryDirectory() as empty:
        run = subprocess.run([sys.executable, "-B", os.path.join(GENERATOR, "generate.py"), library, "herbassolh.h", "no kit", empty],
                             capture_output=True, text=True)
    bad += run.returncode != 1 or run.stdout != "" or not run.stderr.startswith("generate.py: ")
    print(f"{len(EDITS)} unknown forms and no libraries at all, {bad} not stopped by name")
    sys.exit(bad != 0)


main()
