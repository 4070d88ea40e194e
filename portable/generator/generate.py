#!/usr/bin/env python3
"""Writes the exported calls of a proved library as one freestanding C99 file: generate.py [--checked] LIBRARY HEADER KIT RLIBS.. >FILE.c

RLIBS are folders of built libraries (NAME.rlib), KIT what `rt version` says. From the exported functions of LIBRARY the file has all that their
calls reach, one C function, CRATE_FUNCTION, for one function of the MIR, and at the end the calls as HEADER declares them. The same input gives
the same file. A form of MIR that is not known here is named, and nothing is written: exit status 1. --checked: checked.py.

To read the generator: mir.py (reading), interface.py (names that MIR lacks), instances.py (generic functions made concrete), names.py (C's names),
c_types.py (types), rules.py (four rules that go beyond writing MIR down), expressions.py, flow.py, statements.py, header_calls.py (the exported
calls), and here the file."""
import sys

from c_types import Types
from checked import Checked, checks
from header_calls import HeaderCalls
from instances import Instances
from mir import Libraries, Unknown, crate_of
from statements import Function, wrapped

FIRST = """\
/* The calls of {header} in portable C, made by portable/ from the proved MIR of {library}: {functions} functions of {libraries} libraries.
 * MIR: SHA-256 {digest}
 *   of the mir.json of these libraries, one after the other:
{names}
 * Kit: {kit}
 * Calls:
{calls}
 */
#include "{header}"
"""

# The pragma stands for x86-64 alone: at -Os on Cortex-M0 GCC 12.2 is wrong where a file has any such pragma, and right without one.
START = """/* A fault of GCC 12.2 on x86-64: at -O2 four `0 < byte` are added up as 254 for 2. */
#if defined(__GNUC__) && !defined(__clang__) && defined(__x86_64__)
#pragma GCC optimize("no-tree-slp-vectorize")
#endif
"""

INLINED = """/* A small function, which its callers have in place of a call. */
#if defined(__GNUC__)
#define INLINED static inline __attribute__((always_inline))
#else
#define INLINED static inline
#endif
"""

SAME = """/* A member of the header's structs is as wide as the field. */
#define SAME(member, type) (void)sizeof(char[sizeof(member) == sizeof(type) ? 1 : -1])
"""

SIGNED_READING = """static int{0}_t signed{0}(uint{0}_t n)
{{
    return n <= INT{0}_MAX ? (int{0}_t)n : (int{0}_t)(-1 - (int{0}_t)(UINT{0}_MAX - n));
}}
"""


def listed(names):
    """Names in lines of a comment."""
    return "\n".join(" *   " + part.strip() for part in wrapped(" ".join(names)))


def c_file(libraries, library, header, kit, kind=Function):
    """The file's text."""
    instances = Instances(libraries)
    types, order, seen, functions, early, helpers, above = Types(instances), [], set(), [], [], set(), set()
    exported = libraries.exports(library)
    for name in sorted(exported):
        instances.reached(instances.instance(name, [], []), order, seen)
    for name in order:
        types.add_shapes(name)
    for name in order:
        above.add(name)
        try:
            function = kind(types, instances, name)
            early += [kind(types, instances, callee).head() + ";" for callee in sorted(set(instances.calls(name)) - above)]
            functions.append(function.write())
        except Unknown as unknown:
            raise Unknown(f"{name}: {unknown}") from unknown
        helpers |= function.helpers
    calls = HeaderCalls(types, instances)
    for name in exported:
        calls.call(name)
    crates = sorted({crate_of(name) for name in order})
    first = FIRST.format(header=header, library=library, functions=len(order), libraries=len(crates), digest=libraries.digest(crates),
                         names=listed(crates), kit=kit,
                         calls=listed(sorted(name.rsplit("::", 1)[1] for name in exported)))
    by_hand = [SIGNED_READING.format(width) for width in sorted(helpers | calls.helpers)]
    return "\n".join([first, START] + ["\n".join(checks()) + "\n"] * (kind is Checked) + [INLINED, SAME, "\n".join(types.text) + "\n"]
                     + by_hand + early + functions + calls.text)


def main():
    given = sys.argv[1:]
    kind = Checked if given[:1] == ["--checked"] else Function
    given = given[kind is Checked:]
    if len(given) < 4:
        sys.exit("generate.py [--checked] LIBRARY HEADER KIT RLIBS..")
    try:
        text = c_file(Libraries(given[3:]), *given[:3], kind)
    except Unknown as unknown:
        sys.exit(f"generate.py: {unknown}")
    sys.stdout.write(text)


if __name__ == "__main__":
    main()
