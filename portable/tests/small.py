#!/usr/bin/env python3
"""Functions that the proved code does not have, for the conditions of rules 1 and 2 and for what is lent: small.py GENERATOR

A library of MIR written by hand is put through the generator in the folder GENERATOR, compiled and run. In hb_lent a big argument is copied from
an array that the call writes through a slice; in hb_before and hb_after a byte is read before or after a call that writes it, and both are added.
hb_wide adds two constants whose sum has 33 bits; hb_rows writes one row of an array of arrays and reads it and the next. In hb_table and
hb_wide_table constant arrays are lent, of the first also a slice, whose pointer is used twice. hb_held is hb_lent with the slice in a struct of a
type with parameters. hb_escaped has a constant array written through a raw pointer that a generic function is given; hb_impls calls one generic
function with two impls; hb_dropped drops a value whose drop writes, and one whose drop does nothing; hb_left leaves a block from within a loop,
and its loop's turn from within a block; hb_not is a complement and a wrapping sum. Exit status 1 if an answer is wrong."""
import json
import os
import subprocess
import sys
import tempfile

INT8, INT64, PTR = {"Int": 8}, {"Int": 64}, "Ptr"
ARRAY = {"Array": [INT8, {"Lit": 16}]}
SLICE = {"Struct": ["&[]", [{"Ref": [{"Named": 0}, "Mut", INT8]}, INT64]]}
ROW = {"Array": [INT8, {"Lit": 4}]}
ROWS = {"Array": [ROW, {"Lit": 3}]}
ZERO, FIRST = {"Int": {"width": 64, "value": 0}}, {"Field": 0}


def place(local, *steps):
    return {"local": local, "steps": list(steps)}


def copy(local, *steps):
    return {"Copy": place(local, *steps)}


def assign(to, value):
    return {"Assign": [to if isinstance(to, dict) else place(to), value]}


def call(name, to, *given):
    return call_of(f"small::{name}", {"types": [], "dicts": []}, to, *given)


def call_of(path, of, to, *given):
    """A call of a function of any library, for some types and traits."""
    return {"Call": [{"Fn": [path, of]}, list(given), place(to)]}


def add(a, b):
    return {"Op2": [{"Add": "Unsigned"}, copy(a), copy(b)]}


def first(pointer, of):
    """A raw pointer to the first byte behind an operand."""
    return assign(pointer, {"Op2": ["Offset", of, ZERO]})


def lend(to, width, *numbers):
    """A constant array that is lent."""
    return {"LendStatic": [place(to), {"Array": [{"Int": width}, {"Lit": len(numbers)}]}, {"Ints": {"width": width, "values": list(numbers)}}]}


def byte(n):
    return {"Opd": {"Int": {"width": 8, "value": n}}}


def function(parameters, kinds, slots, *statements, types=0, bounds=(), method_of=None, impls=(), declared=()):
    """A function of so many parameters; the kinds of its locals, the result first, and which of them are memory."""
    flat = any(isinstance(s, str) for s in statements)  # prefix code already, all but its first statement and its end
    body = ["Seq", *statements, "Return"] if flat else [part for s in statements for part in ("Seq", s)] + ["Return"]
    locals_ = [{"ty": kind, "home": "MemorySlot" if i in slots else "ValueLocal"} for i, kind in enumerate(kinds)]
    types = [{"is_copy": False, "is_kept": False, "const_bits": None}] * types
    generics = {"types": types, "outlives": [], "bounds": list(bounds), "method_of": method_of, "trait_lifetimes": 0, "impls": list(impls)}
    return {"lifetimes": 1, "outlives": [], "params": parameters, "generics": generics, "types": list(declared), "locals": locals_, "body": body}


def named(name, *types):
    return {"Named": [{"name": f"small::{name}", "lifetimes": []}, list(types)]}


def struct(name, count, *fields):
    """What a function says of a struct with so many parameters."""
    return {"name": f"small::{name}", "lifetimes": 0, "bounds": [], "type_params": count, "const_params": [], "type_bounds": [], "owns": False,
            "is_cell": False, "is_tuple": False, "shape": {"Fields": list(fields)}}


def impl(name, of, kind, method):
    """An impl of a trait for a type, with one method."""
    return {"name": f"small::{name}", "lifetimes": 0, "outlives": [], "types": [], "type_outlives": [], "bounds": [],
            "of": {"of": of, "lifetimes": [], "types": [kind]}, "methods": [f"small::{name}::{method}"]}


def given(*types, impls=()):
    """What a call of a generic function gives it."""
    return {"types": list(types), "dicts": [{"Impl": [f"small::{name}", [], []]} for name in impls]}


def number(n):
    return {"Int": {"width": 64, "value": n}}


def row_of(rows, offset, pointers):
    """A raw pointer, the second, to the row so many bytes on."""
    return assign(pointers[0], {"AddrOf": place(rows)}), assign(pointers[1], {"Op2": ["Offset", copy(pointers[0]), number(offset)]})


def first_of(row, slot, pointers, to):
    """The first byte of the row that a raw pointer points to."""
    return (assign(slot, {"Opd": copy(row, {"Deref": ROW})}), assign(pointers[0], {"AddrOf": place(slot)}), first(pointers[1], copy(pointers[0])),
            assign(to, {"Opd": copy(pointers[1], DEREF)}))


DEREF = {"Deref": INT8}
LENT_ROW, LENT_BYTE = {"Ref": ["Erased", "Imm", ROW]}, {"Ref": ["Erased", "Imm", INT8]}
LENT_SLICE = {"Struct": ["&[]", [LENT_BYTE, INT64]]}
WIDE = {"Array": [INT64, {"Lit": 3}]}
HELD, GUARD, NONE = named("Held", SLICE), named("Guard"), named("None")
SHAPES = [struct("Held", 1, {"Param": 0}), struct("Guard", 0, {"Ref": ["Erased", "Mut", INT8]}), struct("None", 0)]
NUM, DROP = "small::Num", "core::marker::Destruct"
IMPLS = [impl("A", NUM, INT8, "num"), impl("B", NUM, INT8, "num"), impl("GuardDrop", DROP, GUARD, "drop"), impl("NoneDrop", DROP, NONE, "drop")]
P0 = {"Param": 0}
MIR = [
    # fn first_after(buf, big) -> u8 { buf[0] = 9; big[0] }
    ("first_after", function(2, [INT8, SLICE, ARRAY, ARRAY, PTR, PTR, PTR], {3},
                             first(4, copy(1, FIRST)), assign(place(4, DEREF), byte(9)), assign(3, {"Opd": copy(2)}),
                             assign(5, {"AddrOf": place(3)}), first(6, copy(5)), assign(0, {"Opd": copy(6, DEREF)}))),
    # fn nine(buf) -> u8 { buf[0] = 9; 1 }
    ("nine", function(1, [INT8, SLICE, PTR], set(), first(2, copy(1, FIRST)), assign(place(2, DEREF), byte(9)), assign(0, byte(1)))),
    # fn hb_lent(x) -> u8 { let mut a = [x; 16]; first_after(&mut a, a) }, the copy made before the call
    ("hb_lent", function(1, [INT8, INT8, ARRAY, PTR, SLICE, ARRAY], {2},
                         assign(2, {"Repeat": [copy(1), {"Lit": 16}]}), assign(3, {"AddrOf": place(2)}),
                         assign(4, {"Aggregate": [copy(3), {"Int": {"width": 64, "value": 16}}]}), assign(5, {"Opd": copy(2)}),
                         call("first_after", 0, copy(4), copy(5)))),
    # fn hb_before(buf) -> u8 { buf[0] + nine(buf) }, the byte read first; hb_after: the call made first
    ("hb_before", function(1, [INT8, SLICE, PTR, INT8, INT8], set(),
                           first(2, copy(1, FIRST)), assign(3, {"Opd": copy(2, DEREF)}), call("nine", 4, copy(1)), assign(0, add(3, 4)))),
    ("hb_after", function(1, [INT8, SLICE, PTR, INT8, INT8], set(),
                          call("nine", 4, copy(1)), first(2, copy(1, FIRST)), assign(3, {"Opd": copy(2, DEREF)}), assign(0, add(3, 4)))),
    # fn hb_wide() -> u64 { 4294967295 + 1 }
    ("hb_wide", function(0, [INT64], set(), assign(0, {"Op2": [{"Add": "Unsigned"}, number(4294967295), number(1)]}))),
    # fn hb_rows(x) -> u8 { let mut a = [[x; 4]; 3]; a[1] = [9; 4]; a[1][0] + a[2][0] }
    ("hb_rows", function(1, [INT8, INT8, ROW, ROWS, ROW, ROW, ROW, INT8, INT8] + [PTR] * 10, {3, 5, 6},
                         assign(2, {"Repeat": [copy(1), {"Lit": 4}]}), assign(3, {"Repeat": [copy(2), {"Lit": 3}]}),
                         assign(4, {"Repeat": [byte(9)["Opd"], {"Lit": 4}]}),
                         *row_of(3, 4, (9, 10)), assign(place(10, {"Deref": ROW}), {"Opd": copy(4)}),
                         *row_of(3, 4, (11, 12)), *first_of(12, 5, (13, 14), 7), *row_of(3, 8, (15, 16)), *first_of(16, 6, (17, 18), 8),
                         assign(0, add(7, 8)))),
    # fn last(s) -> u8 { s[3] }
    ("last", function(1, [INT8, LENT_SLICE, PTR], set(), assign(2, {"Op2": ["Offset", copy(1, FIRST), number(3)]}), assign(0, {"Opd": copy(2, DEREF)}))),
    # fn hb_table(i) -> u8 { let t = &[3, 200, 7, 9]; t[i] + t[0] + last(t) }
    ("hb_table", function(1, [INT8, INT64, LENT_ROW, PTR, PTR, INT8, LENT_BYTE, INT8, LENT_SLICE, INT8, INT8], set(),
                          lend(2, 8, 3, 200, 7, 9), assign(3, {"AddrOf": place(2, {"Deref": ROW})}), assign(4, {"Op2": ["Offset", copy(3), copy(1)]}),
                          assign(5, {"Opd": copy(4, DEREF)}), assign(6, {"AddrOf": place(2, DEREF)}), assign(7, {"Opd": copy(6, DEREF)}),
                          assign(8, {"Aggregate": [copy(6), number(4)]}), call("last", 9, copy(8)), assign(10, add(5, 7)), assign(0, add(10, 9)))),
    # fn hb_wide_table(i) -> u64 { (&[1, 2^64 - 2, 5])[i] }
    ("hb_wide_table", function(1, [INT64, INT64, {"Ref": ["Erased", "Imm", WIDE]}, PTR, PTR, INT64], set(),
                               lend(2, 64, 1, 2 ** 64 - 2, 5), assign(3, {"AddrOf": place(2, {"Deref": WIDE})}),
                               assign(5, {"Op2": [{"Mul": "Unsigned"}, copy(1), number(8)]}), assign(4, {"Op2": ["Offset", copy(3), copy(5)]}),
                               assign(0, {"Opd": copy(4, {"Deref": INT64})}))),
    # fn held_after(held, big) -> u8 { held.0[0] = 9; big[0] }; hb_held(x) is hb_lent over it
    ("held_after", function(2, [INT8, HELD, ARRAY, ARRAY, PTR, PTR, PTR], {3},
                            first(4, copy(1, FIRST, FIRST)), assign(place(4, DEREF), byte(9)), assign(3, {"Opd": copy(2)}),
                            assign(5, {"AddrOf": place(3)}), first(6, copy(5)), assign(0, {"Opd": copy(6, DEREF)}), declared=SHAPES)),
    ("hb_held", function(1, [INT8, INT8, ARRAY, PTR, SLICE, ARRAY, HELD], {2},
                         assign(2, {"Repeat": [copy(1), {"Lit": 16}]}), assign(3, {"AddrOf": place(2)}),
                         assign(4, {"Aggregate": [copy(3), number(16)]}), assign(5, {"Opd": copy(2)}), assign(6, {"Aggregate": [copy(4)]}),
                         call("held_after", 0, copy(6), copy(5)), declared=SHAPES)),
    # fn put<T>(at, x: T) { *at = x }
    ("put", function(2, ["Unit", "Ptr", P0], set(), assign(place(1, {"Deref": P0}), {"Opd": copy(2)}), types=1)),
    # fn hb_escaped(x) -> u8 { let a = [3; 4]; put(&a, x); a[0] }
    ("hb_escaped", function(1, [INT8, INT8, ROW, PTR, PTR, "Unit", PTR, PTR], {2},
                            assign(2, {"Repeat": [byte(3)["Opd"], {"Lit": 4}]}), assign(3, {"AddrOf": place(2)}), first(4, copy(3)),
                            call_of("small::put", given(INT8), 5, copy(4), copy(1)), assign(6, {"AddrOf": place(2)}), first(7, copy(6)),
                            assign(0, {"Opd": copy(7, DEREF)}))),
    # fn num_of<T: Num>() -> u8 { T::num() }; hb_impls() -> u8: twice that of u8, by two impls
    ("A::num", function(0, [INT8], set(), assign(0, byte(5)), method_of={"Impl": ["small::A", 0]})),
    ("B::num", function(0, [INT8], set(), assign(0, byte(70)), method_of={"Impl": ["small::B", 0]})),
    ("num_of", function(0, [INT8], set(), {"Call": [{"Method": [{"Given": 0}, 0, given()]}, [], place(0)]}, types=1,
                        bounds=[{"of": NUM, "lifetimes": [], "types": [P0]}])),
    ("hb_impls", function(0, [INT8, INT8, INT8, INT8], set(), call_of("small::num_of", given(INT8, impls=["A"]), 1),
                          call_of("small::num_of", given(INT8, impls=["B"]), 2),
                          assign(3, {"Op2": [{"Mul": "Unsigned"}, copy(2), byte(2)["Opd"]]}), assign(0, add(1, 3)), impls=IMPLS)),
    # hb_dropped(buf) -> u8 { drop(None); drop(Guard(&mut buf[0])); buf[0] }, where the drop of Guard writes 8
    ("GuardDrop::drop", function(1, ["Unit", GUARD], set(), assign(place(1, FIRST, DEREF), byte(8)), method_of={"Impl": ["small::GuardDrop", 0]},
                                 declared=SHAPES)),
    ("NoneDrop::drop", function(1, ["Unit", NONE], set(), assign(0, {"Opd": "Unit"}), method_of={"Impl": ["small::NoneDrop", 0]}, declared=SHAPES)),
    ("drop_it", function(1, ["Unit", P0], set(), {"Call": [{"Method": [{"Given": 0}, 0, given()]}, [copy(1)], place(0)]}, types=1,
                         bounds=[{"of": DROP, "lifetimes": [], "types": [P0]}])),
    ("hb_dropped", function(1, [INT8, SLICE, NONE, PTR, {"Ref": ["Erased", "Mut", INT8]}, GUARD, "Unit", PTR], set(),
                            assign(2, {"Aggregate": []}), call_of("small::drop_it", given(NONE, impls=["NoneDrop"]), 6, copy(2)),
                            first(3, copy(1, FIRST)), assign(4, {"AddrOf": place(3, DEREF)}), assign(5, {"Aggregate": [copy(4)]}),
                            call_of("small::drop_it", given(GUARD, impls=["GuardDrop"]), 6, copy(5)),
                            first(7, copy(1, FIRST)), assign(0, {"Opd": copy(7, DEREF)}), impls=IMPLS, declared=SHAPES)),
    # fn hb_not(x) -> u8 { (!x).wrapping_add(9) }
    ("hb_not", function(1, [INT8, INT8, INT8], set(), assign(2, {"Op1": ["Not", copy(1)]}),
                        assign(0, {"Op2": ["WrapAdd", copy(2), byte(9)["Opd"]]}))),
    # hb_left(n) -> u8: { let mut i = 0; 'b: { loop { if i == n { break 'b } 't: { if i == 2 { break 't }; if i == 5 { break } } i += 1 } i = 100 } i }
    ("hb_left", function(1, [INT8, INT8, INT8, "Bool"], set(), assign(2, byte(0)),
                         *["Seq", "Block", "Seq", "Block", "Loop",
                           "Seq", assign(3, {"Op2": ["Eq", copy(2), copy(1)]}), "Seq", {"If": copy(3)}, {"Exit": 2}, "Skip",
                           "Seq", "Block", "Seq", assign(3, {"Op2": ["Eq", copy(2), byte(2)["Opd"]]}), "Seq", {"If": copy(3)}, {"Exit": 0}, "Skip",
                           "Seq", assign(3, {"Op2": ["Eq", copy(2), byte(5)["Opd"]]}), {"If": copy(3)}, {"Exit": 2}, "Skip",
                           assign(2, {"Op2": [{"Add": "Unsigned"}, copy(2), byte(1)["Opd"]]}), assign(2, byte(100))],
                         "Seq", assign(0, {"Opd": copy(2)}))),
]
INTERFACE = """fn first_after ( buf : & mut [ u8 ] , big : [ u8 ; 16 ] ) -> u8 ;
fn nine ( buf : & mut [ u8 ] ) -> u8 ;
pub fn hb_lent ( x : u8 ) -> u8 ;
pub fn hb_before ( buf : & mut [ u8 ] ) -> u8 ;
pub fn hb_after ( buf : & mut [ u8 ] ) -> u8 ;
pub fn hb_wide ( ) -> u64 ;
pub fn hb_rows ( x : u8 ) -> u8 ;
fn last ( s : & [ u8 ] ) -> u8
    requires { 3 < length s.now }
    ensures { result ≡ get_or s.now 3 0 } ;
pub fn hb_table ( i : usize ) -> u8 ;
pub fn hb_wide_table ( i : usize ) -> u64 ;
pub fn hb_held ( x : u8 ) -> u8 ;
pub fn hb_escaped ( x : u8 ) -> u8 ;
pub fn hb_impls ( ) -> u8 ;
pub fn hb_dropped ( buf : & mut [ u8 ] ) -> u8 ;
pub fn hb_not ( x : u8 ) -> u8 ;
pub fn hb_left ( n : u8 ) -> u8 ;
"""
HEADER = """#include <stdbool.h>
#include <stddef.h>
#include <stdint.h>
uint8_t hb_lent(uint8_t x);
uint8_t hb_before(uint8_t *buf, size_t buf_len);
uint8_t hb_after(uint8_t *buf, size_t buf_len);
uint64_t hb_wide(void);
uint8_t hb_rows(uint8_t x);
uint8_t hb_table(size_t i);
uint64_t hb_wide_table(size_t i);
uint8_t hb_held(uint8_t x);
uint8_t hb_escaped(uint8_t x);
uint8_t hb_impls(void);
uint8_t hb_dropped(uint8_t *buf, size_t buf_len);
uint8_t hb_not(uint8_t x);
uint8_t hb_left(uint8_t n);
"""
MAIN = """#include "small.h"
int main(void)
{
    uint8_t a[1] = {5}, b[1] = {5}, c[1] = {5};
    return !(hb_lent(1) == 1 && hb_before(a, 1) == 6 && a[0] == 9 && hb_after(b, 1) == 10 && hb_wide() == UINT64_C(4294967296) &&
             hb_rows(3) == 12 && hb_table(1) == 212 && hb_table(2) == 19 && hb_wide_table(1) == UINT64_MAX - 1 &&
             hb_wide_table(2) == 5 && hb_held(1) == 1 && hb_escaped(7) == 7 && hb_impls() == 145 && hb_dropped(c, 1) == 8 &&
             hb_not(0) == 8 && hb_not(200) == 64 && hb_left(4) == 4 && hb_left(6) == 100);
}
"""


def main():
    with tempfile.TemporaryDirectory() as folder:
        def put(path, text):
            os.makedirs(os.path.dirname(os.path.join(folder, path)), exist_ok=True)
            with open(os.path.join(folder, path), "w", encoding="utf-8") as file:
                file.write(text)
        put("small.rlib/toolchain/mir.json", json.dumps([(f"small::{name}", node) for name, node in MIR]))
        put("small.rlib/lang/src/lib.rt", INTERFACE)
        put("small.h", HEADER)
        put("main.c", MAIN)
        made = subprocess.run([sys.executable, "-B", os.path.join(sys.argv[1], "generate.py"), "small", "small.h", "no kit", folder],
                              capture_output=True, text=True)
        put("small.c", made.stdout)
        program = os.path.join(folder, "small")
        built = made.returncode == 0 and subprocess.run(["gcc", "-std=c99", "-O1", "-Wall", "-Wextra", "-Wconversion", "-Werror", "-I", folder, program + ".c",
                                                         os.path.join(folder, "main.c"), "-o", program]).returncode == 0
        right = built and subprocess.run([program]).returncode == 0
        print(f"functions that the code does not have: {'right' if right else 'WRONG' if built else 'NOT WRITTEN ' + made.stderr}")
        sys.exit(not right)


main()
