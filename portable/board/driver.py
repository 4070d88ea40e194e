#!/usr/bin/env python3
"""Writes what makes a call from bytes and sums its answer up, for every call of the header: driver.py HEADER >driver.h

The same file is compiled for the host, over the archive, and for the board. A case is the number of a call and its arguments: numbers, the least
significant byte first; lent bytes with their length in two bytes before them; of a buffer only its length. A struct that a call takes is the last
one of its type that came back; a claim, which none gives, is that of the last reading, with a meld for each 68 among its groups. Case 255 changes a byte of such a struct. An answer's sum is over every member of what comes back, the structs that
were lent, and the buffer with eight bytes after it; bytes between members are left out."""
import sys

from header import NUMBERS, Header

START = """/* Made by driver.py from the header. */
#include "herbassolh.h"

#define LARGEST {largest}
enum {{ CALLS = {calls} }};
static const char *const call_names[CALLS] = {{{names}}};

/* The case's next byte, the sum of the answer, and its refusal. */
static const uint8_t *next;
static uint32_t sum;
static uint32_t told;
static uint8_t buffer[LARGEST + 8];

static uint32_t take(int bytes)
{{
    uint32_t n = 0;
    for (int i = 0; i < bytes; i++) n |= (uint32_t)*next++ << (8 * i);
    return n;
}}
static void add(uint32_t n, int bytes)
{{
    for (int i = 0; i < bytes; i++) sum = (sum ^ (n >> (8 * i) & 255)) * 16777619u;
}}
static void fill(size_t len)
{{
    for (size_t i = 0; i < len + 8; i++) buffer[i] = 0xa5;
}}
static void add_buffer(size_t len)
{{
    for (size_t i = 0; i < len + 8; i++) add(buffer[i], 1);
}}
"""

END = """
static uint32_t answer(uint8_t call)
{{
    sum = 2166136261u;
    told = 0;
    switch (call) {{
{cases}
    case 255: {{
        uint8_t kind = (uint8_t)take(1), at = (uint8_t)take(1), by = (uint8_t)take(1);
{changes}
        break;
    }}
    }}
    return sum;
}}
"""


# of a struct that came back, what is kept beside it
CLAIM = """    uint8_t melds = 0;
    for (int i = 0; i < 4; i++) melds += x->shape == 0 && x->groups[i] == 68;
    last_HbClaim = (HbClaim){x->gain, x->shape, x->pair, {x->groups[0], x->groups[1], x->groups[2], x->groups[3]}, x->place, melds};"""
BESIDE = {"HbReading": [CLAIM]}


def sum_of(header, kind):
    """The function that sums a struct up, and keeps it where calls take such a one."""
    lines = [f"static void add_{kind}(const {kind} *x)", "{"]
    for name, t, length in header.structs[kind]:
        at = f"x->{name}" + ("[i]" if length else "")
        one = f"add_{t}(&{at});" if t in header.structs else f"add((uint32_t){at}, {NUMBERS[t]});"
        lines.append(f"    for (int i = 0; i < {length}; i++) {one}" if length else f"    {one}")
    return lines + [f"    last_{kind} = *x;"] * (kind in header.taken()) + BESIDE.get(kind, []) + ["}"]


def call_of(header, call):
    """The function that makes a call from a case."""
    before, given, after = [], [], []
    for p in call.parameters:
        if p.kind == "number":
            before.append(f"{p.type} {p.name} = ({p.type})take({NUMBERS[p.type]});")
            given.append(p.name)
        elif p.kind == "bytes":
            before += [f"size_t {p.name}_len = take(2);", f"const uint8_t *{p.name} = next;", f"next += {p.name}_len;"]
            given += [p.name, p.name + "_len"]
        elif p.kind == "buffer":
            if after and after[-1].startswith("add_buffer"):
                raise SystemExit(f"driver.py: {call.name} has two buffers")
            before += [f"size_t {p.name}_len = take(2);", f"fill({p.name}_len);"]
            given += ["buffer", p.name + "_len"]
            after.append(f"add_buffer({p.name}_len);")
        else:
            before.append(f"{p.type} {p.name} = last_{p.type};")
            given.append("&" * (p.kind == "pointer") + p.name)
            after += [f"add_{p.type}(&{p.name});"] * (p.kind == "pointer")
    result = [f"add_{call.result}(&result);"] if call.result in header.structs else [f"add((uint32_t)result, {NUMBERS[call.result]});"]
    refusal = "result" if call.result == "uint8_t" else "result.refusal" if any(m[0] == "refusal" for m in header.structs.get(call.result, ())) else None
    result += [f"told = {refusal};"] if refusal else []
    made = ["BEFORE();", f"{call.result} result = {call.name}({', '.join(given)});", "AFTER();"]
    return [f"static void make_{call.name}(void)", "{"] + ["    " + line for line in before + made + result + after] + ["}"]


def main():
    header = Header(sys.argv[1])
    names = ", ".join(f'"{call.name}"' for call in header.calls)
    print(START.format(largest=max(header.constants["HB_CARDS_MAX"], 2000), calls=len(header.calls), names=names))
    for kind in header.taken():
        print(f"static {kind} last_{kind};")
    for kind in header.structs:  # a struct is declared after those in it
        if kind in header.given():
            print("\n".join(sum_of(header, kind)))
    for call in header.calls:
        print("\n".join(call_of(header, call)))
    cases = "\n".join(f"    case {i}: make_{call.name}(); break;" for i, call in enumerate(header.calls))
    changed = [kind for kind in header.taken() if not header.has_size(kind)]
    changes = "\n".join(f"        if (kind == {i}) ((uint8_t *)&last_{kind})[at % sizeof last_{kind}] ^= by;" for i, kind in enumerate(changed))
    print(END.format(cases=cases, changes=changes))


main()
