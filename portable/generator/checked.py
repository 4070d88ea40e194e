"""The file with MIR's own conditions checked at every operation, for the sanitizers on a host.

A result of under 32 bits, a cast, and a signed sum, difference or product go through a function that aborts where MIR is undefined. Built with
clang -fsanitize=address,undefined,unsigned-integer-overflow -fno-sanitize-recover=all the rest is checked too: unsigned sums, divisors, shifts
and every index. A run that ends has met no undefined operation of the MIR: a test of the theorems, and of how the generator reads MIR."""
from mir import Unknown
from rules import Value
from statements import Function


class Checked(Function):
    """One function of the MIR in C, with its conditions checked."""

    def cast(self, sign, to, a, kind):
        return Value(f"CAST_{sign[0]}{to[0]}{kind[1]}({self.signed(a) if sign == 'Signed' else a.text})", kind)

    def arithmetic(self, name, sign, a, b):
        plain = super().arithmetic(name, sign, a, b)
        if name.startswith("Wrap"):
            return Value(f"{name.upper()}{a.type[1]}({a.text}, {b.text})", a.type)
        if sign == "Signed":
            if a.type[1] < 32:
                raise Unknown(f"signed {name} of {a.type[1]} bits")
            return Value(f"S{name.upper()}{a.type[1]}({self.signed(a)}, {self.signed(b)})", a.type)
        cut = f"({self.types.c(a.type)})"
        return plain if plain.loose else Value(f"CUT{a.type[1]}{plain.text[len(cut):]}", a.type)

    @staticmethod
    def unreachable():
        return ["abort();"]


def checks():
    """The functions that abort."""
    yield "#include <stdlib.h>"
    for w in (8, 16):
        yield f"static inline uint{w}_t CUT{w}(int64_t x) {{ if (x < 0 || x > UINT{w}_MAX) abort(); return (uint{w}_t)x; }}"
    for w in (8, 16, 32, 64):
        for name, kind, wrong in (("UU", "uint64_t", f"x > UINT{w}_MAX"), ("US", "uint64_t", f"x > INT{w}_MAX"),
                                  ("SU", "int64_t", f"x < 0 || (uint64_t)x > UINT{w}_MAX"), ("SS", "int64_t", f"x < INT{w}_MIN || x > INT{w}_MAX")):
            yield f"static inline uint{w}_t CAST_{name}{w}({kind} x) {{ if ({wrong}) abort(); return (uint{w}_t)x; }}"
    for w in (8, 16, 32, 64):
        for name in ("ADD", "SUB", "MUL"):
            body = f"uint{w}_t r; if (__builtin_{name.lower()}_overflow(a, b, &r)) return r; return r;"
            yield f"static inline uint{w}_t WRAP{name}{w}(uint{w}_t a, uint{w}_t b) {{ {body} }}"
    for w in (32, 64):
        for name in ("ADD", "SUB", "MUL"):
            body = f"int{w}_t r; if (__builtin_{name.lower()}_overflow(a, b, &r)) abort(); return (uint{w}_t)r;"
            yield f"static inline uint{w}_t S{name}{w}(int{w}_t a, int{w}_t b) {{ {body} }}"
