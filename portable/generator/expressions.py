"""Places, operands and values.

An operation of MIR is undefined where its result does not fit the width, the divisor is 0, the shift is too far or the access lies out of
bounds, and the proofs say that no call gets there. So what is undefined in the C that stands for it is not met either, and where C is defined
and MIR is not, any result is right.
- Sums, differences and products are those of unsigned numbers, cut to N bits: of a result that fits, signed or not, these are its bits. C makes
  operands of under 32 bits `int`; products and left shifts of those are made in 32 bits without sign, the rest fits in `int`.
- Of two constants the sum, difference or product is written as the constant that it is, at the operation's own width.
- A signed comparison or cast reads its operands with signedN, which is defined for all bits.
- A raw pointer is mostly an index: the address of an array, an offset in bytes, an access. It is written `array.at[index]`, so that a compiler's
  checks know the array, and the C compiler lays out the elements: the offset is the index times the element's size in MIR (Types.layout)."""
import operator
from dataclasses import replace

from c_types import BOOL, BYTE, PTR, UNIT, WORD, length_of, type_of
from instances import through
from mir import Unknown, form
from rules import Locals, Pointer, Value

ARITHMETIC = {"Add": "+", "Sub": "-", "Mul": "*", "Div": "/", "Rem": "%", "And": "&", "Or": "|", "Xor": "^", "Shl": "<<", "Shr": ">>"}
ARITHMETIC |= {"WrapAdd": "+", "WrapSub": "-", "WrapMul": "*"}
COMPARISON = {"Eq": "==", "Ne": "!=", "Lt": "<", "Le": "<="}
FOLDED = {"Add": operator.add, "Sub": operator.sub, "Mul": operator.mul}  # of two constants
DECIDED = {"Eq": operator.eq, "Ne": operator.ne, "Lt": operator.lt, "Le": operator.le}
SIGNED = {"Add", "Sub", "Mul", "Lt", "Le"}  # what is known with the sign Signed


class Expressions(Locals):
    """What stands in the statements of one function."""

    # ---- places

    def place(self, node, writes=False):
        """A local and the steps from it; writes: it is assigned to."""
        if writes and not through(node) and node["local"] not in self.kept:
            self.keep(node["local"])
        value = self.read(node["local"])
        if value.alone and node["steps"]:
            self.keep(node["local"])
        for step in node["steps"]:
            name, content = form(step)
            if name == "Deref":
                pointer = self.pointer(value, type_of(content))
                value = Value(self.element(pointer), pointer.element, shared=True, mutable=pointer.mutable, within=pointer.table)
            elif isinstance(value, Pointer):
                raise Unknown(f"step {name} {content} at a raw pointer")
            else:
                value = self.member(value, *self.field(value.type, name, content))
        if writes:
            self.may_write(value.within, not value.mutable)
        return value

    def field(self, kind, name, content):
        """The member and the type that a step finds in a value."""
        if name == "Field" and kind[0] == "slice":
            return (("at", ("ref", *kind[1:])), ("len", WORD))[content]
        if name == "Variant" and self.types.is_enum(kind):
            return "", ("variant", kind, content)
        if name == "Field" and kind[0] == "variant":
            _, enum, number = kind
            if content == 0:
                return "tag", BYTE
            return f"as.{self.types.members(enum)[number]}.f{content - 1}", self.types.shape(enum)[number][content - 1]
        if name == "Field" and kind[0] == "named" and not self.types.is_enum(kind):
            return self.types.members(kind)[content], self.types.shape(kind)[content]
        raise Unknown(f"step {name} {content} at a value of type {kind}")

    def kind_of(self, node):
        """The type of a place."""
        kind = self.kinds[node["local"]]
        for step in node["steps"]:
            name, content = form(step)
            kind = type_of(content) if name == "Deref" else self.field(kind, name, content)[1]
        return kind

    @staticmethod
    def behind(value):
        """What a reference points to."""
        return value.text[1:] if value.text[0] == "&" else "*" + value.inside()

    @staticmethod
    def at(value):
        """The address of a place."""
        return value.text[1:] if value.text[0] == "*" else "&" + value.text

    @staticmethod
    def member(value, name, kind):
        """A member of a value, by its name; none: the value itself, as a variant."""
        inner = f"({value.text[1:]})" if value.text[:2] == "**" else value.text[1:]
        text = (inner + "->" if value.text[0] == "*" else value.text + ".") + name if name else value.text
        return Value(text, kind, shared=value.shared, mutable=value.mutable, within=value.within)

    # ---- pointers

    def element(self, pointer):
        """What a raw pointer points to."""
        offset, start = pointer.offset, pointer.start
        if offset is None:
            return self.behind(Value(start, PTR))
        size, _ = self.types.layout(pointer.element)
        if size == 0 or (offset.number or 0) % size or offset.times[0] % size:
            raise Unknown(f"{offset.text} bytes on to an element of type {pointer.element}, of {size} bytes")
        index = offset.times[1] if offset.times[0] == size else offset.text if size == 1 else f"{offset.inside()} / {size}"
        if offset.number is not None:
            index = f"{offset.number // size}"
        return f"({start})[{index}]" if start[0] == "&" else f"{start}[{index}]"

    def address(self, node, kind):
        """A place's address."""
        place = self.place(node)
        if isinstance(place, Pointer) or place.alone:
            raise Unknown("the address of a value that is no place")
        self.may_write(place.within, kind[0] == "ref" and kind[1] and not place.mutable)
        value = Value(self.at(place), ("ref", place.mutable, place.type), table=place.within)
        return self.pointer(value, self.pointee or place.type) if kind == PTR else value

    def pointer(self, value, element):
        """A raw pointer to elements of a type: one itself, one to void read so, or a reference to what has them at its start."""
        if isinstance(value, Pointer):
            if value.element == element:
                return value
            if value.offset is not None:
                raise Unknown(f"a {element} behind a pointer to {value.element}")
            value = Value(value.start, ("ref", value.mutable, value.element), table=value.table)
        if value.type == PTR:
            return Pointer(f"(({self.types.c(('ref', True, element))}){value.inside()})", True, element)
        return self.start(value, element)

    def start(self, value, element):
        """A reference as a raw pointer: to the first element of the array behind it, or to what is behind it."""
        if value.type[0] != "ref":
            raise Unknown(f"a raw pointer from a {value.type}")
        if value.type[2] == element:
            return Pointer(value.text, value.type[1], element, table=value.table)
        place = Value(self.behind(value), value.type[2])
        while place.type != ("array", element, place.type[-1]):
            if place.type[0] == "named" and not self.types.is_enum(place.type) and len(self.types.shape(place.type)) == 1:
                place = self.member(place, *self.field(place.type, "Field", 0))
            elif place.type[0] == "array":
                place = Value(self.member(place, "at", UNIT).text + "[0]", place.type[1])
            else:
                raise Unknown(f"a {element} at the start of a {value.type}")
            if place.type == element:
                return Pointer(self.at(place), value.type[1], element, table=value.table)
        return Pointer(self.member(place, "at", UNIT).text, value.type[1], element, table=value.table)

    def offset(self, start, offset):
        """A raw pointer so many bytes on. Its elements are those that it is used for, or whose size the offset counts."""
        found = self.pointee or offset.sized
        if not found and not isinstance(start, Pointer) and start.type == PTR:
            raise Unknown("an offset from a raw pointer to what is not known")
        if not found:
            kind = start.element if isinstance(start, Pointer) else start.type[2]
            found = kind[1] if kind[0] == "array" else kind
        pointer = self.pointer(start, found)
        if pointer.offset is not None:
            raise Unknown("an offset of an offset")
        return Pointer(pointer.start, pointer.mutable, pointer.element, offset, pointer.table)

    def plain(self, value):
        """A value that is handed on. A raw pointer is then one to void, through which anyone can write."""
        if not isinstance(value, Pointer):
            return value
        self.may_write(value.table, value.table is not None)
        return Value("(void *)" + self.at(Value(self.element(value), PTR)), PTR)

    # ---- operands and values

    def operand(self, node):
        name, content = form(node)
        if name == "Copy":
            return self.place(content)
        if name == "Int":
            return self.constant(type_of({"Int": content["width"]}), content["value"] % 2 ** content["width"])
        if name in ("True", "False"):
            return Value(name.lower(), BOOL)
        if name == "SizeOf":
            size = self.constant(WORD, self.types.layout(type_of(content))[0])
            return replace(size, sized=type_of(content))
        raise Unknown(f"operand {name}")

    @staticmethod
    def constant(kind, number):
        return Value(f"UINT64_C({number})" if number >= 2 ** 32 else f"{number}{'u' * (kind[1] >= 32)}", kind, number=number)

    def value(self, node, kind):
        """The value that is assigned to a place of type `kind`."""
        name, content = form(node)
        if name == "Opd":
            return self.operand(content)
        if name == "AddrOf":
            return self.address(content, kind)
        if name in ("Aggregate", "Repeat"):
            return Value(f"({self.types.c(kind)}){self.braces(kind, name, content)}", kind)
        if name in ("Op1", "Op2"):
            operation, *operands = content
            return self.operation(*form(operation), *[self.operand(x) for x in operands])
        raise Unknown(f"value {name}")

    def braces(self, kind, name, content):
        """The initializer of an array, a slice, a struct or an enum."""
        if name == "Repeat":
            value = self.operand(content[0])
            if value.alone:
                self.keep(*self.calls)
            return "{{0}}" if value.number == 0 or value.text == "false" else "{{" + ", ".join([value.text] * length_of(content[1])) + "}}"
        if kind[0] == "slice":
            pointer, length = self.pointer(self.operand(content[0]), kind[2]), self.operand(content[1])
            self.may_write(pointer.table, kind[1] and not pointer.mutable)
            start = pointer.start if pointer.offset is None else self.at(Value(self.element(pointer), PTR))
            return f"{{{start}, {length.text}}}"
        return self.filled(kind, content, lambda _, node: self.plain(self.operand(node)).text)

    def filled(self, kind, nodes, text):
        """The initializer of an array, a struct or an enum, whose nodes begin with the tag; text: that of a node. What has no bytes is left out."""
        if self.types.is_enum(kind):
            number, nodes = nodes[0]["Int"]["value"], nodes[1:]
            fields, head = self.types.shape(kind)[number], f".as.{self.types.members(kind)[number]}.f"
        else:
            fields = [kind[1]] * kind[2] if kind[0] == "array" else self.types.shape(kind)
        if len(nodes) != len(fields):
            raise Unknown(f"{len(nodes)} values of {len(fields)}")
        values = [(i, text(field, node)) for i, (field, node) in enumerate(zip(fields, nodes)) if not self.types.is_empty(field)]
        if self.types.is_enum(kind):
            return "{" + ", ".join([f".tag = {number}"] + [f"{head}{i} = {value}" for i, value in values]) + "}"
        inner = "{" + ", ".join(value for _, value in values) + "}"
        return "{" + inner + "}" if kind[0] == "array" else inner

    # ---- operations

    def operation(self, name, sign, a, b=None):
        if b is None and name == "Not" and a.type == BOOL:
            return Value("!" + a.inside(), BOOL)
        if b is None and name == "Not" and a.type[0] == "int":
            return Value(f"({self.types.c(a.type)})~{a.inside()}", a.type)
        if b is None and name == "Cast" and sign[0] in ("Unsigned", "Signed"):
            return self.cast(*sign[:2], a, type_of({"Int": sign[2]}))
        if name == "Offset":
            return self.offset(a, b)
        known = name in SIGNED if sign == "Signed" else sign in (None, "Unsigned") and (name in ARITHMETIC or name in COMPARISON)
        if b is not None and known and a.type == b.type and a.number is not None and b.number is not None and sign != "Signed":
            # of two constants the result is one too: C would make it as wide as they are written
            number = FOLDED[name](a.number, b.number) if name in FOLDED else -1
            if 0 <= number < 2 ** a.type[1]:
                return replace(self.constant(a.type, number), sized=a.sized or b.sized)
            if name in DECIDED:
                return Value(str(DECIDED[name](a.number, b.number)).lower(), BOOL)
        if b is None or not known or a.type != b.type or (a.number is not None and b.number is not None):
            raise Unknown(f"operation {name} {sign} on {a.text} and {b and b.text}")
        if name in COMPARISON:
            read = self.signed if sign == "Signed" else Value.inside
            return Value(f"{read(a)} {COMPARISON[name]} {read(b)}", BOOL, loose=True, alone=sign == "Signed")
        return self.arithmetic(name, sign, a, b)

    def signed(self, value):
        """A value read as a signed number."""
        if value.number is not None:
            return str(value.number - (value.number >> value.type[1] - 1 << value.type[1]))
        self.helpers.add(value.type[1])
        return f"signed{value.type[1]}({value.text})"

    def cast(self, sign, to, a, kind):
        """A number of one sign as one of another width. C's conversion of a number that fits both is that number."""
        return Value(f"({self.types.c(kind)}){self.signed(a) if sign == 'Signed' else a.inside()}", kind)

    def arithmetic(self, name, sign, a, b):
        """A result, cut to its width where C makes it in `int` or wider."""
        narrow = a.type[0] == "int" and a.type[1] < 32
        cast = "(uint32_t)" if narrow and name in ("Mul", "WrapMul", "Shl") else f"({self.types.c(a.type)})" if name in ("Shl", "Shr") else ""
        text = f"{cast}{a.inside()} {ARITHMETIC[name]} {b.inside()}"
        if narrow:
            return Value(f"({self.types.c(a.type)})({text})", a.type)
        times = next(((x.number, y.text) for x, y in ((a, b), (b, a)) if name == "Mul" and x.number is not None), (0, ""))
        return Value(text, a.type, loose=True, times=times, sized=a.sized or b.sized)
