"""Statements: one function of the MIR as one function of C. Of the innermost loop, the next turn is `continue` and the end is `break`; any other
exit is a `goto` to the end of its block, or of the turn or the whole of its loop. What no call reaches, by the proofs, is a loop without end."""
import re
import textwrap

from c_types import PTR
from expressions import Expressions
from instances import said
from mir import Unknown, crate_of, form
from rules import Again, Pointer, Value

COLUMNS = 120
NO_BREAK = "\xa0"  # a blank where no line is broken


def wrapped(line):
    """A line of C, broken at blanks where it is too long."""
    indent = line[:len(line) - len(line.lstrip())] + " " * 8
    return [part.replace(NO_BREAK, " ") for part in textwrap.wrap(line, COLUMNS, subsequent_indent=indent, break_long_words=False, break_on_hyphens=False)]


class Function(Expressions):
    """One function of the MIR in C."""

    def head(self):
        """Its declaration. A function of the kit's core, such as an iterator's, stands in its callers: called, they made Score 1.5 times as long at -Os."""
        storage = "INLINED" if crate_of(self.name) == "core" else "static"
        given = ", ".join(self.declared(i).replace(" ", NO_BREAK) for i in self.parameters if i not in self.empty)
        result = f"{storage} {self.types.c(self.kinds[0])} ".replace("* ", "*").replace(" ", NO_BREAK, self.types.c(self.kinds[0]).count("*"))
        return f"{result}{self.types.function(self.name)}({given or 'void'})"

    def comment(self):
        """The instance in words, where the function has parameters for types or impls."""
        path, types = self.instances.path(self.name)
        return wrapped(f"/* {path}{said(types)} */") if self.name != path else []

    def write(self):
        """The function, written as often as something new is known of its locals: each time one more is a variable, so that it ends."""
        while True:
            self.begin()
            try:
                lines = self.statements(self.body, 0)
                break
            except Again:
                continue
        unused = [f"(void){self.names[i]};" for i in self.parameters if i not in self.used | self.empty]
        lines = self.top + unused + lines[:-1] + lines[-1:] * (lines[-1:] != ["return;"])
        return "\n".join(self.comment() + wrapped(self.head()) + ["{"] + [part for line in lines for part in wrapped("    " + line)] + ["}", ""])

    def statements(self, statements, depth):
        lines = []
        for i, s in enumerate(statements):
            self.reads, self.calls = 0, []
            if s[0] in ("Assign", "Call"):
                lines += self.assignment(*s, depth, statements[i + 1:i + 2] == [("Return", None)])
            elif s[0] == "Return":
                if 0 in self.empty or not lines or not lines[-1].startswith("return "):
                    lines += self.written("return;" if 0 in self.empty else f"return {self.read(0).text};")
            elif s[0] == "Exit":
                lines += self.written(self.exit(s[1]))
            elif s[0] in ("If", "Switch"):
                lines += self.branches(s, depth)
            elif s[0] == "LendStatic":
                continue  # it stands above, where it is read
            elif s[0] == "Loop":
                lines += self.written() + self.loop(s[1], s[2], depth)
            elif s[0] == "Block":
                lines += self.written() + self.statements(s[2], depth + 1) + self.label(s[1])
            elif s[0] == "Unreachable":
                lines += self.written(*self.unreachable())
        return lines + self.written()

    def exit(self, scope):
        """An exit to the end of a block or a loop, or to the next turn of a loop."""
        if self.loops and scope in self.loops[-1]:
            return "break;" if scope is self.loops[-1][0] else "continue;"
        return f"goto {self.labels.setdefault(scope, f'end_{len(self.labels) + 1}')};"

    def label(self, scope):
        """The end of a block or a loop, where an exit goes there."""
        return [f"{self.labels[scope]}:;"] if scope in self.labels else []

    @staticmethod
    def unreachable():
        return ["for (;;) {", "}"]

    def inner(self, statements, depth):
        return ["    " + line for line in self.statements(statements, depth + 1)]

    def assignment(self, name, content, depth, last):
        """An assignment or a call; last: a return is next."""
        place, target = content[0] if name == "Assign" else content[2], None
        local, kind = place["local"], self.kinds[place["local"]]
        self.pointee = None if place["steps"] else self.pointees.get(local)
        if name == "Call":
            if place["steps"]:
                raise Unknown("a call whose result is put behind a step")
            value = Value(self.call(content[0], content[1]), kind, alone=True)
        elif place["steps"]:
            target = self.place(place, writes=True)
            value = self.plain(self.value(content[1], target.type))
        elif local in self.tables:
            if "Opd" not in content[1]:
                self.seen.add(local)
                self.top.append(f"static const {self.declared(local)} = {self.braces(kind, *form(content[1]))};")
            return []
        else:
            value = self.value(content[1], kind)
        self.whole(value)
        if target or local in self.empty or (name == "Call" and local not in self.read_at_all and local):
            return self.written(f"{target.text} = {value.text};" if target else f"{value.text};")
        if local == 0 and last:
            return self.written(f"return {self.plain(value).text};")
        if local in self.kept:
            return self.written(self.variable(local, kind, value, depth))
        if local in self.pending or (isinstance(value, Value) and len(value.text) > COLUMNS - 30):
            self.keep(local)
        self.pending[local] = value
        return []

    def variable(self, local, kind, value, depth):
        """A variable is assigned: declared there where that is its first statement and stands in no other, or else above."""
        if isinstance(value, Pointer) and local not in self.untyped:
            if local in self.seen:
                self.untyped.add(local)
                raise Again
            self.seen.add(local)
            self.top.append(self.declared(local, ("ref", value.mutable, value.element)) + ";")
            self.pointers[local] = Pointer(self.names[local], value.mutable, value.element, table=value.table)
            return f"{self.names[local]} = {self.at(Value(self.element(value), PTR))};"
        value = self.plain(value)
        if local in self.seen or depth > 0:
            self.declare(local)
            return f"{self.names[local]} = {value.text};"
        self.seen.add(local)
        literal = f"({self.types.c(kind)}){{"
        return f"{self.declared(local)} = {value.text[len(literal) - 1:] if value.text.startswith(literal) else value.text};"

    def loop(self, scopes, body, depth):
        """A loop; where it begins with a test that ends it, a `while`. Its scopes are its end and its turn."""
        self.loops.append(scopes)
        lines = self.inner(body, depth)
        self.loops.pop()
        end, turn = map(self.label, scopes)
        lines += ["    " + line for line in turn]
        test = re.fullmatch(r"    if \(!(\w+|\((.*)\))\) \{", lines[0])
        if test and lines[1:3] == ["        break;", "    }"]:
            return [f"while ({test.group(2) or test.group(1)}) {{"] + lines[3:] + ["}"] + end
        return ["for (;;) {"] + lines + ["}"] + end

    def branches(self, s, depth):
        """An If or a Switch. A switch without a default meets no other key than its own, by the proofs; so its last arm needs no test."""
        value = self.whole(self.operand(s[1] if s[0] == "If" else s[1][0]))
        lines = self.written()
        if s[0] == "If":
            parts = [("!" + value.inside(), s[3])] if s[3] and not s[2] else [(value.text, s[2]), (None, s[3])]
        else:
            parts = [(" || ".join(f"{value.inside()} == {key}" for key in keys), arm) for keys, arm in zip(s[1][1], s[2:])]
            parts = parts + [(None, s[-1])] if s[1][2] else parts[:-1] + [(None, parts[-1][1])]
        for i, (condition, arm) in enumerate(parts):
            if condition or arm:
                lines.append(("} else " if i else "") + (f"if ({condition}) {{" if condition else "{"))
            lines += self.inner(arm, depth)
        return lines + ["}"]
