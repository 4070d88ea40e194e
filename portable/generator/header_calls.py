"""The exported calls as the header declares them. What the header's structs hold is copied field by field, either way, so that nothing depends on
how a C compiler lays them out; a slice is a pointer and a length of the header's; only here do lengths have the type size_t. Each member is held
to the field's width when the file is compiled (SAME), and the C compiler holds every declaration to the header's."""
import os
import re
import sys

from c_types import WORD, type_of
from statements import wrapped

sys.path.append(os.path.join(os.path.dirname(os.path.abspath(__file__)), "..", "..", "tools"))
from layout import partner  # noqa: E402


class HeaderCalls:
    """The exported calls, one after the other in `text`."""

    def __init__(self, types, instances):
        self.types, self.instances, self.libraries = types, instances, instances.libraries
        self.copies, self.helpers, self.text = set(), set(), []

    def c(self, t, source=""):
        """The header's type of a value; MIR has no sign, so that is the source's."""
        if t[0] == "named":
            return partner(t[1].rsplit("::", 1)[1])
        return "size_t" if t == WORD else f"int{t[1]}_t" if re.fullmatch(r"i\d+", source) else self.types.c(t)

    def is_struct(self, t):
        """A struct that the header has; one of a single nameless field is that field there."""
        return t[0] == "named" and self.libraries.members(t[1])[0][0] != "f0"

    def copy(self, way, t):
        """The name of the function that takes a struct from the header's form, or gives it."""
        name, ours, theirs = f"{way}_{self.types.c(t)}", self.types.c(t), self.c(t)
        if name not in self.copies:
            self.copies.add(name)
            fields = zip(self.libraries.members(t[1]), self.types.shape(t))
            lines = [line for (field, source), kind in fields for line in self.field(way, f"->{field}", f"->{field}", kind, source)]
            given = f"{ours} *to, const {theirs} *from" if way == "take" else f"{theirs} *to, const {ours} *from"
            self.text += [f"static void {name}({given})", "{"] + ["    " + line for line in lines] + ["}", ""]
        return name

    def field(self, way, ours, theirs, t, source):
        """The lines that copy a field, and hold the header's to its width."""
        to, from_ = ("to" + ours, "from" + theirs) if way == "take" else ("to" + theirs, "from" + ours)
        if t[0] == "array":
            *same, element = self.field(way, ours + ".at[i]", theirs + "[i]", t[1], source.strip("[] ").split(" ;")[0])
            return same + [f"for (size_t i = 0; i < {t[2]}; i++)", "    " + element]
        if self.is_struct(t):
            return [f"{self.copy(way, t)}(&{to}, &{from_});"]
        if t[0] == "named":
            field, inner = self.libraries.members(t[1])[0]
            return self.field(way, f"{ours}.{field}", theirs, self.types.shape(t)[0], inner)
        same = f"SAME({(from_ if way == 'take' else to).replace('[i]', '[0]')}, {self.c(t, source)});"
        return [same, f"{to} = {self.number(from_, t, self.c(t, source), way)};"]

    def number(self, text, t, c, way):
        """A number of the header's taken, or one given."""
        if c == self.types.c(t) or way == "take":
            return text if c == self.types.c(t) else f"({self.types.c(t)}){text}"
        self.helpers |= {t[1]} if c != "size_t" else set()
        return f"(size_t){text}" if c == "size_t" else f"signed{t[1]}({text})"

    def call(self, name):
        """A call: what it is given is taken, the function of the MIR called, what it lent and its result given."""
        node, given, before, values, after = self.instances.function(name), [], [], [], []
        result, *kinds = [type_of(local["ty"]) for local in node["locals"][:node["params"] + 1]]
        for i, (t, (p, source)) in enumerate(zip(kinds, self.libraries.parameters(name)), 1):
            behind, const = t[2] if t[0] == "ref" else t, "const " if t[0] in ("ref", "slice") and not t[1] else ""
            if t[0] == "slice":
                given.append(f"{const}uint8_t *{p}, size_t {p}_len")
                values.append(f"({self.types.c(t)}){{{p}, {p}_len}}")
            elif self.is_struct(behind):
                ref = t[0] == "ref"
                given.append(f"{const}{self.c(behind)} {'*' * ref}{p}")
                before += [f"{self.types.c(behind)} own_{p};", f"{self.copy('take', behind)}(&own_{p}, {'&' * (not ref)}{p});"]
                values.append(f"{'&' * (ref or i in self.types.lent[name][0])}own_{p}")
                after += [f"{self.copy('give', behind)}({p}, &own_{p});"] if ref and t[1] else []
            else:
                given.append(f"{self.c(t, source)} {p}")
                values.append(self.number(p, t, self.c(t, source), "take"))
        lines = before + [f"{self.types.c(result)} result = {self.types.function(name)}({', '.join(values)});"] + after
        if self.is_struct(result):
            lines += [f"{self.c(result)} given;", f"{self.copy('give', result)}(&given, &result);", "return given;"]
        else:
            lines += [f"return {self.number('result', result, self.c(result), 'give')};"]
        self.text += wrapped(f"{self.c(result)} {name.rsplit('::', 1)[1]}({', '.join(given) or 'void'})") + ["{"]
        self.text += [part for line in lines for part in wrapped("    " + line)] + ["}", ""]
