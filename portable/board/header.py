"""The header as data: its constants, its structs and its calls, in order."""
import re
from dataclasses import dataclass

NUMBERS = {"bool": 1, "uint8_t": 1, "int8_t": 1, "uint16_t": 2, "int16_t": 2, "uint32_t": 4, "int32_t": 4, "size_t": 4}  # bytes in a case


@dataclass
class Parameter:
    """A parameter of a call: kind "number", "bytes" (lent to read, with a length), "buffer" (lent to write, with a length), "struct", "pointer"."""
    name: str
    kind: str
    type: str


@dataclass
class Call:
    name: str
    result: str
    parameters: list


class Header:
    def __init__(self, path):
        with open(path, encoding="utf-8") as file:
            text = re.sub(r"/\*.*?\*/", " ", file.read(), flags=re.S)
        self.structs = {name: self.members(body) for body, name in re.findall(r"typedef struct \{([^}]*)\} (\w+);", text)}
        self.calls = [Call(name, result, self.parameters(name, given)) for result, name, given in re.findall(r"^(\w+) (hb_\w+)\(([^)]*)\);", text, flags=re.M)]
        declared = set(re.findall(r"\b(hb_\w+)\(", text))
        if declared != {call.name for call in self.calls}:
            raise SystemExit(f"header.py: calls that are not understood: {sorted(declared - {call.name for call in self.calls})}")
        constants = re.findall(r"(HB_\w+) = (\d+)", text)
        self.constants = {name: int(number) for name, number in constants}

    @staticmethod
    def members(body):
        """(name, type, array length or 0) of each member."""
        found = []
        for declaration in filter(None, map(str.strip, body.split(";"))):
            kind, names = declaration.split(None, 1)
            for name in names.split(","):
                word, length = re.fullmatch(r"\s*(\w+)(?:\[(\d+)\])?\s*", name).groups()
                found.append((word, kind, int(length or 0)))
        return found

    def parameters(self, call, given):
        words = [] if given.strip() == "void" else [part.strip() for part in given.split(",")]
        found = []
        for word in words:
            const, kind, star, name = re.fullmatch(r"(const )?(\w+) (\*?)(\w+)", word).groups()
            if found and name == found[-1].name + "_len" and kind == "size_t":
                continue
            if kind == "uint8_t" and star:
                found.append(Parameter(name, "bytes" if const else "buffer", kind))
            elif kind in NUMBERS and not star:
                found.append(Parameter(name, "number", kind))
            elif kind in self.structs:
                found.append(Parameter(name, "pointer" if star else "struct", kind))
            else:
                raise SystemExit(f"header.py: {call}: the parameter {word}")
        return found

    def has_size(self, kind):
        """A struct with a size_t in it, which is laid out otherwise on 32 bits."""
        return any(t == "size_t" or (t in self.structs and self.has_size(t)) for _, t, _ in self.structs[kind])

    def given(self):
        """The structs that calls give, or are lent, with those in them."""
        kinds, left = set(), [call.result for call in self.calls] + [p.type for call in self.calls for p in call.parameters if p.kind == "pointer"]
        while left:
            kind = left.pop()
            if kind in self.structs and kind not in kinds:
                kinds.add(kind)
                left += [t for _, t, _ in self.structs[kind]]
        return kinds

    def taken(self):
        """The structs that calls take."""
        return sorted({p.type for call in self.calls for p in call.parameters if p.kind in ("struct", "pointer")})
