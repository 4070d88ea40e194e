"""Generic MIR made concrete. An instance is a function with the types, constants and impls that a call gives it; each that the exported calls reach
is one function, whose MIR here has no parameters left: types and lengths stand in their places, a call through a bound's impl is a call of that
impl's method, and lifetimes are gone. The rest of the generator reads this MIR.

An impl given for a bound has to be of the trait that the bound names, for the types that it names, or the generator stops.

A call of a function that gives nothing back and writes nothing but its own locals is left out (`does_nothing`): so go the drops of what owns
nothing. Right because nobody could see that it was made; that it ends is proved."""
import json

from mir import Unknown, form

DROPPED = "core::marker::Destruct"  # the trait of what can be dropped: its impls are one where the drop does nothing
NOTHING = {"Impl": ["nothing", [], []]}
GENERICS = {"types", "outlives", "bounds", "method_of", "trait_lifetimes", "impls", "spends_self"}


class Given:
    """What stands for the parameters of a function or an impl: types, and impls with the trait and the types that each is of."""

    def __init__(self, types=(), impls=()):
        self.types, self.impls = list(types), list(impls)

    def nth(self, number):
        if number >= len(self.types):
            raise Unknown(f"parameter {number} of {len(self.types)}")
        return self.types[number]

    def type(self, node):
        """A type without parameters and lifetimes."""
        name, content = form(node)
        if name == "Param":
            return self.nth(content)
        if name == "Named":
            return {"Named": [{"name": content[0]["name"], "lifetimes": []}, [self.type(t) for t in content[1]]]}
        if name == "Array":
            return {"Array": [self.type(content[0]), self.length(content[1])]}
        if name == "Ref":
            return {"Ref": ["Erased", content[1], self.type(content[2])]}
        if name == "Struct":
            return {"Struct": [content[0], [self.type(t) for t in content[1]]]}
        return node

    def length(self, node):
        """The length of an array: a number, or a parameter for one."""
        name, content = form(node)
        if name != "Param":
            return node
        name, number = form(self.nth(content))
        if name != "Const":
            raise Unknown(f"length {name} {number}")
        return {"Lit": number}

    def bound(self, node):
        """A trait, with the types that it is for."""
        return node["of"], [self.type(t) for t in node["types"]]


class Instances:
    """The instances that are reached: by name, which is a function's path where it has no parameters."""

    def __init__(self, libraries):
        self.libraries, self.given, self.nodes, self.nothing = libraries, {}, {}, {}

    # ---- names

    def instance(self, path, types, impls):
        """The name of an instance; impls: each with what it is of."""
        generics = self.libraries.function(path)["generics"]
        if set(generics) - {"spends_self"} != GENERICS - {"spends_self"}:
            raise Unknown(f"parts of generics: {sorted(generics)}")
        given = Given(types, impls)
        self.check(path, given, generics["types"], generics["bounds"])
        name = path + said(types, [impl for impl, _ in impls])
        self.given.setdefault(name, (path, given))
        return name

    def path(self, name):
        """The path of an instance's function, and the types that it is given."""
        path, given = self.given[name]
        return path, given.types

    @staticmethod
    def check(name, given, types, bounds):
        """What is given has to be what a function or an impl asks for."""
        asked = [given.bound(bound) for bound in bounds] if len(given.types) == len(types) else None
        if asked != [of for _, of in given.impls]:
            raise Unknown(f"{name} is given {len(given.types)} types and impls of {[of for _, of in given.impls]}, and asks for {asked}"[:300])

    def impl(self, node, given):
        """An impl without parameters, and the trait and the types that it is of."""
        kind, content = form(node)
        if kind == "Given":
            if content >= len(given.impls):
                raise Unknown(f"impl {content} of {len(given.impls)}")
            return given.impls[content]
        if kind != "Impl":
            raise Unknown(f"impl {kind}")
        name, types, impls = content
        inner = Given([given.type(t) for t in types], [self.impl(impl, given) for impl in impls])
        known = self.libraries.impl(name)
        self.check(name, inner, known["types"], known["bounds"])
        found, of = {"Impl": [name, inner.types, [impl for impl, _ in inner.impls]]}, inner.bound(known["of"])
        if of[0] == DROPPED and self.does_nothing(self.method(found, inner, 0, [], [])):
            found = NOTHING
        return found, of

    def method(self, impl, inner, number, types, impls):
        """The instance that an impl's method is, which may have parameters of its own."""
        name, methods = impl["Impl"][0], self.libraries.impl(impl["Impl"][0])["methods"]
        if number >= len(methods) or self.libraries.function(methods[number])["generics"]["method_of"] != {"Impl": [name, number]}:
            raise Unknown(f"method {number} of {name}")
        return self.instance(methods[number], inner.types + types, inner.impls + impls)

    def callee(self, node, given):
        """The instance that a call names, or None where an impl's drop does nothing."""
        kind, content = form(node)
        if kind == "Fn":
            of, path = content[1], content[0]
        elif kind == "Method":
            of, (impl, _) = content[2], self.impl(content[0], given)
        else:
            raise Unknown(f"a call that is not direct: {kind}")
        if set(of) != {"types", "dicts"}:
            raise Unknown(f"a call with {sorted(of)}")
        types, impls = [given.type(t) for t in of["types"]], [self.impl(d, given) for d in of["dicts"]]
        if kind == "Fn":
            return self.instance(path, types, impls)
        if impl == NOTHING:
            if content[1] or types or impls:
                raise Unknown(f"method {content[1]} of a drop, with {len(types)} types and {len(impls)} impls")
            return None
        name, inner, below = impl["Impl"]
        known = self.libraries.impl(name)
        asked = Given(inner)
        inner = Given(inner, list(zip(below, [asked.bound(bound) for bound in known["bounds"]])))
        return self.method(impl, inner, content[1], types, impls)

    # ---- MIR

    def function(self, name):
        """The MIR of an instance."""
        if name not in self.nodes:
            node = self.concrete(name)
            self.nodes[name] = {**node, "body": [self.kept(s) for s in node["body"]]}
        return self.nodes[name]

    def concrete(self, name):
        """The MIR of an instance with all its statements."""
        path, given = self.given[name]
        node = self.libraries.function(path)
        try:
            locals_ = [{**local, "ty": given.type(local["ty"])} for local in node.get("locals", ())]
            return {**node, "locals": locals_, "body": [self.statement(s, given) for s in node["body"]]}
        except Unknown as unknown:
            raise Unknown(f"{name}: {unknown}") from unknown

    def kept(self, statement):
        """A statement, or none in the place of a call that does nothing."""
        name, content = form(statement)
        called = name == "Call" and content[0]
        return "Skip" if called is None or (called and self.does_nothing(called)) else statement

    def does_nothing(self, name):
        """Whether a function gives nothing back and writes nothing but its own locals. One that calls itself is not known to."""
        if name not in self.nothing:
            self.nothing[name] = False
            node = self.concrete(name)
            self.nothing[name] = node["locals"][0]["ty"] == "Unit" and all(map(self.is_inner, node["body"]))
        return self.nothing[name]

    def is_inner(self, statement):
        """Whether a statement writes nothing but locals."""
        name, content = form(statement)
        if name == "Assign":
            return all(form(step)[0] == "Field" for step in content[0]["steps"])
        if name == "Call":
            return content[0] is None or self.does_nothing(content[0])
        return name in ("Seq", "Skip", "Block", "Loop", "If", "Switch", "Exit", "Return")

    def statement(self, statement, given):
        """A statement without parameters; a call is [instance, arguments, place]."""
        name, content = form(statement)
        if name == "Assign":
            return {name: [self.place(content[0], given), self.part(content[1], given)]}
        if name == "Call":
            return {name: [self.callee(content[0], given), [self.part(x, given) for x in content[1]], self.place(content[2], given)]}
        if name == "LendStatic":
            return {name: [content[0], given.type(content[1]), content[2]]}
        if name == "If":
            return {name: self.part(content, given)}
        if name == "Switch":
            return {name: [self.part(content[0], given), *content[1:]]}
        return statement

    def part(self, node, given):
        """An operand or a value without parameters."""
        name, content = form(node)
        if name in ("Copy", "AddrOf"):
            return {name: self.place(content, given)}
        if name == "SizeOf":
            return {name: given.type(content)}
        if name == "NumOf":
            return {"Int": {"width": content[0], "value": given.length(content[1])["Lit"]}}
        if name == "Opd":
            return {name: self.part(content, given)}
        if name == "Aggregate":
            return {name: [self.part(x, given) for x in content]}
        if name == "Repeat":
            return {name: [self.part(content[0], given), given.length(content[1])]}
        if name in ("Op1", "Op2"):
            return {name: [content[0], *[self.part(x, given) for x in content[1:]]]}
        if content is not None and name != "Int":
            raise Unknown(f"value {name}")
        return node

    @staticmethod
    def place(node, given):
        steps = [{"Deref": given.type(step["Deref"])} if form(step)[0] == "Deref" else step for step in node["steps"]]
        return {"local": node["local"], "steps": steps}

    # ---- what is reached

    def calls(self, name):
        """The functions that one calls."""
        return [s["Call"][0] for s in self.function(name)["body"] if isinstance(s, dict) and "Call" in s]

    def reached(self, name, order, seen):
        """Adds the functions that calls from one reach, each after those that it calls."""
        if name not in seen:
            seen.add(name)
            for callee in self.calls(name):
                self.reached(callee, order, seen)
            order.append(name)


def reads(node):
    """The locals that a statement reads or points to, a whole written apart from its steps: a local that a step goes through is read."""
    name, content = form(node)
    if name == "Assign":
        return through(content[0]) + reads(content[1])
    if name == "Call":
        return [local for x in content[1] for local in reads(x)] + through(content[2])
    if name in ("Copy", "AddrOf"):
        return [content["local"]]
    if name in ("Opd", "If"):
        return reads(content)
    if name == "Switch":
        return reads(content[0])
    if name in ("Op1", "Op2", "Aggregate", "Repeat"):
        return [local for x in content if isinstance(x, dict) and form(x)[0] == "Copy" for local in reads(x)]
    return []


def through(place):
    """The locals that are read where a place is written: that which a pointer in it is."""
    return [place["local"]] if any(form(step)[0] == "Deref" for step in place["steps"]) else []


def places(node):
    """All places in a body, or in a part of one."""
    if isinstance(node, dict) and set(node) == {"local", "steps"}:
        return [node]
    inner = node.values() if isinstance(node, dict) else node if isinstance(node, list) else ()
    return [place for part in inner for place in places(part)]


# ---- in words

def said(types, impls=()):
    """Types and impls that are given, in words."""
    return (f"<{', '.join(map(type_said, types))}>" if types else "") + (f"{{{', '.join(map(impl_said, impls))}}}" if impls else "")


def impl_said(impl):
    name, types, impls = impl["Impl"]
    return name + said(types, impls)


def type_said(node):
    """A type in words, no two alike."""
    name, content = form(node)
    if name == "Named":
        return content[0]["name"] + said(content[1])
    if name == "Ref":
        return ("&mut " if content[1] == "Mut" else "&") + type_said(content[2])
    if name == "Array":
        return f"[{type_said(content[0])}; {form(content[1])[1]}]"
    if name == "Struct" and content[0] == "&[]":
        return type_said(content[1][0]).replace("&", "&[]", 1)
    return f"u{content}" if name == "Int" else name if content is None else str(content) if name == "Const" else json.dumps(node)
