"""Reading: the MIR of proved libraries, and what their interfaces name.

A built library is a folder NAME.rlib. Its toolchain/mir.json is the MIR that was proved and that the toolchain compiles, a list of functions;
its lang/src has the interface as text, which has what MIR lacks (interface.py). A library is read when something of it is first asked for."""
import glob
import hashlib
import json
import os

import interface


class Unknown(Exception):
    """MIR, or a library, that the generator does not know how to write. Its text names the form."""


def form(node):
    """The name and the content of a node of the JSON: "Name" or {"Name": content}."""
    if isinstance(node, str):
        return node, None
    if isinstance(node, dict) and len(node) == 1:
        return next(iter(node.items()))
    raise Unknown(f"no form of MIR: {json.dumps(node)[:100]}")


def crate_of(name):
    return name.split("::")[0]


class Libraries:
    """The functions of the libraries in some folders, and what their interfaces say."""

    def __init__(self, folders):
        self.rlibs = {}  # crate -> its folder
        self.functions = {}  # path -> MIR
        self.impls = {}  # path -> what the functions that use an impl say of it
        self.interfaces = {}  # module's path -> its interface
        self.texts = {}  # crate -> the bytes of its mir.json
        for rlib in (path for folder in folders for path in glob.glob(os.path.join(folder, "*.rlib"))):
            crate = os.path.basename(rlib)[:-len(".rlib")]
            if self.rlibs.setdefault(crate, rlib) != rlib:
                raise Unknown(f"{crate} stands in two folders")

    def load(self, crate):
        """Reads a library, if it is among the folders and not yet read."""
        if crate in self.texts or crate not in self.rlibs:
            return
        with open(os.path.join(self.rlibs[crate], "toolchain", "mir.json"), "rb") as file:
            self.texts[crate] = file.read()
        for name, function in json.loads(self.texts[crate]):
            if crate_of(name) != crate or self.functions.setdefault(name, function) is not function:
                raise Unknown(f"{name} stands in the library {crate}, or twice there")
            for impl in function["generics"]["impls"]:
                if self.impls.setdefault(impl["name"], impl) != impl:
                    raise Unknown(f"two impls {impl['name']}")

    def exports(self, library):
        """The exported functions of a library: those named hb_.. ."""
        self.load(library)
        sources = sorted(glob.glob(os.path.join(self.rlibs.get(library, ""), "lang", "src", "*.rt")))
        modules = [os.path.basename(path)[:-len(".rt")] for path in sources if library in self.rlibs]
        paths = [library if module == "lib" else f"{library}::{module}" for module in modules]
        found = [f"{path}::{name}" for path in paths for name in self.interface(path).public if name.startswith("hb_")]
        if not found:
            raise Unknown(f"{library}: no such library with exported functions")
        return found

    def function(self, name):
        """The MIR of a function."""
        self.load(crate_of(name))
        if name not in self.functions:
            raise Unknown(f"no MIR of {name}: is its library among the folders?")
        return self.functions[name]

    def impl(self, name):
        """What MIR says of an impl: its parameters, the trait that it is of, and its methods."""
        if name not in self.impls:
            raise Unknown(f"no impl {name}")
        return self.impls[name]

    def interface(self, path):
        """The interface of a module."""
        if path not in self.interfaces:
            crate, *inner = path.split("::")
            base = os.path.join(self.rlibs.get(crate, ""), "lang", "src", *inner)
            files = [file for file in ([base + ".rt", os.path.join(base, "mod.rt")] if inner else [os.path.join(base, "lib.rt")]) if os.path.isfile(file)]
            text = ""
            if files and crate in self.rlibs:
                with open(files[0], encoding="utf-8") as file:
                    text = file.read()
            self.interfaces[path] = interface.Interface(text)
        return self.interfaces[path]

    def members(self, name):
        """The fields or the variants of a type: [(name, source type)]."""
        path, _, last = name.rpartition("::")
        return self.interface(path).fields.get(last, []) if path else []

    def parameters(self, name):
        """The parameters of a function that is no method: [(name, source type)]."""
        path, _, last = name.rpartition("::")
        return self.interface(path).parameters.get(last, [])

    def digest(self, crates):
        """SHA-256 of the mir.json of some libraries, one after the other."""
        return hashlib.sha256(b"".join(self.texts[crate] for crate in crates)).hexdigest()
