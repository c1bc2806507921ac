#!/usr/bin/env python3
"""declarations.py: fails if Rust or Python declares a struct or a function of c/heal.h with other fields, arguments or types.

Both lay structs out as C does, so equal fields of equal types have equal places. HEAL_LIBRARY is the library that Python loads.
"""
import ctypes
import os
import re
import sys

HERE = os.path.dirname(os.path.abspath(__file__))
sys.path.insert(0, os.path.join(HERE, "python"))

import heal  # noqa: E402
import heal.replica  # noqa: E402

TYPES = {"uint8_t": "u8", "uint32_t": "u32", "uint64_t": "u64", "size_t": "usize", "void": None}
# Structs that the bindings name otherwise than by their words.
NAMES = {"heal_side_state": "State"}


def read(path):
    with open(os.path.join(HERE, path), encoding="utf-8") as file:
        return re.sub(r"/\*.*?\*/", "", file.read(), flags=re.DOTALL)


def pieces(text, separator):
    """Returns the declarations of a list, without line ends."""
    return [" ".join(it.split()) for it in text.split(separator) if it.strip()]


class Header:
    """The structs and functions of heal.h, with types as in Rust."""

    def __init__(self):
        text = read("c/heal.h")
        self.handles = set(re.findall(r"typedef struct \{ void \*at; \} (\w+);", text))
        bodies = re.findall(r"typedef struct \{\n(.*?)\} (\w+);", text, re.DOTALL)
        self.structs = {self.named(name): [self.of(it) for it in pieces(body, ";")] for body, name in bodies}
        calls = re.findall(r"^(\w+) (heal_\w+)\((.*?)\);", text, re.DOTALL | re.MULTILINE)
        self.functions = {name: (TYPES[result], [self.of(it, True) for it in pieces(arguments, ",") if it != "void"])
                          for result, name, arguments in calls}

    def named(self, kind):
        if kind in TYPES:
            return TYPES[kind]
        return "Handle" if kind in self.handles else NAMES.get(kind, kind[len("heal"):].title().replace("_", ""))

    def of(self, declaration, is_argument=False):
        """Returns the name and the type of a field or an argument. An array as an argument is a pointer to it."""
        const, kind, star, name, count = re.fullmatch(r"(const )?(\w+) (\*?)(\w+)(?:\[(\d+)\])?", declaration).groups()
        found = self.named(kind) if count is None else f"[{self.named(kind)}; {count}]"
        if star or count and is_argument:
            found = ("*const " if const else "*mut ") + found
        return name, found


def of_rust():
    """The structs and functions of heal-sys."""
    text = read("rust/heal-sys/src/lib.rs")
    bodies = re.findall(r"#\[repr\(C\)\]\n(?:#\[derive[^\n]*\n)?pub struct (\w+) \{\n(.*?)\n\}", text, re.DOTALL)
    structs = {name: [tuple(it.replace("pub ", "").split(": ")) for it in pieces(body, ",")] for name, body in bodies}
    calls = re.findall(r"pub fn (\w+)\((.*?)\)(?: -> (\w+))?;", text, re.DOTALL)
    del structs["Handle"]
    return structs, {name: (result or None, [tuple(it.split(": ")) for it in pieces(arguments, ",")])
                     for name, arguments, result in calls}


def shown(kind):
    """A type of ctypes as in Rust."""
    if kind is None or issubclass(kind, ctypes.Structure):
        return kind and kind.__name__.strip("_")
    if issubclass(kind, ctypes.Array):
        return f"[{shown(kind._type_)}; {kind._length_}]"
    return "*" + shown(kind._type_) if isinstance(kind._type_, type) else f"u{8 * ctypes.sizeof(kind)}"


def weak(kind):
    """A type of Rust without what ctypes doesn't distinguish."""
    return kind and re.sub(r"\*\[(\w+); \d+\]", r"*\1", re.sub(r"\*(const|mut) ", "*", kind).replace("usize", "u64"))


def main():
    header, faults = Header(), []
    structs, functions = of_rust()
    for wanted, found in (header.structs, structs), (header.functions, functions):
        differ = [it for it in sorted(wanted.keys() | found.keys()) if found.get(it) != wanted.get(it)]
        faults += [f"rust: {it} is {found.get(it)}, not {wanted.get(it)}" for it in differ]
    for name, fields in header.structs.items():
        made = getattr(heal, "_" + name, None) or getattr(heal.replica, "_" + name)
        found, wanted = [(it, shown(kind)) for it, kind in made._fields_], [(it, weak(kind)) for it, kind in fields]
        faults += [f"python: {name} has {found}, not {wanted}"] if found != wanted else []
    for name, (result, arguments) in header.functions.items():
        call, wanted = getattr(heal._LIBRARY, name), (weak(result), [weak(kind) for _, kind in arguments])
        found = call.argtypes and (weak(shown(call.restype)), [shown(it) for it in call.argtypes])
        # Functions that Python doesn't call have no types: calls.py lists them.
        faults += [f"python: {name} is {found}, not {wanted}"] if found and found != wanted else []
    sys.exit("\n".join("declarations.py: " + fault for fault in faults) or None)


main()
