"""The functions of a crate's sources, as the prover names them, and copies of a crate without most of their bodies."""

import os
import re
from dataclasses import dataclass

FUNCTION = re.compile(r"(\s*)(?:pub(?:\([^)]*\))? )?(?:const |unsafe |final |extern \"C\" )*fn (\w+)")
IMPL = re.compile(r"impl(?:<.*?>)?\s+(?:(?P<trait>[\w:]+)(?:<.*>)?\s+for\s+)?(?P<type>[\w:]+)")
TYPE = re.compile(r"(?:pub(?:\([^)]*\))? )?(?:struct|enum|union) (\w+)")
HOLE = "use Rattle.{module}.Statement.{{statement}}\n\npub {name}_spec : {{M : Type 1}} → statement M\n{name}_spec = ?\n"


@dataclass(frozen=True)
class Function:
    """A function with a body: its name, and the numbers of its first line, of the first of its body and of its closing brace."""

    path: str
    file: str
    first: int
    body: int
    last: int
    # Whether the path is known from the crate on, and not only its end.
    is_whole: bool


def sources_of(folder):
    """Returns the lines of each file of a crate's src."""
    found = {}
    for at, _, names in sorted(os.walk(f"{folder}/src")):
        for name in sorted(names):
            with open(f"{at}/{name}", encoding="utf-8") as file:
                found[os.path.relpath(f"{at}/{name}", folder)] = file.read().split("\n")
    return found


def module_of(crate, file):
    """Returns the path of the module that a file of a crate's src is."""
    parts = file[len("src/") : -len(".rt")].split("/")
    return "::".join([crate, *(it for it in parts if it not in ("lib", "main", "mod"))])


def functions_of(crate, sources):
    """Returns the functions with a body in a crate's sources."""
    types = {match[1]: module_of(crate, file) for file, lines in sources.items() for match in map(TYPE.match, lines) if match}
    return [it for file, lines in sources.items() for it in functions_in(crate, file, lines, types)]


def functions_in(crate, file, lines, types):
    """Returns the functions with a body in one file."""
    found, head = [], ""
    for first, line in enumerate(lines):
        if line[:1] not in ("", " ", "}"):
            head = line
        match = FUNCTION.match(line)
        body = match and body_of(lines, first, match[1], "trait " in head)
        if body:
            path, is_whole = path_of(module_of(crate, file), head if match[1] else "", match[2], types)
            last = next(n for n in range(body, len(lines)) if lines[n] == f"{match[1]}}}")
            found.append(Function(path, file, first, body, last, is_whole))
    return found


def body_of(lines, first, indent, is_of_trait):
    """Returns the number of the first line of the body of the function with this first line, or None if it has none of its own lines."""
    for number in range(first, len(lines)):
        line = lines[number]
        is_head = number == first or line.startswith(f"{indent})")
        if line == f"{indent}{{" or is_head and line.endswith(" {"):
            return number + 1
        if line == f"{indent}{{}}" or is_head and line.endswith("{}") or is_of_trait and line.endswith(";"):
            return None
    return None


def path_of(module, head, name, types):
    """Returns a function's path as the prover names it, and whether that is all of it.

    A method is named by the module of its type, and one of a trait by its type and the trait.
    """
    if not head:
        return f"{module}::{name}", True
    owner = IMPL.match(head)
    if not owner:
        return name, False
    if owner["trait"]:
        return f"{owner['type']}{owner['trait'].rpartition('::')[2]}::{name}", False
    if owner["type"] in types:
        return f"{types[owner['type']]}::{owner['type']}::{name}", True
    return f"{owner['type']}::{name}", False


def cut(crate, folder, whole):
    """Leaves a hole for the proof of each function of a copy of a crate, and no body, except for those with these paths."""
    sources = sources_of(folder)
    for it in reversed(functions_of(crate, sources)):
        if not it.is_whole or it.path in whole:
            continue
        sources[it.file][it.body : it.last] = ["loop {}"]
        parts = it.path.split("::")[1:]
        proof = "/".join([folder, "proofs", *parts])
        os.makedirs(proof, exist_ok=True)
        for name in ("Answers.antt", "Invariants.antt"):
            if os.path.isfile(f"{proof}/{name}"):
                os.remove(f"{proof}/{name}")
        with open(f"{proof}/Proof.antt", "w", encoding="utf-8") as file:
            file.write(HOLE.format(module=".".join([f"{crate}.proofs", *parts]), name=parts[-1]))
    for name, lines in sources.items():
        with open(f"{folder}/{name}", "w", encoding="utf-8") as file:
            file.write("\n".join(lines))
