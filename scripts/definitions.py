#!/usr/bin/env python3
"""definitions.py [--write | --check | --list NAME]: counts the definitions that public contracts reach.

For each promise of docs/PROOFS.md it follows the words of the contracts that carry it, and of the views of the types in
their signatures, to the definitions in crates/*/specs, and counts these with their lines (comments included, imports
and blank lines not). Definitions of the toolchain's crates are counted apart, and proofs that a definition carries aren't counted, nor
how the values of a type are coded: the prover has checked them. It also copies the definitions that the page shows.

Without an option it prints the table. --write puts the table and the definitions into docs/PROOFS.md, --check fails if they
differ there, or if two crates define one word, and --list NAME prints the definitions of the promises whose text contains NAME, by
module.
"""
import collections
import glob
import os
import re
import sys

from options import option

TOP = os.path.join(os.path.dirname(os.path.abspath(__file__)), "..")
PAGE = os.path.join(TOP, "docs", "PROOFS.md")
# The definitions that the page shows, by name, with their modules.
SHOWN = {"IsLawfulMerge": "Rattle.exchange_law.specs.History"}

# Each promise with the public functions whose contracts carry it.
PROMISES = [
    ("accepted code is safe, and `run` is its meaning", ["verifier::Verified::code", "interpreter::run"]),
    ("an instruction has the effect of its form", ["one_step::execute"]),
    ("bytes are decoded and encoded as the standard defines", ["insn_codec::decode", "insn_codec::encode"]),
    ("the verifier is exact", ["verifier::verify", "verifier::read_program"]),
    ("`verify` holds few states", ["verifier::verify_peak"]),
    ("text is read and written by the grammar", ["assembler_text::assemble", "assembler_text::disassemble"]),
    ("uploads", ["upload_store::UploadStore::upload", "upload_store::UploadStore::get"]),
    ("tables, clashes, verdicts and the merge", [
        "partition_table::Table::register", "partition_table::Table::unregister", "partition_table::clashes",
        "partition_table::Verdict::judged", "partition_table::merge"]),
    ("**two sides that finish hold one table** (the headline)", ["exchange_law::history_theorem"]),
    ("a history's events are calls, and each side is where its calls lead", ["exchange_law::events_theorem"]),
    ("each call of a side is a step, and each refusal has its cause", [
        "exchange_core::Side::" + name for name in
        ("register", "unregister", "begin", "hear", "take", "withdraw", "close_list", "hear_list", "finish", "abandon",
         "whereis", "rows", "events")]),
    ("`settle`, `renew` and `give_up` of a side", ["exchange_core::Side::" + name for name in ("settle", "renew", "give_up")]),
    ("two processes whose halves settle have one outcome", ["exchange_core::two_halves_theorem"]),
    ("two sides that settled alike hold one table", ["exchange_core::one_round_theorem"]),
    ("messages have one spelling, and are decoded exactly", [
        "exchange_codec::" + name for name in
        ("encode_offer", "decode_offer", "encode_withdrawals", "decode_withdrawals", "one_message_theorem")]),
    ("two replicas at one position hold one half", ["replica::replicas_theorem"]),
    ("entries and snapshots have one spelling, and are decoded exactly; logs", [
        "replica_codec::" + name for name in
        ("encode_entry", "decode_entry", "encode_snapshot", "decode_snapshot", "read_front", "one_entry_theorem",
         "one_snapshot_theorem")]),
    ("what a board shows", ["verdict_board::Board::" + name for name in ("draw", "draw_row", "post", "read", "gather")]
     + ["registry_lock::seen_theorem"]),
    ("workers draw each clash of their round", ["judge_pool::work", "judge_pool::heal_round"]),
    ("two sides that meet have one table", ["registry_lock::meet", "registry_lock::tell_round"]),
    ("a cluster heals", ["cluster::Cluster::heal"]),
    ("`renew` and `give_up` of a cluster", ["cluster::Cluster::" + name for name in ("renew", "renew_long", "give_up")]),
    ("notices of a verdict", ["builtin_resolvers::notices"]),
    ("each function of the C library makes the call that it wraps", ["heal_c"]),
    ("two processes that use the C library have one outcome", ["heal_c::two_processes_theorem"]),
    ("answers to questions", ["questions::reply_to"]),
    ("what a script reads and writes", ["scripts::run_script"]),
    ("the whole program `heal`", ["heal_main::answer"]),
]

DEFINITION = re.compile(
    r"^(?:abbrev pub|abbrev|unfoldable pub|unfoldable|pub record|record|pub data|data|pub)\s+([^\s:{(]+)")
LAW = re.compile(r"pub (?!record |data )")
TOKEN = re.compile(r"[A-Za-z_][\w.']*")


class Module:
    """The imports, aliases and definitions of one file of specs/."""

    def __init__(self, text):
        self.imports, self.aliases, self.definitions, self.constructors, self.laws = {}, {}, {}, {}, set()
        read_imports(text.split("\n"), "use", self)
        block = []
        for line in text.split("\n") + [""]:
            if line.strip():
                block.append(line)
            else:
                self.add(block)
                block = []

    def add(self, block):
        name = None
        for line in block:
            if re.match(r"--|(pub )?use |(pub )?mod ", line):
                continue
            match = DEFINITION.match(line)
            if match:
                name = match.group(1)
                break
        if name is None:
            return
        self.definitions[name] = [line for line in block if not re.match(r"(pub )?use ", line)]
        if LAW.match(line):
            self.laws.add(name)
        if any(re.match(r"(pub )?data ", line) for line in block):
            for line in block:
                match = re.match(r"\s+(\w+)\s*:", line)
                if match:
                    self.constructors[match.group(1)] = name


def read_imports(lines, word, into):
    """Adds the imports of lines such as `use Rattle.a.b.{c, d as e}` and `use Rattle.a.b as c`."""
    for line in lines:
        match = re.match(r"\s*(?:pub )?" + word + r" (Rattle\.[\w.]+?)\.\{(.*)\};?\s*$", line)
        if match:
            for item in filter(None, (item.strip() for item in match.group(2).split(","))):
                name, _, alias = item.partition(" as ")
                into.imports[(alias or name).strip()] = (match.group(1), name.strip())
            continue
        match = re.match(r"\s*(?:pub )?" + word + r" (Rattle\.[\w.]+) as (\w+);?\s*$", line)
        if match:
            into.aliases[match.group(2)] = match.group(1)


class Source:
    """The contracts and the views of one file of src/."""

    def __init__(self, text):
        self.imports, self.aliases, self.functions, self.views, self.exports = {}, {}, {}, {}, []
        lines = text.split("\n")
        read_imports(lines, "ghost use", self)
        owner, at = None, 0
        while at < len(lines):
            line = lines[at]
            block = re.match(r"impl(?:<[^>]*>)? (?:Model for )?(\w+)", line)
            if block:
                owner = block.group(1)
                if " Model for " in line:
                    end = next(i for i in range(at, len(lines)) if lines[i] == "}")
                    self.views[owner] = "\n".join(l for l in lines[at:end] if not re.search("ghost (use|coded|invariant)", l))
            elif line == "}":
                owner = None
            function = re.match(r'\s*(?:pub(?:\(crate\))? )?(?:extern "C" )?fn (\w+)', line)
            if function:
                name = function.group(1) if owner is None or not line.startswith(" ") else owner + "::" + function.group(1)
                end = at
                while not re.match(r"\s*\{(\})?$", lines[end]) and not lines[end].rstrip().endswith((" {", " {}", ";")):
                    end += 1
                text = [l for l in lines[at:end + 1] if not l.strip().startswith("//")]
                self.functions[name] = "\n".join(text)
                if 'extern "C"' in line:
                    self.exports.append(name)
                at = end
            at += 1


MODULES, SOURCES = {}, collections.defaultdict(list)


def load():
    for path in glob.glob(os.path.join(TOP, "crates/*/specs/**/*.antt"), recursive=True):
        module = os.path.relpath(path, os.path.join(TOP, "crates"))[:-5].replace("/", ".")
        MODULES["Rattle." + module] = Module(open(path, encoding="utf-8").read())
    for path in glob.glob(os.path.join(TOP, "crates/*/src/**/*.rt"), recursive=True):
        crate = os.path.relpath(path, os.path.join(TOP, "crates")).split("/")[0]
        SOURCES[crate].append(Source(open(path, encoding="utf-8").read()))


def resolve(module, name):
    """Where a name of a module is defined: in a module of this repository, or outside."""
    seen = set()
    while (module, name) not in seen:
        seen.add((module, name))
        if module not in MODULES:
            return (module, name)
        here = MODULES[module]
        if name in here.constructors:
            name = here.constructors[name]
        if name in here.definitions:
            return (module, name)
        if name not in here.imports:
            return None
        module, name = here.imports[name]
    return None


def words(text, scope):
    """The definitions that a text names, of the imports of its file."""
    text = re.sub(r'"[^"]*"', "", re.sub(r"--.*|//.*", "", text))
    for token in TOKEN.findall(text):
        parts = token.split(".")
        if len(parts) > 1 and parts[0] in scope.aliases:
            yield (scope.aliases[parts[0]], parts[1])
        elif parts[0] in scope.imports:
            yield scope.imports[parts[0]]


def contract(path):
    """The words of a function's contract, and of the views of the types in its signature."""
    crate, _, name = path.partition("::")
    found = [source for source in SOURCES[crate] if name in source.functions]
    if not found:
        sys.exit(f"definitions.py: {path} isn't found")
    for source in found:
        text = source.functions[name]
        yield from words(text, source)
        signature = re.split(r"\n\s*(?:requires|ensures)\b", text)[0]
        types = set(re.findall(r"\b[A-Z]\w+", signature)) | {name.split("::")[0]}
        for sources in SOURCES.values():
            for other in sources:
                for kind in types & set(other.views):
                    yield from words(other.views[kind], other)


def reach(roots):
    """The definitions that these reach, in this repository and outside, without proofs and what only proofs reach."""
    inside, outside, queue = set(), set(), list(roots)
    while queue:
        place = resolve(*queue.pop())
        if place is None or place in inside or place in outside:
            continue
        if place[0] not in MODULES:
            outside.add(place)
            continue
        here = MODULES[place[0]]
        if place[1] in here.laws:
            continue
        inside.add(place)
        own = "\n".join(here.definitions[place[1]])
        queue += words(own, here)
        own = re.sub(r'"[^"]*"', "", re.sub(r"--.*", "", own))
        queue += [(place[0], token.split(".")[0]) for token in TOKEN.findall(own)]
    return inside, outside


def lines_of(places):
    return sum(len(MODULES[module].definitions[name]) for module, name in places)


def is_of_kit(module):
    crate = module.split(".")[1]
    return not os.path.isdir(os.path.join(TOP, "crates", crate))


def functions_of(paths):
    """The functions of a promise: all exports of a crate where it is a crate's name."""
    for path in paths:
        if "::" in path:
            yield path
        else:
            yield from sorted(path + "::" + name for source in SOURCES[path] for name in source.exports)


def table():
    rows = ["| promise | contracts | definitions | lines | of the toolchain |", "|---|---|---|---|---|"]
    for promise, paths in PROMISES:
        paths = list(functions_of(paths))
        inside, outside = reach(root for path in paths for root in contract(path))
        kit = sum(1 for module, _ in outside if is_of_kit(module))
        calls = f"`{paths[0]}`" + (f" and {len(paths) - 1} more" if len(paths) > 1 else "")
        rows.append(f"| {promise} | {calls} | {len(inside)} | {lines_of(inside)} | {kit} |")
    return "\n".join(rows)


def shared_words():
    """The words that the public definitions of two crates or more have, in specs/*.antt."""
    crates = collections.defaultdict(set)
    for module, here in MODULES.items():
        _, crate, *rest = module.split(".")
        for name, lines in here.definitions.items():
            if len(rest) == 2 and any(re.match(r"(abbrev |unfoldable )?pub (?!use|mod)", line) for line in lines):
                crates[name].add(crate)
    return {name for name, owners in crates.items() if len(owners) > 1}


def list_promise(word):
    for promise, paths in PROMISES:
        if word not in promise:
            continue
        inside, _ = reach(root for path in functions_of(paths) for root in contract(path))
        by_module = collections.defaultdict(list)
        for module, name in inside:
            by_module[module].append(name)
        print(f"{promise}: {len(inside)} definitions, {lines_of(inside)} lines")
        for module in sorted(by_module, key=lambda m: -lines_of((m, n) for n in by_module[m])):
            names = sorted(by_module[module])
            print(f"  {module[7:]} {lines_of((module, n) for n in names)}: {' '.join(names)}")


def with_part(page, name, part):
    """The page with this part between the markers of that name."""
    begin, end = f"<!-- {name}: begin -->\n", f"<!-- {name}: end -->"
    before, rest = page.split(begin)
    return before + begin + part + "\n" + end + rest.split(end)[1]


def main():
    if sys.argv[1:2] == ["--list"] and len(sys.argv) == 3:
        load()
        return list_promise(sys.argv[2])
    given = option("definitions.py [--write | --check | --list NAME]", "--write", "--check")
    load()
    made = table()
    if given is None:
        return print(made)
    old = open(PAGE, encoding="utf-8").read()
    new = with_part(old, "definitions", made)
    for name, module in SHOWN.items():
        new = with_part(new, name, "\n".join(["```", *MODULES[module].definitions[name], "```"]))
    if given == "--check":
        if shared := shared_words():
            sys.exit(f"definitions.py: two crates define one word: {sorted(shared)}")
        sys.exit(0 if old == new else "definitions.py: parts of docs/PROOFS.md are stale; run scripts/definitions.py --write")
    open(PAGE, "w", encoding="utf-8").write(new)


main()
