#!/usr/bin/env python3
"""Checks that differential.py notices a wrong definition.

    scripts/wrong_definitions.py [--seconds N] [--seed S] [--programs FOLDER] [NAME..]

A definition that is wrong on purpose, with code that follows it, could be proved. Each of EDITS changes such a pair in a copy of the
sources, `./heal` builds the program of the copy unproved, and the comparison must end with a difference. Tries all of EDITS, or those of
these names, one after another, each in about two minutes. The status is 1 if one wasn't noticed. A folder keeps the programs for
another run.
"""

import argparse
import pathlib
import shutil
import subprocess
import sys
import tempfile
import time

ROOT = pathlib.Path(__file__).resolve().parent.parent

TABLES = "partition_table/specs/Tables.antt"

# By name: the edits of a definition and of the code that follows it, as a file, its text, and what replaces each place of the text.
EDITS = {
    "jset-all": [  # the test holds if all bits of the second operand are set
        ("instruction_set/specs/Operations.antt", "cut_test w Jset a b = not (bit_and a b == 0)", "cut_test w Jset a b = bit_and a b == b"),
        ("instruction_set/src/operations.rt", "Test::Jset => $a & $b != 0", "Test::Jset => $a & $b == $b")],
    "record-end": [  # the last byte of the record can't be read
        ("verifier/specs/Rules.antt", "in_record len a = is_inside (pos 0) (pos len) a",
         "in_record len a = is_inside (pos 0) (pos (len - 1)) a"),
        ("verifier/src/memory_access.rt", "self.is_within(*span, 0, context_len as i32)",
         "self.is_within(*span, 0, context_len as i32 - 1)")],
    "quotients": [  # the least quotient of two ranges is 0
        ("abstract_value/specs/Ranges.antt", "make (a.lo / b.hi) (a.hi / b.lo) else make 0 a.hi",
         "make 0 (a.hi / b.lo) else make 0 a.hi"),
        ("abstract_value/src/intervals/arithmetic.rt", "between(a.lo / b.hi, a.hi / b.lo)", "between(0, a.hi / b.lo)")],
    "byte-orders": [  # `le` and `be` change places in texts
        ("assembler_text/specs/Text.antt", 'order_name Little = codes "le"\norder_name Big = codes "be"',
         'order_name Little = codes "be"\norder_name Big = codes "le"'),
        ("assembler_text/src/mnemonic.rt", "Mnemonic::End(EndKind::Little", "Mnemonic::End(EndKind::Other"),
        ("assembler_text/src/mnemonic.rt", "Mnemonic::End(EndKind::Big", "Mnemonic::End(EndKind::Little"),
        ("assembler_text/src/mnemonic.rt", "Mnemonic::End(EndKind::Other", "Mnemonic::End(EndKind::Big"),
        ("assembler_text/src/disassembler.rt", 'EndKind::Little => "le",\n        EndKind::Big => "be"',
         'EndKind::Little => "be",\n        EndKind::Big => "le"')],
    "record-fields": [  # the weight precedes the stamp in a record
        ("clash_record/specs/Record.antt", "(to_le_bytes w64 r.stamp ++ (to_le_bytes w64 r.weight",
         "(to_le_bytes w64 r.weight ++ (to_le_bytes w64 r.stamp"),
        ("clash_record/src/records.rt", "&mut out[8..], registration.stamp", "&mut out[8..], registration.weight_"),
        ("clash_record/src/records.rt", "&mut out[16..], registration.weight", "&mut out[16..], registration.stamp"),
        ("clash_record/src/records.rt", "registration.weight_", "registration.weight")],
    "notices": [  # notify informs the owner that keeps the name
        ("builtin_resolvers/specs/Telling.antt", "notices_of by.Notify name first second First = Conflict name second",
         "notices_of by.Notify name first second First = Conflict name first"),
        ("builtin_resolvers/specs/Telling.antt", "notices_of by.Notify name first second Second = Conflict name first",
         "notices_of by.Notify name first second Second = Conflict name second"),
        ("builtin_resolvers/src/telling.rt", "(Builtin::Notify, Verdict3::First)", "(Builtin::Notify, Verdict3::Other)"),
        ("builtin_resolvers/src/telling.rt", "(Builtin::Notify, Verdict3::Second)", "(Builtin::Notify, Verdict3::First)"),
        ("builtin_resolvers/src/telling.rt", "(Builtin::Notify, Verdict3::Other)", "(Builtin::Notify, Verdict3::Second)")],
    "order-of-fields": [  # registrations compare by weight before stamp
        ("clash_record/specs/Orders.antt", "(ordering_then (nat_cmp a.stamp b.stamp)\n    (ordering_then (nat_cmp a.weight b.weight)",
         "(ordering_then (nat_cmp a.weight b.weight)\n    (ordering_then (nat_cmp a.stamp b.stamp)"),
        ("clash_record/src/registrations.rt", "    pub stamp: u64,\n", ""),
        ("clash_record/src/registrations.rt", "    pub weight: u64,\n", "    pub weight: u64,\n    pub stamp: u64,\n")],
    "withdrawn": [  # a withdrawn name is dropped also if the other side's registration is kept
        (TABLES, "if (gone_r && holds r kept) || (gone_s && holds s kept) then None", "if gone_r || gone_s then None"),
        ("partition_table/src/merging.rt", """        (self.gone_a.contains(name) && holds(self.a, name, kept))
            || (self.gone_b.contains(name) && holds(self.b, name, kept))""",
         "        self.gone_a.contains(name) || self.gone_b.contains(name)")],
    "words": [  # a clash is judged at the next word
        (TABLES, "(seed + round * n + k) % 2 ^ 64", "(seed + round * n + k + 1) % 2 ^ 64"),
        ("partition_table/src/judging.rt", ".wrapping_add(u64::from(k))", ".wrapping_add(u64::from(k) + 1)"),
        ("partition_table/src/judging.rt", ".wrapping_sub(u64::from(k))", ".wrapping_sub(u64::from(k) + 1)")],
    "uptimes": [  # a script's uptimes change places
        ("script_text/specs/Asking.antt", "Ok (record { a = a; b = b })", "Ok (record { a = b; b = a })"),
        ("script_text/src/parsing.rt", "a: long(a)?,\n            b: long(b)?", "a: long(b)?,\n            b: long(a)?")],
}


def copied(folder, edits):
    """Copies the sources to a folder, with these edits."""
    for name in ("heal", "crates.txt", "HANDLES"):
        shutil.copy2(ROOT / name, folder)
    shutil.copytree(ROOT / "crates", folder / "crates", ignore=shutil.ignore_patterns("out"))
    for name, old, new in edits:
        path = folder / "crates" / name
        text = path.read_text()
        if old not in text:
            sys.exit(f"crates/{name} has no {old!r}")
        path.write_text(text.replace(old, new))


def build(name, edits, program):
    """Builds the program with these edits, unproved."""
    with tempfile.TemporaryDirectory() as folder:
        folder = pathlib.Path(folder)
        copied(folder, edits)
        built = subprocess.run([folder / "heal", "check", "95"], capture_output=True, text=True, check=False)
        try:
            shutil.copy2(folder / "crates/heal_main/out/heal_main_unproved", program)
        except FileNotFoundError:
            sys.exit(f"{name}: {built.stderr}")


def is_noticed(name, program, options):
    """Compares the program with the oracle. Prints what ended the comparison, and after how long."""
    if not program.exists():
        build(name, EDITS[name], program)
    start = time.monotonic()
    compared = subprocess.run(
        [ROOT / "scripts/differential.py", f"--seconds={options.seconds}", f"--seed={options.seed}", "--library=", program],
        capture_output=True, text=True, check=False)
    took = time.monotonic() - start
    lines = compared.stdout.splitlines()
    noticed = [line for line in lines if line.startswith("DIFFERENCE")]
    last = lines[-1] if lines else compared.stderr
    print(f"{name}: {noticed[0][:60] if noticed else 'NOT NOTICED'}; {last[:100]}; {took:.1f} s", flush=True)
    return bool(noticed)


def main():
    parser = argparse.ArgumentParser(description=__doc__.split("\n")[0])
    parser.add_argument("--seconds", type=float, default=60)
    parser.add_argument("--seed", type=int, default=1)
    parser.add_argument("--programs", type=pathlib.Path)
    parser.add_argument("names", nargs="*", metavar="NAME", help=", ".join(EDITS))
    options = parser.parse_args()
    with tempfile.TemporaryDirectory() as folder:
        programs = options.programs or pathlib.Path(folder)
        noticed = [is_noticed(name, programs / name, options) for name in options.names or EDITS]
    return 0 if all(noticed) else 1


if __name__ == "__main__":
    sys.exit(main())
