#!/usr/bin/env python3
"""calls.py: fails if a binding lacks a function of c/heal.h that BINDINGS doesn't list for it, or lists one that it has.

A binding has the functions that its sources name.
"""
import glob
import os
import re
import sys

HERE = os.path.dirname(os.path.abspath(__file__))
LENT = {
    "heal_bytes_len": "heal_bytes_lend has the length",
    "heal_bytes_copy": "heal_bytes_lend has the bytes",
}
LIMITED = {"heal_side_new": "heal_side_new_within makes sides of any limit"}
APPLICATION = {
    "heal_version": "the NIF contains the library of its release",
    "heal_bytes_lend": "heal_bytes_copy writes into a binary",
    **dict.fromkeys(["heal_bpf_load", "heal_bpf_run", "heal_bpf_free"], "the application decides only clashes"),
    **dict.fromkeys(["heal_side_live", "heal_side_live_after", "heal_outcome_withdrawn"],
                    "the application needs only the names that its own side withdrew, which heal:query returns"),
    **dict.fromkeys(["heal_offer_fault", "heal_list_fault"], "the application needs no place of a fault"),
}
# The sources of each binding, how they name a function, and why functions are left out. In Rust one crate declares them, and the other
# calls them.
BINDINGS = [
    ("rust/heal-sys/src/*.rs", r"pub fn (heal_\w+)\(", {}),
    ("rust/heal/src/*.rs", r"\bffi::(heal_\w+)", LENT),
    ("python/heal/*.py", r'[".](heal_\w+)', {**LENT, **LIMITED}),
    ("erlang/c_src/*.c", r"\b(heal_\w+)", {**APPLICATION, **LIMITED}),
]


def named(pattern, shows):
    """Returns the functions that the files name."""
    names = set()
    for path in glob.glob(os.path.join(HERE, pattern)):
        with open(path, encoding="utf-8") as file:
            names.update(re.findall(shows, file.read(), re.MULTILINE))
    return names


def main():
    declared, faults = named("c/heal.h", r"^[a-z].*[ *](heal_\w+)\("), []
    for sources, shows, omitted in BINDINGS:
        lacks = declared - named(sources, shows)
        faults += [f"{sources} lacks {name} of heal.h, without a reason" for name in sorted(lacks - set(omitted))]
        faults += [f"{sources} has {name}, or heal.h doesn't: it needs no reason" for name in sorted(set(omitted) - lacks)]
    sys.exit("\n".join("calls.py: " + fault for fault in faults) or None)


main()
