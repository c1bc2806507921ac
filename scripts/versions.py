#!/usr/bin/env python3
"""versions.py [--write]: compares all files that state heal's version with the file VERSION, or writes its version into them.

VERSION is the one file in which a person changes the number. Scripts read it: link.sh for the soname and heal.pc, release.sh for the
names of the release. What can't read a file states the number, and gets it by --write: sources, manifests and pages. The status is
1 if a file states another version, or none where one belongs.
"""

import os
import re
import sys

ROOT = os.path.dirname(os.path.dirname(os.path.realpath(__file__)))
NUMBER = r"\d+\.\d+\.\d+"
# Each file, with what surrounds the version in it: all places that match are the version's.
PLACES = [
    ("crates/questions/src/listing.rt", r'(b"heal )()(\\n")', "dotted"),
    ("crates/questions/specs/Lines.antt", r'(codes "heal )()(\\n")', "dotted"),
    ("crates/questions/must-fail/other_version.edit", r'(old: .*b"heal )()(\\n")', "dotted"),
    ("crates/heal_c/src/version_exports.rt", r"(const VERSION: u32 = )()(;)", "bytes"),
    ("crates/heal_c/src/version_exports.rt", r"(ensures \{ result ≡ )()( \})", "number"),
    ("bindings/c/heal.h", r"(#define HEAL_VERSION )()(\n)", "hex"),
    ("bindings/rust/Cargo.toml", r'(\nversion = ")()(")', "dotted"),
    ("bindings/rust/heal/Cargo.toml", r'(heal-sys = \{ path = "../heal-sys", version = ")()(")', "dotted"),
    ("bindings/python/pyproject.toml", r'(\nversion = ")()(")', "dotted"),
    ("bindings/erlang/src/heal.app.src", r'(\{vsn, ")()("\})', "dotted"),
    ("docs/INSTALL.md", r"(\bheal[-_ ])()()(?!\d)", "dotted"),
    ("docs/ERLANG.md", r"(lib/erlang/lib/heal-)()()", "dotted"),
]
# How a version is written: its pattern, and its text.
FORMS = {
    "dotted": (NUMBER, lambda parts: ".".join(map(str, parts))),
    "hex": (r"0x[0-9a-f]{6}", lambda parts: "0x" + "".join(f"{it:02x}" for it in parts)),
    "bytes": (r"0x[0-9a-f]{2}_[0-9a-f]{2}_[0-9a-f]{2}", lambda parts: "0x" + "_".join(f"{it:02x}" for it in parts)),
    "number": (r"\d+", lambda parts: str(int.from_bytes(bytes(parts), "big"))),
}


def read(path):
    """Returns the text of a file of the repository."""
    with open(f"{ROOT}/{path}", encoding="utf-8") as file:
        return file.read()


def main():
    is_write = sys.argv[1:] == ["--write"]
    version = read("VERSION").strip()
    if sys.argv[1:] not in ([], ["--write"]) or not re.fullmatch(NUMBER, version):
        print("usage: versions.py [--write]; VERSION has a number as 1.2.3", file=sys.stderr)
        return 2
    parts = [int(it) for it in version.split(".")]
    wrong = 0
    for path, around, form in PLACES:
        pattern, write = FORMS[form]
        text = read(path)
        place = re.compile(around.replace("()", f"({pattern})", 1))
        stated = {it[2] for it in place.finditer(text)}
        if is_write and stated:
            with open(f"{ROOT}/{path}", "w", encoding="utf-8") as file:
                file.write(place.sub(lambda it: it[1] + write(parts) + it[3], text))
        elif stated != {write(parts)}:
            print(f"versions.py: {path} states {', '.join(sorted(stated)) or 'no version'}, and VERSION {version}", file=sys.stderr)
            wrong = 1
    # People write what changed.
    if not re.search(rf"^## {re.escape(version)}\b", read("CHANGELOG.md"), re.M):
        print(f"versions.py: CHANGELOG.md has no section {version}", file=sys.stderr)
        wrong = 1
    return wrong


if __name__ == "__main__":
    sys.exit(main())
