#!/usr/bin/env python3
"""documents.py [RELEASE]: checks the links of the documents, and the tables of promises.

Each relative link of a page leads to a file or a folder of this repository, and its anchor to a heading there. In docs/proofs each row
has a promise, a contract and its wrong bodies, and is there once; each wrong body is a file of crates/*/must-fail, and each of these
files has a row. Prints what is wrong, and fails if anything is. With RELEASE, checks the links of all pages of this folder alone,
which lead to its own files.
"""
import glob
import os
import re
import subprocess
import sys

RELEASE = sys.argv[1] if len(sys.argv) > 1 else None
TOP = os.path.abspath(RELEASE) if RELEASE else os.path.dirname(os.path.dirname(os.path.abspath(__file__)))
LINK = re.compile(r"\]\(([^()\s]+)\)")
HEADER = "| promise | contract | a wrong body that is refused |"


def prose(page):
    """The lines of a page, without its fenced code."""
    with open(os.path.join(TOP, page), encoding="utf-8") as file:
        parts = re.split(r"^```.*$", file.read(), flags=re.MULTILINE)
    return "\n".join(parts[::2]).split("\n")


def anchors(page):
    """The anchors of the headings of a page."""
    headings = (re.match(r"#+ (.*)", line) for line in prose(page))
    return {re.sub(r"[^\w\- ]", "", heading[1].lower()).replace(" ", "-") for heading in headings if heading}


def link_faults(page):
    """What is wrong with the links of a page."""
    for link in LINK.findall("\n".join(prose(page))):
        path, _, anchor = link.partition("#")
        if ":" in path:
            continue
        target = os.path.normpath(os.path.join(os.path.dirname(page), path)) if path else page
        if target.startswith("..") or not os.path.exists(os.path.join(TOP, target)):
            yield f"{page}: {link} leads nowhere"
        elif anchor and anchor not in anchors(target):
            yield f"{page}: {target} has no heading {anchor}"


def row_faults(pages):
    """What is wrong with the rows of the promises."""
    rows = [(page, line) for page in pages for line in prose(page) if line.startswith("| ") and line != HEADER]
    named = set()
    for place, (page, row) in enumerate(rows):
        cells = [cell.strip() for cell in row.strip("|").split("|")]
        if len(cells) != 3 or not all(cells[:2]) or "``" in row:
            yield f"{page}: not a promise, a contract and its wrong bodies: {row}"
        if row in (other for _, other in rows[:place]):
            yield f"{page}: a row that is there already: {row}"
        named.update(re.findall(r"`(\w+)`", cells[-1]))
    edits = {os.path.basename(path)[:-5] for path in glob.glob(os.path.join(TOP, "crates/*/must-fail/*.edit"))}
    yield from (f"docs/proofs: there is no wrong body {name}" for name in sorted(named - edits))
    yield from (f"docs/proofs: no row has the wrong body {name}" for name in sorted(edits - named))


def all_pages():
    """The pages of the release, or of the checkout."""
    if RELEASE:
        return [os.path.relpath(path, TOP) for path in glob.glob(os.path.join(TOP, "**/*.md"), recursive=True)]
    listed = subprocess.run(["git", "ls-files", "--cached", "--others", "--exclude-standard", "*.md"],
                            cwd=TOP, capture_output=True, text=True, check=True).stdout.split("\n")
    return [page for page in listed if page and os.path.exists(os.path.join(TOP, page))]


def main():
    pages = all_pages()
    faults = [fault for page in pages for fault in link_faults(page)]
    if not RELEASE:
        faults += row_faults([page for page in pages if page.startswith("docs/proofs/")])
    elif not pages:
        faults = ["there is no page"]
    sys.exit("\n".join("documents.py: " + fault for fault in faults) or None)


main()
