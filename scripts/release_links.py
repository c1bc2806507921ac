#!/usr/bin/env python3
"""release_links.py RELEASE PAGE..: leads the relative links of these pages, which release.sh copied into the folder RELEASE, to its files.

A link to a file that the release has elsewhere than the checkout leads there. One to a file that it doesn't have becomes its text.
"""
import os
import re
import sys

# The folders of a release that have files of the checkout, and the folders that these are from.
PLACES = {"share/doc/heal": ".", "share/heal/rust": "bindings/rust", "share/heal": ".", "include": "bindings/c"}
LINK = re.compile(r"\[([^\[\]]*)\]\(([^()\s#:]+)(#[^()\s]*)?\)")
FENCED = re.compile(r"(^```.*?^```$)", re.MULTILINE | re.DOTALL)


def source_of(page):
    """Returns the page of the checkout that a page of the release is."""
    for place, folder in PLACES.items():
        if page.startswith(place + "/"):
            return os.path.normpath(os.path.join(folder, os.path.relpath(page, place)))
    return page


def place_of(release, source):
    """Returns where the release has a file or a folder of the checkout, or None."""
    for place, folder in PLACES.items():
        below = os.path.relpath(source, folder)
        if not below.startswith("..") and os.path.exists(os.path.join(release, place, below)):
            return os.path.normpath(os.path.join(place, below))
    return None


def led(release, page, text):
    """Returns the text of a page with its links led to files of the release."""

    def lead(link):
        source = os.path.normpath(os.path.join(os.path.dirname(source_of(page)), link[2]))
        place = place_of(release, source)
        return f"[{link[1]}]({os.path.relpath(place, os.path.dirname(page))}{link[3] or ''})" if place else link[1]

    parts = FENCED.split(text)
    parts[::2] = [LINK.sub(lead, part) for part in parts[::2]]
    return "".join(parts)


def main():
    release, pages = sys.argv[1], sys.argv[2:]
    for path in pages:
        with open(path, encoding="utf-8") as file:
            text = file.read()
        with open(path, "w", encoding="utf-8") as file:
            file.write(led(release, os.path.relpath(path, release), text))


main()
