#!/usr/bin/env python3
"""Keeps the table of error codes in README.md, made of the definition of what each code tells (crates/error_objects/specs/Codes.antt).

Usage: docs/codes.py            fails where the table is not up to date
       docs/codes.py --write    makes it anew
"""
import os
import re
import sys

import marked

TOP = os.path.dirname(os.path.dirname(os.path.abspath(__file__)))
README = os.path.join(TOP, "README.md")
BEGIN = "<!-- the table of docs/codes.py -->"
SOURCES = {
    "no_source": "-",
    "some_header": "the header",
    "some_parameter": "the parameter",
    "some_pointer": "a pointer",
    "pointer_in_list": "in a list of operations a pointer",
}


def rows():
    """Status, code, title and source of each code, by status."""
    text = open(os.path.join(TOP, "crates", "error_objects", "specs", "Codes.antt"), encoding="utf-8").read()
    line = re.compile(r'^told code\.\w+ = tell (\d+) \(codes "([^"]+)"\) \(codes "([^"]+)"\) (.+)$', re.M)
    for status, word, title, source in line.findall(text):
        named = re.search(r'header \(codes "([^"]+)"\)', source)
        yield int(status), word, title, f"the header `{named[1]}`" if named else SOURCES[source]


def table():
    head = "| Status | `code` | `title` | `source` |\n|---|---|---|---|\n"
    return head + "".join(f"| {status} | `{word}` | {title} | {source} |\n" for status, word, title, source in sorted(rows(), key=lambda it: it[0]))


def main():
    if not marked.keep(README, BEGIN, table(), sys.argv[1:] == ["--write"]):
        print("codes: the table of error codes in README.md is not up to date: run docs/codes.py --write")
        return 1
    print(f"codes: {len(list(rows()))} error codes")
    return 0


if __name__ == "__main__":
    sys.exit(main())
