#!/usr/bin/env python3
"""Looks at the shape of the repository, and keeps the table of lines and seconds in docs/ARCHITECTURE.md.

Usage: docs/shape.py            fails where a clause has over 200 characters or the table is not up to date; prints limits that stand in more
                                than two files, and crates whose tests cost over 30 % or whose edits cost over 100 % of their proof's seconds
       docs/shape.py --write    makes the table anew, of the files and of docs/gate.txt
"""
import collections
import os
import re
import sys

import marked

TOP = os.path.dirname(os.path.dirname(os.path.abspath(__file__)))
ARCHITECTURE = os.path.join(TOP, "docs", "ARCHITECTURE.md")
BEGIN = "<!-- the table of docs/shape.py -->"
LONGEST = 200


def text_of(path):
    with open(path, encoding="utf-8") as file:
        return file.read()


def files(ending, *folders):
    """The files of the crates with an ending, below folders of such names."""
    for where, inside, names in os.walk(os.path.join(TOP, "crates")):
        inside[:] = [it for it in inside if it != "out"]
        parts = os.path.relpath(where, TOP).split(os.sep)
        if len(parts) > 2 and parts[2] in folders:
            for name in sorted(names):
                if name.endswith(ending):
                    yield os.path.join(where, name)


def tests_of(crate):
    """The names of the test files of a crate."""
    names = set()
    for root in ("lib.rt", "main.rt"):
        path = os.path.join(TOP, "crates", crate, "src", root)
        if os.path.exists(path):
            names.update(name + ".rt" for name in re.findall(r"#\[cfg\(test\)\]\nmod (\w+);", text_of(path)))
    return names


def clauses(text):
    """The clauses of a file with their lines: from `ensures` or `requires` up to the brace that ends it."""
    for start in re.finditer(r"^[ \t]*(ensures|requires)\b", text, re.M):
        depth, at = 0, text.find("{", start.start())
        for end in range(at, len(text)):
            depth += {"{": 1, "}": -1}.get(text[end], 0)
            if depth == 0:
                break
        clause = re.sub(r"\s+", " ", text[start.start() : end + 1]).strip()
        yield text.count("\n", 0, start.start()) + 1 + (text[start.start()] == "\n"), clause


def long_clauses():
    for path in files(".rt", "src"):
        for line, clause in clauses(text_of(path)):
            if len(clause) > LONGEST:
                yield f"{os.path.relpath(path, TOP)}:{line}: a clause of {len(clause)} characters"


def scattered_limits():
    """Constants of three digits and more whose number stands in two files of code and definitions besides those that declare one of that number."""
    holders, limits = collections.defaultdict(set), collections.defaultdict(set)
    homes = collections.defaultdict(set)
    for path in [*files(".rt", "src"), *files(".antt", "specs")]:
        crate = os.path.relpath(path, TOP).split(os.sep)[1]
        if os.path.basename(path) in tests_of(crate) or "Examples" in path:
            continue
        text = re.sub(r"//.*|--.*", "", text_of(path))
        for number in re.findall(r"(?<![\w.\"])\d[\d_]{2,}(?![\w.])", text):
            holders[int(number.replace("_", ""))].add(os.path.relpath(path, TOP))
        for reach, name, number in re.findall(r"(pub |)const (\w+): \w+ = ([\d_]+);", text):
            homes[int(number.replace("_", ""))].add(os.path.relpath(path, TOP))
            if reach:
                limits[int(number.replace("_", ""))].add(name)
    for number, names in sorted(limits.items()):
        others = holders[number] - homes[number]
        if len(others) > 1:
            yield f"the limit {' '.join(sorted(names))}, {number}, stands also in {' '.join(sorted(others))}"


def lines(paths):
    return sum(text_of(path).count("\n") for path in paths)


def crates():
    return sorted(it for it in os.listdir(os.path.join(TOP, "crates")) if os.path.isdir(os.path.join(TOP, "crates", it, "src")))


def below(crate, folder, ending):
    top = os.path.join(TOP, "crates", crate, folder) + os.sep
    return [path for path in files(ending, folder) if path.startswith(top)]


def seconds():
    rows = {}
    for line in text_of(os.path.join(TOP, "docs", "gate.txt")).split("\n"):
        if line and not line.startswith("#"):
            name, *numbers = line.split()
            rows[name] = tuple(map(int, numbers))
    return rows


def row_of(crate, measured):
    tests = tests_of(crate)
    code = below(crate, "src", ".rt")
    edits = os.path.join(TOP, "crates", crate, "must-fail")
    return (
        lines(path for path in code if os.path.basename(path) not in tests),
        lines(path for path in code if os.path.basename(path) in tests),
        lines(below(crate, "specs", ".antt")),
        lines(below(crate, "proofs", ".antt")),
        len(os.listdir(edits)) if os.path.isdir(edits) else 0,
        *measured.get(crate, (0, 0, 0)),
    )


def table():
    measured = seconds()
    rows = [(f"`{crate}`", *row_of(crate, measured)) for crate in crates()]
    rows.append(("all", *(sum(row[at] for row in rows) for at in range(1, 9))))
    head = "| Crate | Code | Tests | Definitions | Proofs | Edits | Proof, s | Tests, s | Edits, s |\n|---|---|---|---|---|---|---|---|---|\n"
    return head + "".join("| " + " | ".join(map(str, row)) + " |\n" for row in rows)


def over_the_rule():
    for crate, (proof, tests, edits) in sorted(seconds().items()):
        if tests > 0.3 * proof:
            yield f"{crate}: its tests cost {tests} s, its proof {proof} s"
        if edits > proof:
            yield f"{crate}: its edits cost {edits} s, its proof {proof} s"


def main():
    bad = list(long_clauses())
    for line in [*bad, *scattered_limits(), *over_the_rule()]:
        print(f"shape: {line}")
    if not marked.keep(ARCHITECTURE, BEGIN, table(), sys.argv[1:] == ["--write"]):
        bad.append("table")
        print("shape: the table of docs/ARCHITECTURE.md is not up to date: run docs/shape.py --write")
    print(f"shape: {len(crates())} crates, {len(bad)} faults")
    return 1 if bad else 0


if __name__ == "__main__":
    sys.exit(main())
