#!/usr/bin/env python3
"""Random scripts through `jsonapid replay`, each report judged from outside: the history that it prints is done again, request by request, by the plain
store of model.py, and what each stream was sent must be those answers, byte for byte.

Usage: bench/replays.py [SCRIPTS [SEED [PROGRAM]]]      1,000 scripts from the seed 1, if not told otherwise

It builds nothing: run the program once by `rt run` in crates/jsonapid first. It prints what the scripts came to, and fails at the first difference.
"""
import base64
import json
import os
import random
import subprocess
import sys

import model

HERE = os.path.dirname(os.path.abspath(__file__))
SCRIPTS = int(sys.argv[1]) if len(sys.argv) > 1 else 1000
SEED = int(sys.argv[2]) if len(sys.argv) > 2 else 1
PROGRAM = sys.argv[3] if len(sys.argv) > 3 else f"{HERE}/../crates/jsonapid/out/jsonapid"
SCHEMA = {
    "types": {
        "notes": {
            "attributes": {"n": {"type": "int", "default": 0}},
            "relationships": {"next": {"kind": "one", "target": "notes"}, "tags": {"kind": "many", "target": "tags"}},
        },
        "tags": {"client-ids": True, "attributes": {"name": {"type": "text", "nullable": True}}},
    }
}


def tag(draw):
    return {"type": "tags", "id": draw.choice(["a", "b", "ab", "bC"])}


def note(draw):
    return {"type": "notes", "id": str(draw.randint(1, 4))}


def a_list(draw):
    """A list of operations, some of which name what the list creates."""
    kinds = [
        lambda: {"op": "add", "data": {"type": "notes", "lid": "x", "attributes": {"n": draw.randint(0, 9)}}},
        lambda: {"op": "add", "data": {**tag(draw), "attributes": {}}},
        lambda: {"op": "update", "data": {**note(draw), "attributes": {"n": draw.randint(0, 9)}}},
        lambda: {"op": "remove", "ref": note(draw)},
        lambda: {"op": "add", "ref": {**note(draw), "relationship": "tags"}, "data": [tag(draw)]},
        lambda: {"op": "update", "ref": {"type": "notes", "lid": "x", "relationship": "next"}, "data": draw.choice([None, note(draw)])},
    ]
    return {"atomic:operations": [draw.choice(kinds)() for _ in range(draw.randint(1, 4))]}


def a_request(draw):
    """A request that is always a task: its method, target, body and Content-Type."""
    number, name = draw.randint(1, 4), draw.choice(["a", "b", "ab", "bC"])
    kinds = [
        lambda: ("GET", "/notes", None),
        lambda: ("GET", f"/notes?page[size]={draw.randint(1, 3)}&sort={draw.choice(['n', '-n'])}&include=tags,next", None),
        lambda: ("GET", f"/notes/{number}?include=next.tags", None),
        lambda: ("GET", f"/notes/{number}/tags", None),
        lambda: ("GET", f"/tags/{name}", None),
        lambda: (
            "POST",
            "/notes",
            {"data": {"type": "notes", "attributes": {"n": draw.randint(0, 9)}, "relationships": {"next": {"data": draw.choice([None, note(draw)])}}}},
        ),
        lambda: ("POST", "/tags", {"data": {"type": "tags", "id": name, "attributes": {"name": name}}}),
        lambda: ("PATCH", f"/notes/{number}", {"data": {"type": "notes", "id": str(number), "attributes": {"n": draw.randint(0, 9)}}}),
        lambda: ("PATCH", f"/notes/{number}/relationships/next", {"data": draw.choice([None, note(draw)])}),
        lambda: ("POST", f"/notes/{number}/relationships/tags", {"data": [tag(draw) for _ in range(draw.randint(0, 3))]}),
        lambda: ("DELETE", f"/notes/{number}/relationships/tags", {"data": [tag(draw)]}),
        lambda: ("DELETE", f"/notes/{number}", None),
        lambda: ("DELETE", f"/tags/{name}", None),
        lambda: ("POST", "/operations", a_list(draw)),
    ]
    method, target, data = draw.choice(kinds)()
    body = None if data is None else json.dumps(data, separators=(",", ":"))
    return method, target, body, model.EXT if target == "/operations" else model.PLAIN


def check(draw):
    """Runs a random script, and returns its entries and its refused commits."""
    streams = [[a_request(draw) for _ in range(draw.randint(0, 6))] for _ in range(draw.randint(1, 8))]
    steps = [draw.randrange(len(streams)) for _ in range(draw.randint(0, 120))]
    inputs = ["".join(model.request(*it) for it in requests) for requests in streams]
    script = {"schema": SCHEMA, "streams": [base64.b64encode(it.encode()).decode() for it in inputs], "steps": steps}
    ran = subprocess.run([PROGRAM, "replay"], input=json.dumps(script).encode(), stdout=subprocess.PIPE, check=True)
    report = json.loads(ran.stdout)
    store, sent, taken = model.Store(SCHEMA), ["" for _ in streams], [0 for _ in streams]
    for number in report["history"]:
        method, target, body, kind = streams[number][taken[number]]
        sent[number] += store.answer(method, target, body or "", kind)
        taken[number] += 1
    assert taken == [len(it) for it in streams], (script, report)
    assert report["ends"] == ["closed" for _ in streams], (script, report)
    assert [base64.b64decode(it).decode() for it in report["replies"]] == sent, (script, report, sent)
    return len(report["history"]), sum(report["refused"])


def main():
    draw, entries, refused = random.Random(SEED), 0, 0
    for _ in range(SCRIPTS):
        more, again = check(draw)
        entries, refused = entries + more, refused + again
    print(f"{SCRIPTS} scripts, {entries} entries, {refused} refused commits: no difference")


if __name__ == "__main__":
    main()
