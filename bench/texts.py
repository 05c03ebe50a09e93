#!/usr/bin/env python3
"""The replies to requests with random texts, byte for byte beside those that Python's own JSON writer gives.

Usage: bench/texts.py [REQUESTS [SEED [PROGRAM]]]     1,500 requests if not told otherwise; it builds nothing: run the program once by `rt run` in crates/jsonapid first

Articles are created with titles of escapes, control bytes, characters of one to four bytes and up to 65,536 bytes, written with and without escapes in the request, then fetched one by one, and through pages with their authors.
Each reply is told apart by its length, and compared whole: status line, fields and body. It prints how many replies and bytes were the same, and fails at the first that is not.
"""
import json
import os
import random
import subprocess
import sys
import tempfile

HERE = os.path.dirname(os.path.abspath(__file__))
sys.argv, WORDS = sys.argv[:1], sys.argv[1:]
sys.path.insert(0, HERE)
import measure  # noqa: E402  (the blog's schema)

REQUESTS = int(WORDS[0]) if WORDS else 1500
SEED = int(WORDS[1]) if len(WORDS) > 1 else 1
PROGRAM = WORDS[2] if len(WORDS) > 2 else f"{HERE}/../crates/jsonapid/out/jsonapid"
PLAIN, PAGE = "application/vnd.api+json", 'application/vnd.api+json;profile="https://jsonapi.org/profiles/ethanresnick/cursor-pagination/"'
KINDS = ["\"\\/\b\f\n\r\t", "".join(map(chr, range(32))) + "\x7f", "abc xyz", "äöüß\u0080\u07ff", "€漢\u0800\ufffd", "😀\U0010ffff\U00010000"]


def text_by(draw):
    """Returns a text of at most 65,536 bytes."""
    if draw.random() < 0.005:
        return "".join(draw.choice(KINDS[5]) for _ in range(16_384))
    most = 16_384 if draw.random() < 0.01 else draw.choice([0, 1, 3, 20, 200])
    return "".join(draw.choice(draw.choice(KINDS)) for _ in range(draw.randint(0, most) if most < 16_384 else most))


def compact(value):
    return json.dumps(value, ensure_ascii=False, separators=(",", ":"), sort_keys=True).encode()


def reply(status, body, kind=PLAIN, location=None):
    """Returns the reply's bytes (RFC 9112, sections 4 to 6)."""
    head = f"HTTP/1.1 {status}\r\nVary: Accept\r\nContent-Type: {kind}\r\nContent-Length: {len(body)}\r\n" + (f"Location: {location}\r\n" if location else "")
    return head.encode() + b"\r\n" + body


def links_of(base, name):
    return {"related": f"{base}/{name}", "self": f"{base}/relationships/{name}"}


def person(name):
    return {"attributes": {"name": name}, "id": "ann", "links": {"self": "/people/ann"}, "type": "people"}


def article(number, title, views):
    base = f"/articles/{number}"
    return {
        "attributes": {"draft": None, "title": title, "views": views},
        "id": str(number),
        "links": {"self": base},
        "relationships": {"author": {"data": {"id": "ann", "type": "people"}, "links": links_of(base, "author")}, "comments": {"data": [], "links": links_of(base, "comments")}},
        "type": "articles",
    }


def post(target, data, draw):
    body = json.dumps({"data": data}, ensure_ascii=draw.random() < 0.5).encode()
    return f"POST {target} HTTP/1.1\r\nHost: h\r\nContent-Type: {PLAIN}\r\nContent-Length: {len(body)}\r\n\r\n".encode() + body


def main():
    draw = random.Random(SEED)
    name = text_by(draw)
    asked = [post("/people", {"type": "people", "id": "ann", "attributes": {"name": name}}, draw)]
    told = [reply("201 Created", compact({"data": person(name)}), location="/people/ann")]
    made = []
    while len(asked) < REQUESTS:
        if not made or draw.random() < 0.5:
            number, title, views = len(made) + 1, text_by(draw), draw.choice([0, -(2**63), 2**63 - 1, draw.randint(-1000, 1000)])
            data = {"type": "articles", "attributes": {"title": title, "views": views}, "relationships": {"author": {"data": {"type": "people", "id": "ann"}}}}
            made.append(article(number, title, views))
            asked.append(post("/articles", data, draw))
            told.append(reply("201 Created", compact({"data": made[-1]}), location=f"/articles/{number}"))
        elif draw.random() < 0.8:
            row = draw.choice(made)
            asked.append(measure.request("GET", row["links"]["self"]).encode())
            told.append(reply("200 OK", compact({"data": row})))
        else:
            row = draw.choice(made)
            asked.append(measure.request("GET", row["links"]["self"] + "?include=author").encode())
            told.append(reply("200 OK", compact({"data": row, "included": [person(name)]})))
            if len(made) < 10:
                # (so few rows have one page)
                asked.append(measure.request("GET", "/articles?include=author").encode())
                told.append(reply("200 OK", compact({"data": made, "included": [person(name)], "links": {"next": None, "prev": None}}), PAGE))
    with tempfile.TemporaryDirectory() as work:
        with open(f"{work}/schema", "w", encoding="ascii") as it:
            json.dump(measure.SCHEMA, it)
        found = subprocess.run([PROGRAM, "pipe", f"{work}/schema"], input=b"".join(asked), capture_output=True, check=False)
    at = 0
    for number, want in enumerate(told):
        have = found.stdout[at : at + len(want)]
        if have != want:
            sys.exit(f"reply {number} differs:\n{asked[number][:600]!r}\n{have[:900]!r}\n{want[:900]!r}")
        at += len(want)
    assert at == len(found.stdout) and found.returncode == 0, (len(found.stdout) - at, found.returncode)
    print(f"{len(told):,} replies with {at:,} bytes are the same; the longest text in {max(len(row['attributes']['title'].encode()) for row in made):,} bytes")


main()
