#!/usr/bin/env python3
"""What requests through `jsonapid pipe` cost, over a blog: instructions a request by callgrind, allocations by memcheck, and processor time, each from two runs of
which one has the requests more.

Usage: bench/measure.py [--quick|--times] [PROGRAM]     --quick: instructions among 1,000 articles alone; --times: processor time alone

It prints the tables of docs/ARCHITECTURE.md. It builds nothing: run the program once by `rt run` in crates/jsonapid first. Needs valgrind. It takes some 20 minutes, and 2 with --quick."""
import json
import os
import re
import resource
import subprocess
import sys
import tempfile

HERE = os.path.dirname(os.path.abspath(__file__))
WORDS = [it for it in sys.argv[1:] if not it.startswith("--")]
PROGRAM = WORDS[0] if WORDS else f"{HERE}/../crates/jsonapid/out/jsonapid"
SCHEMA = {
    "types": {
        "articles": {
            "attributes": {"draft": {"type": "bool", "nullable": True}, "title": {"type": "text"}, "views": {"type": "int", "default": 0}},
            "relationships": {"author": {"kind": "one", "target": "people"}, "comments": {"kind": "many", "target": "comments"}},
        },
        "comments": {"attributes": {"text": {"type": "text"}}, "relationships": {"author": {"kind": "one", "target": "people"}}},
        "people": {"client-ids": True, "attributes": {"name": {"type": "text"}}},
    }
}
PLAIN = "application/vnd.api+json"
ATOMIC = 'application/vnd.api+json;ext="https://jsonapi.org/ext/atomic"'


def request(method, target, data=None, kind=PLAIN):
    if data is None:
        return f"{method} {target} HTTP/1.1\r\nHost: h\r\n\r\n"
    body = json.dumps(data, separators=(",", ":"))
    return f"{method} {target} HTTP/1.1\r\nHost: h\r\nContent-Type: {kind}\r\nContent-Length: {len(body)}\r\n\r\n{body}"


def person(number):
    return request("POST", "/people", {"data": {"type": "people", "id": f"p{number}", "attributes": {"name": f"Name {number}"}}})


def article_data(number):
    return {
        "type": "articles",
        "attributes": {"title": f"Title {number}", "views": number},
        "relationships": {"author": {"data": {"type": "people", "id": f"p{number % 10}"}}},
    }


def article(number):
    return request("POST", "/articles", {"data": article_data(number)})


def listing(count):
    return request("POST", "/operations", {"atomic:operations": [{"op": "add", "data": article_data(number)} for number in range(count)]}, ATOMIC)


def people():
    return "".join(person(number) for number in range(10))


def blog(count):
    return people() + "".join(article(number) for number in range(count))


class Draws:
    """The draws of the command `workload`."""

    def __init__(self, seed):
        self.state = seed

    def draw(self, below):
        self.state = (self.state * 6364136223846793005 + 1442695040888963407) % 2**64
        return (self.state >> 33) % below


def patch(number, views):
    return request("PATCH", f"/articles/{number}", {"data": {"type": "articles", "id": str(number), "attributes": {"views": views}}})


def mix(draws, rows, number):
    """Returns a request of the workload's mix over so many articles."""
    kind = draws.draw(10)
    if kind < 4:
        return article(number)
    if kind == 7:
        return request("GET", "/articles?page[size]=20&include=author")
    if kind == 9:
        return request("POST", "/comments", {"data": {"type": "comments", "attributes": {"text": f"c{number}"}}})
    at = draws.draw(rows) + 1
    return patch(at, number) if kind < 6 else request("DELETE" if kind == 6 else "GET", f"/articles/{at}")


def kinds(rows):
    """Returns the kinds of requests over so many articles: a name, what makes the request of a number, and how many are measured."""
    draws = Draws(7)
    return [
        ("GET of an article", lambda n: request("GET", f"/articles/{rows // 2}"), 1000),
        ("GET of a person", lambda n: request("GET", "/people/p1"), 1000),
        ("a GET that is not found", lambda n: request("GET", "/articles/5000000"), 1000),
        ("POST of an article", article, 1000),
        ("PATCH of an article", lambda n: patch(n % rows + 1, n), 1000),
        ("DELETE of an article", lambda n: request("DELETE", f"/articles/{n % rows + 1}"), 1000),
        ("page of 20 articles", lambda n: request("GET", "/articles?page[size]=20"), 100),
        ("page of 20 articles with their authors", lambda n: request("GET", "/articles?page[size]=20&include=author"), 100),
        ("list of ten additions", lambda n: listing(10), 50),
        ("the workload's mix", lambda n: mix(draws, rows, n), 1000),
    ]


def run(work, words, text):
    """Runs the program over the text, under those words, and returns what they said."""
    with open(f"{work}/in", "w", encoding="ascii", newline="") as it:
        it.write(text)
    with open(f"{work}/in", encoding="ascii") as it:
        return subprocess.run([*words, PROGRAM, "pipe", f"{work}/schema"], stdin=it, stdout=subprocess.DEVNULL, stderr=subprocess.PIPE, text=True, check=True).stderr


def callgrind(work, text):
    """Returns the instructions that serving the text takes."""
    said = run(work, ["valgrind", "--tool=callgrind", f"--callgrind-out-file={work}/calls"], text)
    return int(re.search(r"Collected : (\d+)", said).group(1))


def allocations(work, text):
    """Returns how often memory was asked for."""
    said = run(work, ["valgrind", "--tool=memcheck", "--undef-value-errors=no"], text)
    return int(re.search(r"total heap usage: ([\d,]+) allocs", said).group(1).replace(",", ""))


def processor_seconds(work, text):
    """Returns the least processor seconds of three runs."""
    took = []
    for _ in range(3):
        before = resource.getrusage(resource.RUSAGE_CHILDREN)
        run(work, [], text)
        after = resource.getrusage(resource.RUSAGE_CHILDREN)
        took.append(after.ru_utime + after.ru_stime - before.ru_utime - before.ru_stime)
    return min(took)


def peak(work, text):
    """Returns the most bytes that the program held."""
    said = run(work, [sys.executable, "-c", PEAK], text)
    return int(said) * 1024


PEAK = "import resource, subprocess, sys; subprocess.run(sys.argv[1:], check=True); print(resource.getrusage(resource.RUSAGE_CHILDREN).ru_maxrss, file=sys.stderr)"


def costs(work, measure, rows):
    """Returns what a request of each kind costs over so many articles."""
    before = blog(rows)
    base = measure(work, before)
    found = {}
    for name, make, count in kinds(rows):
        found[name] = (measure(work, before + "".join(make(number) for number in range(count))) - base) / count
    return found


def times(work, rows):
    """Returns the processor microseconds that a request of each kind takes over so many articles."""
    before = blog(rows)
    base = processor_seconds(work, before)
    found = {}
    for name, make, count in kinds(rows):
        many = min(count * 100, rows) if name.startswith("DELETE") else count * 100
        found[name] = (processor_seconds(work, before + "".join(make(number) for number in range(many))) - base) / many * 1e6
    return found


def whole(work):
    """Prints all of it."""
    counts, more = costs(work, callgrind, 1000), costs(work, callgrind, 30_000)
    asked = costs(work, allocations, 1000)
    print("| Request | Instructions, 1,000 articles | 30,000 | Times | Allocations |\n|---|---|---|---|---|")
    for name, cost in counts.items():
        print(f"| {name} | {cost:,.0f} | {more[name]:,.0f} | {more[name] / cost:.2f} | {asked[name]:.1f} |", flush=True)
    thousand = blog(1000)
    base = callgrind(work, thousand)
    sorted_page = "".join(request("GET", "/articles?page[size]=20&sort=title") for _ in range(10))
    print(f"\n| page of 20, sorted over 1,000 | {(callgrind(work, thousand + sorted_page) - base) / 10:,.0f} |")
    print(f"| list of 1,000 additions | {(callgrind(work, thousand + listing(1000) * 2) - base) / 2:,.0f} |")
    few, many = processor_seconds(work, blog(4000)), processor_seconds(work, blog(40000))
    print(f"| 4,000 and 40,000 POSTs of articles | {few:.3f} s and {many:.3f} s, {many / few:.1f} times |")
    timed(work)
    print(f"\n| memory of an article, of 300,000 | {(peak(work, blog(300_000)) - peak(work, people())) / 300_000:,.0f} bytes |")


def timed(work):
    """Prints the processor time of a request, which means something on a machine that does nothing else."""
    by_rows = [times(work, rows) for rows in (1000, 30_000, 300_000)]
    print("\n| Request | Processor microseconds, 1,000 articles | 30,000 | 300,000 |\n|---|---|---|---|")
    for name in by_rows[0]:
        print(f"| {name} | " + " | ".join(f"{it[name]:.1f}" for it in by_rows) + " |", flush=True)


def main():
    with tempfile.TemporaryDirectory() as work:
        with open(f"{work}/schema", "w", encoding="ascii") as it:
            json.dump(SCHEMA, it)
        if "--quick" in sys.argv:
            for name, cost in costs(work, callgrind, 1000).items():
                print(f"| {name} | {cost:,.0f} |", flush=True)
        elif "--times" in sys.argv:
            timed(work)
        else:
            whole(work)


if __name__ == "__main__":
    main()
