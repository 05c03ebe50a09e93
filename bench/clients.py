#!/usr/bin/env python3
"""Clients on sockets that edit the same lists at once, and what each of them may have seen, judged from outside.

Usage: bench/clients.py [CLIENTS [REQUESTS [PROGRAM]]]     64 clients of 1,000 requests each, if not told otherwise

It starts `jsonapid serve` on a free port of the loopback address with as many workers as clients, each of which serves one connection. Each client keeps its
connection; it creates items, appends them to a few shared lists, and reads the lists. Then it is checked that

- each list that anybody saw is a beginning of what the list came to, and no client saw less than it had seen before;
- each append that was acknowledged stands in its list once, and what is in a list was appended by somebody;
- the ids that the server gave have no gap and no double;
- the line at the end tells the connections, the messages and the entries that the clients counted.

It builds nothing: run the program once by `rt run` in crates/jsonapid first. It prints the requests a second, and fails where something does not hold.
"""
import collections
import http.client
import json
import multiprocessing
import os
import random
import socket
import subprocess
import sys
import tempfile
import time

HERE = os.path.dirname(os.path.abspath(__file__))
CLIENTS = int(sys.argv[1]) if len(sys.argv) > 1 else 64
REQUESTS = int(sys.argv[2]) if len(sys.argv) > 2 else 1000
PROGRAM = sys.argv[3] if len(sys.argv) > 3 else f"{HERE}/../crates/jsonapid/out/jsonapid"
LISTS = 8
SCHEMA = {
    "types": {
        "items": {"attributes": {"by": {"type": "int"}}},
        "lists": {"client-ids": True, "attributes": {"name": {"type": "text"}}, "relationships": {"items": {"kind": "many", "target": "items"}}},
    }
}
TYPE = "application/vnd.api+json"


class Client:
    """One connection, and what was seen on it."""

    def __init__(self, port, number):
        self.number = number
        self.random = random.Random(number)
        self.http = http.client.HTTPConnection("127.0.0.1", port, timeout=120)
        self.requests = 0
        self.created = []
        self.appended = []
        self.seen = collections.defaultdict(list)

    def ask(self, method, path, data=None):
        self.http.request(method, path, None if data is None else json.dumps({"data": data}), {} if data is None else {"Content-Type": TYPE})
        reply = self.http.getresponse()
        body = reply.read()
        self.requests += 1
        return reply.status, json.loads(body) if body else None

    def make_list(self, number):
        status, _ = self.ask("POST", "/lists", {"type": "lists", "id": f"l{number}", "attributes": {"name": "a list"}})
        assert status == 201, status

    def create(self):
        status, document = self.ask("POST", "/items", {"type": "items", "attributes": {"by": self.number}})
        assert status == 201, status
        self.created.append(int(document["data"]["id"]))

    def append(self):
        place, item = self.random.randrange(LISTS), self.random.choice(self.created)
        status, document = self.ask("POST", f"/lists/l{place}/relationships/items", [{"type": "items", "id": str(item)}])
        if status == 204:
            self.appended.append((place, item))
        else:
            assert status == 422 and document["errors"][0]["code"] == "too-many-members", (status, document)

    def look(self, place):
        status, document = self.ask("GET", f"/lists/l{place}/relationships/items")
        assert status == 200, status
        now = [int(it["id"]) for it in document["data"]]
        was = self.seen[place][-1] if self.seen[place] else []
        assert now[: len(was)] == was, f"client {self.number} saw less of list {place} than before"
        if now != was:
            self.seen[place].append(now)
        return now

    def work(self, count):
        for _ in range(count):
            turn = self.random.random()
            if not self.created or turn < 0.02:
                self.create()
            elif turn < 0.2:
                self.append()
            else:
                self.look(self.random.randrange(LISTS))


def play(port, number, started, results):
    client = Client(port, number)
    client.look_ready = client.ask("GET", "/lists")
    started.wait()
    begun = time.perf_counter()
    client.work(REQUESTS)
    took = time.perf_counter() - begun
    client.http.close()
    results.put((number, client.requests, client.created, client.appended, {place: seen[-1] for place, seen in client.seen.items()}, took))


def main():
    with tempfile.TemporaryDirectory() as work:
        with open(f"{work}/schema.json", "w", encoding="ascii") as it:
            json.dump(SCHEMA, it)
        with socket.socket() as it:
            it.bind(("127.0.0.1", 0))
            port = it.getsockname()[1]
        # one connection for the lists and one for the end, beside the clients'
        server = subprocess.Popen([PROGRAM, "serve", f"{work}/schema.json", f"127.0.0.1:{port}", str(min(CLIENTS, 64)), "1"], stdout=subprocess.PIPE)
        for _ in range(100):
            try:
                first = Client(port, 0)
                first.ask("GET", "/lists")
                break
            except OSError:
                time.sleep(0.05)
        for number in range(LISTS):
            first.make_list(number)
        started, results = multiprocessing.Event(), multiprocessing.Queue()
        others = [multiprocessing.Process(target=play, args=(port, number, started, results)) for number in range(1, CLIENTS)]
        for it in others:
            it.start()
        time.sleep(1)
        begun = time.perf_counter()
        started.set()
        first.work(REQUESTS)
        told = [results.get(timeout=600) for _ in others]
        took = time.perf_counter() - begun
        for it in others:
            it.join()
        last = {place: first.look(place) for place in range(LISTS)}
        first.http.close()
        line = server.stdout.read().decode()
        status = server.wait(timeout=60)
    created = sorted(first.created + [it for row in told for it in row[2]])
    assert created == list(range(1, len(created) + 1)), "the ids from the server have a gap or a double"
    appended = set(first.appended) | {tuple(it) for row in told for it in row[3]}
    for place, items in last.items():
        assert len(set(items)) == len(items), f"an item stands twice in list {place}"
        assert {item for at, item in appended if at == place} == set(items), f"list {place} is not what was acknowledged"
        for row in told:
            seen = row[4].get(place, [])
            assert items[: len(seen)] == seen, f"client {row[0]} saw what list {place} did not come to"
    requests = first.requests + sum(row[1] for row in told)
    assert status == 0 and line == f"sessions {CLIENTS} requests {requests} entries {requests}\n", (status, line)
    print(f"{CLIENTS} clients, {requests} requests, {len(created)} items, {len(appended)} appends: {requests / took:,.0f} requests a second; {line.strip()}")


if __name__ == "__main__":
    main()
