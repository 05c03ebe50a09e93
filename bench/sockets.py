#!/usr/bin/env python3
"""What `jsonapid serve` does with clients and addresses that misbehave, on real sockets.

Usage: bench/sockets.py [PROGRAM]     It builds nothing: run the program once by `rt run` in crates/jsonapid first. It takes some 70 seconds, since limits of time are waited for.

It checks that an address that is in use, or that is no address of this machine, is told as `jsonapid: cannot listen` with status 1; that faults of the schema file are told before anything listens; and that one worker
serves the next client behind one that resets its connection, one that sends half a head and waits, one that sends half a body and goes, one that sends no HTTP, and one that never reads what it is sent.
"""
import json
import os
import socket
import struct
import subprocess
import sys
import tempfile
import time

HERE = os.path.dirname(os.path.abspath(__file__))
sys.argv, WORDS = sys.argv[:1], sys.argv[1:]
sys.path.insert(0, HERE)
import measure  # noqa: E402  (the blog and its requests)

PROGRAM = WORDS[0] if WORDS else f"{HERE}/../crates/jsonapid/out/jsonapid"


def free_port():
    with socket.socket() as it:
        it.bind(("127.0.0.1", 0))
        return it.getsockname()[1]


def told(work, schema, address, workers="1", quota="9"):
    """Returns what a server that cannot serve prints, and its status."""
    it = subprocess.run([PROGRAM, "serve", schema, address, workers, quota], capture_output=True, text=True, timeout=20, cwd=work, check=False)
    return it.stdout, it.returncode


def check_words(work, port):
    taken = socket.socket()
    taken.bind(("127.0.0.1", 0))
    taken.listen()
    faulty, large = f"{work}/faulty", f"{work}/large"
    with open(faulty, "w", encoding="ascii") as it:
        it.write('{"types":{"a":{"attributes":{"b":{"type":"float"}}}}}')
    with open(large, "w", encoding="ascii") as it:
        it.write(" " * 1_048_577)
    local = f"127.0.0.1:{port}"
    for words, line, status in [
        ((work, "schema", f"127.0.0.1:{taken.getsockname()[1]}"), "jsonapid: cannot listen\n", 1),
        ((work, "schema", "192.0.2.1:80"), "jsonapid: cannot listen\n", 1),
        ((work, "schema", "nowhere"), "jsonapid: cannot listen\n", 1),
        ((work, "none", local), "jsonapid: missing none\n", 2),
        ((work, "faulty", local), "jsonapid: schema /types/a/attributes/b/type type\n", 2),
        ((work, "large", local), "jsonapid: schema too large\n", 2),
        ((work, "schema", local, "65"), "jsonapid: words\n", 2),
        ((work, "schema", local, "0"), "jsonapid: words\n", 2),
        ((work, "schema", local, "1", "1000001"), "jsonapid: words\n", 2),
    ]:
        found = told(*words)
        assert found == (line, status), (words, found)
    taken.close()


def connect(port):
    for _ in range(200):
        try:
            return socket.create_connection(("127.0.0.1", port), timeout=60)
        except OSError:
            time.sleep(0.02)
    sys.exit("no server")


def ask(port, name):
    """Asks for a page on a connection of its own, and returns the seconds that the reply took."""
    begun = time.monotonic()
    with connect(port) as it:
        it.sendall(measure.request("GET", "/people").encode())
        it.shutdown(socket.SHUT_WR)
        found = b""
        while more := it.recv(1 << 16):
            found += more
    assert found.startswith(b"HTTP/1.1 200 OK\r\n"), (name, found)
    return time.monotonic() - begun


def reset(port):
    it = connect(port)
    it.sendall(b"GET /people HTTP/1.1\r\nHo")
    it.setsockopt(socket.SOL_SOCKET, socket.SO_LINGER, struct.pack("ii", 1, 0))
    it.close()


def half_head(port):
    it = connect(port)
    it.sendall(b"GET /people HTTP/1.1\r\nHost: h\r\n")
    return it


def half_body(port):
    it = connect(port)
    it.sendall(measure.person(1)[:-5].encode())
    it.close()


def no_http(port):
    it = connect(port)
    it.sendall(bytes(range(256)) * 100)
    it.close()


def never_reads(port):
    it = connect(port)
    it.settimeout(1)
    text = (measure.request("GET", "/articles?page[size]=1000") * 1000).encode()
    try:
        while True:
            it.sendall(text)
    except OSError:
        return it


def main():
    with tempfile.TemporaryDirectory() as work:
        with open(f"{work}/schema", "w", encoding="ascii") as it:
            json.dump(measure.SCHEMA, it)
        port = free_port()
        check_words(work, port)
        server = subprocess.Popen([PROGRAM, "serve", f"{work}/schema", f"127.0.0.1:{port}", "1", "12"], stdout=subprocess.PIPE, text=True)
        with connect(port) as it:
            it.sendall(measure.blog(1000).encode())
            it.shutdown(socket.SHUT_WR)
            while it.recv(1 << 20):
                pass
        kept = []
        for name, client in [("resets", reset), ("half a head", half_head), ("half a body", half_body), ("no HTTP", no_http), ("never reads", never_reads)]:
            kept.append(client(port))
            print(f"behind a client of the kind '{name}' the next one has its reply after {ask(port, name):.1f} seconds", flush=True)
        ask(port, "last")
        line = server.communicate(timeout=60)[0]
        assert server.returncode == 0 and line.startswith("sessions 12 requests "), (line, server.returncode)
        print(line, end="")


main()
