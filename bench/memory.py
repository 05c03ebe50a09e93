#!/usr/bin/env python3
"""Want of memory at each request for it in turn, seen from outside.

Usage: bench/memory.py [PROGRAM [PAGES]]     It builds nothing of the programs: run them once by `rt run` in crates/jsonapid and in crates/page_runs first. Needs gcc.

A library that is loaded before libc's fails the call of a given number. Then it is checked, for every number up to the one at which nothing fails any more:

- `pipe` over a POST, a GET, a PATCH, a page and a list: what is sent is the whole replies to the first requests, as without a failure, and then the 503 text and nothing else, with status 5; or all of them;
  or nothing with status 5, where memory ran out before the session;
- 20,000 snapshots of 300 cells ask for no memory (`page_runs snapshots` asks as often as `page_runs cells`);
- `serve` with one worker: a connection that asks for a change and another that then reads the store. Where the first was sent 503 the store is as it was before, and where it was sent 201 the change is there.
"""
import os
import re
import socket
import subprocess
import sys
import tempfile
import time

HERE = os.path.dirname(os.path.abspath(__file__))
sys.argv, WORDS = sys.argv[:1], sys.argv[1:]
sys.path.insert(0, HERE)
import measure  # noqa: E402  (the blog and its requests)

PROGRAM = WORDS[0] if WORDS else f"{HERE}/../crates/jsonapid/out/jsonapid"
PAGES = WORDS[1] if len(WORDS) > 1 else f"{HERE}/../crates/page_runs/out/page_runs"
UNAVAILABLE = b"HTTP/1.1 503 Service Unavailable\r\nVary: Accept\r\nContent-Length: 0\r\nConnection: close\r\n\r\n"
SHIM = r"""
#define _GNU_SOURCE
#include <errno.h>
#include <fcntl.h>
#include <stddef.h>
#include <stdlib.h>
#include <sys/mman.h>
#include <unistd.h>
extern void *__libc_malloc(size_t), *__libc_calloc(size_t, size_t), *__libc_realloc(void *, size_t), *__libc_memalign(size_t, size_t);
static long own, *count, at;
static void begin(void) {
    const char *number = getenv("FAILS_AT"), *file = getenv("COUNTS_TO");
    int fd = file ? open(file, O_RDWR | O_CREAT | O_TRUNC, 0600) : -1;
    count = &own;
    at = number ? atol(number) : 0;
    if (fd >= 0 && !ftruncate(fd, sizeof(long))) {
        void *it = mmap(NULL, sizeof(long), PROT_READ | PROT_WRITE, MAP_SHARED, fd, 0);
        if (it != MAP_FAILED) count = it;
        close(fd);
    }
}
static int fails(void) {
    if (!count) begin();
    return __atomic_add_fetch(count, 1, __ATOMIC_SEQ_CST) == at;
}
void *malloc(size_t n) { if (fails()) { errno = ENOMEM; return NULL; } return __libc_malloc(n); }
void *calloc(size_t n, size_t m) { if (fails()) { errno = ENOMEM; return NULL; } return __libc_calloc(n, m); }
void *realloc(void *p, size_t n) { if (fails()) { errno = ENOMEM; return NULL; } return __libc_realloc(p, n); }
void *aligned_alloc(size_t a, size_t n) { if (fails()) { errno = ENOMEM; return NULL; } return __libc_memalign(a, n); }
int posix_memalign(void **p, size_t a, size_t n) { if (fails()) return ENOMEM; *p = __libc_memalign(a, n); return *p ? 0 : ENOMEM; }
"""


def total_in(work):
    """Returns how often memory was asked for in the last run."""
    with open(f"{work}/count", "rb") as it:
        return int.from_bytes(it.read(8), "little")


def environment(work, number, counts=None):
    found = {**os.environ, "LD_PRELOAD": f"{work}/fails.so", "FAILS_AT": str(number)}
    return {**found, "COUNTS_TO": counts} if counts else found


def replies_in(output):
    """Returns the replies that the output is cut into."""
    found = []
    while output:
        head, _, rest = output.partition(b"\r\n\r\n")
        length = re.search(rb"Content-Length: (\d+)", head)
        size = len(head) + 4 + (int(length.group(1)) if length else 0)
        found.append(output[:size])
        output = output[size:]
    return found


def pipe(work, text, number):
    it = subprocess.run([PROGRAM, "pipe", f"{work}/schema"], input=text.encode(), capture_output=True, env=environment(work, number, f"{work}/count"), check=False)
    return it.stdout, it.returncode


def check_pipe(work):
    """Returns how many calls failed in turn."""
    text = measure.person(0) + measure.person(1) + measure.article(1) + measure.request("GET", "/articles/1?include=author") + measure.patch(1, 7)
    text += measure.request("GET", "/articles?page[size]=1&include=author") + measure.listing(2)
    whole, status = pipe(work, text, 0)
    replies = replies_in(whole)
    assert status == 0 and len(replies) == 7 and all(it.startswith(b"HTTP/1.1 20") for it in replies), (status, whole)
    total = total_in(work)
    sent = [0] * 8
    for number in range(1, total + 1):
        output, status = pipe(work, text, number)
        found = replies_in(output)
        if output == whole:
            # (a call whose failure is answered in another way, as a smaller buffer, or one of the system's own)
            assert status == 0, (number, status)
            sent[7] += 1
            continue
        assert status == 5, (number, status, output)
        if found:
            assert found[-1] == UNAVAILABLE and found[:-1] == replies[: len(found) - 1], (number, output)
        sent[max(len(found) - 1, 0)] += 1
    print(f"pipe: {total} calls failed in turn; replies before the 503 text: " + ", ".join(f"{count} times {it}" for it, count in enumerate(sent[:7]) if count) + f"; {sent[7]} made no difference")


def check_snapshots(work):
    asked = []
    for word in ("cells", "snapshots"):
        said = subprocess.run([PAGES, word], capture_output=True, text=True, env=environment(work, 0, f"{work}/count"), check=True).stdout
        assert said == "150 articles written\n", said
        asked.append(total_in(work))
    assert asked[0] == asked[1] > 1000, asked
    print(f"snapshots: {asked[0]} requests for memory without any, and as many with 20,000")


def ask(port, text):
    """Returns what a connection is sent for the text, or nothing where it cannot be made."""
    try:
        with socket.create_connection(("127.0.0.1", port), timeout=10) as it:
            it.sendall(text.encode())
            it.shutdown(socket.SHUT_WR)
            found = b""
            while more := it.recv(1 << 16):
                found += more
            return found
    except OSError:
        return b""


def serve(work, number, change):
    """Returns what the connection of the change was sent, what one behind it reads, and whether the server began."""
    with socket.socket() as it:
        it.bind(("127.0.0.1", 0))
        port = it.getsockname()[1]
    words = [PROGRAM, "serve", f"{work}/schema", f"127.0.0.1:{port}", "1", "3"]
    server = subprocess.Popen(words, stdout=subprocess.PIPE, env=environment(work, number, f"{work}/count"))
    try:
        for _ in range(200):
            if server.poll() is not None:
                return b"", b"", server.returncode
            with socket.socket() as it:
                if not it.connect_ex(("127.0.0.1", port)):
                    break
            time.sleep(0.005)
        first = ask(port, change)
        then = ask(port, measure.request("GET", "/articles") + measure.request("GET", "/people"))
        server.wait(timeout=10)
        return first, then, server.returncode
    finally:
        server.kill()
        server.wait()


def check_serve(work):
    change = measure.request("POST", "/operations", {"atomic:operations": [{"op": "add", "data": {"type": "people", "attributes": {"name": "n"}}}, {"op": "add", "data": {"type": "articles", "attributes": {"title": "t"}}}]}, measure.ATOMIC)
    done, after, status = serve(work, 0, change)
    assert status == 0 and done.startswith(b"HTTP/1.1 200"), (status, done)
    total = total_in(work)
    _, before, _ = serve(work, 0, measure.request("GET", "/people"))
    kinds = {"as without": 0, "503, and the store as before": 0, "503 to the reader": 0, "no server": 0}
    for number in range(1, total + 1):
        first, then, status = serve(work, number, change)
        if not first:
            # (1 where it ran out while the sockets were made: the server then says that it cannot listen)
            assert status in (1, 5), (number, status)
            kinds["no server"] += 1
        elif first == UNAVAILABLE:
            assert then == before, (number, then)
            kinds["503, and the store as before"] += 1
        else:
            assert first == done, (number, first)
            if then == after:
                kinds["as without"] += 1
            else:
                assert then.endswith(UNAVAILABLE) and after.startswith(then[: -len(UNAVAILABLE)]), (number, then)
                kinds["503 to the reader"] += 1
    print("serve: " + ", ".join(f"{count} times {it}" for it, count in kinds.items()))


def main():
    with tempfile.TemporaryDirectory() as work:
        with open(f"{work}/fails.c", "w", encoding="ascii") as it:
            it.write(SHIM)
        subprocess.run(["gcc", "-shared", "-fPIC", "-O1", "-o", f"{work}/fails.so", f"{work}/fails.c"], check=True)
        with open(f"{work}/schema", "w", encoding="ascii") as it:
            measure.json.dump(measure.SCHEMA, it)
        check_snapshots(work)
        check_pipe(work)
        check_serve(work)


main()
