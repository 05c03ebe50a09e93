#!/usr/bin/env python3
"""How many requests a second `jsonapid serve` answers over loopback, what processor time each takes, and the same of nginx for a file as large.

Usage: bench/load.py [SECONDS [PROGRAM]]     each line is measured for 5 seconds, if not told otherwise

It loads a blog of 1,000 articles with ten authors, and then lets wrk ask with 1, 4 and 16 connections that are kept, each with a worker of its own (up to 4 connections: 4 workers, else 16).
The mix is that of the command `workload`, by wrk's own random numbers. It prints one table. Needs wrk and nginx, both packages of Debian; it builds nothing: run the program once by `rt run`
in crates/jsonapid first.
"""
import json
import os
import re
import signal
import socket
import subprocess
import sys
import tempfile
import time

HERE = os.path.dirname(os.path.abspath(__file__))
sys.argv, ARGUMENTS = sys.argv[:1], sys.argv[1:]
sys.path.insert(0, HERE)
import measure  # noqa: E402  (the blog and its requests)

SECONDS = int(ARGUMENTS[0]) if ARGUMENTS else 5
PROGRAM = ARGUMENTS[1] if len(ARGUMENTS) > 1 else f"{HERE}/../crates/jsonapid/out/jsonapid"
TICK = os.sysconf("SC_CLK_TCK")
GET = 'request = function() return wrk.format("GET", "/articles/" .. math.random(1000)) end\n'
PAGE = 'request = function() return wrk.format("GET", "/articles?page[size]=20&include=author") end\n'
POST = """
local head = { ["Content-Type"] = "application/vnd.api+json" }
local count = 0
function post()
    count = count + 1
    return wrk.format("POST", "/articles", head, '{"data":{"type":"articles","attributes":{"title":"t' .. count .. '"},"relationships":{"author":{"data":{"type":"people","id":"p' .. math.random(0, 9) .. '"}}}}}')
end
request = post
"""
MIX = (
    POST
    + """
request = function()
    local kind = math.random(0, 9)
    local at = "/articles/" .. math.random(1000)
    if kind < 4 then return post() end
    if kind < 6 then return wrk.format("PATCH", at, head, '{"data":{"type":"articles","id":"' .. at:sub(11) .. '","attributes":{"views":' .. count .. '}}}') end
    if kind == 6 then return wrk.format("DELETE", "/articles/" .. math.random(1000, 100000)) end
    if kind == 7 then return wrk.format("GET", "/articles?page[size]=20&include=author") end
    if kind == 8 then return wrk.format("GET", at) end
    return wrk.format("POST", "/comments", head, '{"data":{"type":"comments","attributes":{"text":"c' .. count .. '"}}}')
end
"""
)


def free_port():
    with socket.socket() as it:
        it.bind(("127.0.0.1", 0))
        return it.getsockname()[1]


def processor_time(pids):
    """Returns the seconds that these processes have used."""
    total = 0
    for pid in pids:
        with open(f"/proc/{pid}/stat", encoding="ascii") as it:
            fields = it.read().rsplit(")", 1)[1].split()
        total += int(fields[11]) + int(fields[12])
    return total / TICK


def wait_for(port):
    for _ in range(100):
        try:
            socket.create_connection(("127.0.0.1", port)).close()
            return
        except OSError:
            time.sleep(0.05)
    sys.exit("no server")


def send_all(port, text):
    """Sends requests on one connection, and reads until it closes."""
    with socket.create_connection(("127.0.0.1", port)) as it:
        it.sendall(text.encode())
        it.shutdown(socket.SHUT_WR)
        while it.recv(1 << 20):
            pass


def load(port, connections, script, pids):
    """Returns the requests a second, the microseconds of the server's processor time a request, and the replies that were no success."""
    with tempfile.NamedTemporaryFile("w", suffix=".lua") as it:
        it.write(script)
        it.flush()
        before = processor_time(pids)
        said = subprocess.run(
            ["wrk", "-t", "1" if connections < 4 else "2", "-c", str(connections), "-d", f"{SECONDS}s", "-s", it.name, f"http://127.0.0.1:{port}"], capture_output=True, text=True, check=True
        ).stdout
        used = processor_time(pids) - before
    count = int(re.search(r"(\d+) requests in", said).group(1))
    bad = re.search(r"Non-2xx or 3xx responses: (\d+)", said)
    return float(re.search(r"Requests/sec:\s+([\d.]+)", said).group(1)), used / count * 1e6, int(bad.group(1)) if bad else 0


def of_jsonapid(work, connections, script):
    port, workers = free_port(), 4 if connections <= 4 else connections
    schema = f"{work}/schema.json"
    with open(schema, "w", encoding="ascii") as it:
        json.dump(measure.SCHEMA, it)
    server = subprocess.Popen([PROGRAM, "serve", schema, f"127.0.0.1:{port}", str(workers), "1000000"], stdout=subprocess.DEVNULL)
    try:
        wait_for(port)
        send_all(port, measure.blog(1000))
        return load(port, connections, script, [server.pid])
    finally:
        server.send_signal(signal.SIGKILL)
        server.wait()


def of_nginx(work, connections, size):
    port = free_port()
    os.makedirs(f"{work}/www", exist_ok=True)
    with open(f"{work}/www/article", "wb") as it:
        it.write(b"x" * size)
    with open(f"{work}/nginx.conf", "w", encoding="ascii") as it:
        it.write(
            f"daemon off; worker_processes 4; pid {work}/nginx.pid; error_log {work}/error.log; events {{}}\n"
            f"http {{ access_log off; keepalive_requests 100000000; open_file_cache max=10; server {{ listen 127.0.0.1:{port}; root {work}/www; }} }}\n"
        )
    os.chmod(work, 0o755)
    server = subprocess.Popen(["nginx", "-p", work, "-c", f"{work}/nginx.conf"], stderr=subprocess.DEVNULL)
    try:
        wait_for(port)
        pids = [server.pid, *map(int, subprocess.run(["pgrep", "-P", str(server.pid)], capture_output=True, text=True, check=True).stdout.split())]
        return load(port, connections, 'request = function() return wrk.format("GET", "/article") end\n', pids)
    finally:
        server.terminate()
        server.wait()


def main():
    print("| Requests | Connections | A second | Processor microseconds a request | No success |\n|---|---|---|---|---|")
    for connections in (1, 4, 16):
        for name, script in (("GET of an article", GET), ("POST of an article", POST), ("page of 20 with authors", PAGE), ("the workload's mix", MIX)):
            with tempfile.TemporaryDirectory() as work:
                rate, used, bad = of_jsonapid(work, connections, script)
            print(f"| {name} | {connections} | {rate:,.0f} | {used:.1f} | {bad} |", flush=True)
        with tempfile.TemporaryDirectory() as work:
            rate, used, bad = of_nginx(work, connections, 700)
        print(f"| nginx, a file of 700 bytes | {connections} | {rate:,.0f} | {used:.1f} | {bad} |", flush=True)


main()
