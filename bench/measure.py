"""Measures a served node: rates and times of answers, memory, and how long a start takes."""
import atexit
import http.client
import json
import os
import platform
import shutil
import subprocess
import sys
import tempfile
import time

TOP = os.path.dirname(os.path.dirname(os.path.abspath(__file__)))
WORDS = dict(enumerate(sys.argv[1:]))
PROGRAM = os.path.abspath(WORDS.get(0) or os.path.join(TOP, "crates/rqlite_prog/out/rqlite_prog"))
SECONDS = WORDS.get(1, "10")
DISK = WORDS.get(2, TOP)
MEMORY = WORDS.get(3, "/dev/shm")
ROWS = 1_000_000
PORT = 47321
HTTP, RAFT = f"127.0.0.1:{PORT}", f"127.0.0.1:{PORT + 1}"

CREATE = "CREATE TABLE foo (id INTEGER PRIMARY KEY, name TEXT, age INTEGER)"
WRITE = json.dumps([["INSERT INTO foo(name, age) VALUES(?, ?)", "fiona", 20]])
READ = json.dumps(["SELECT * FROM foo WHERE id = 1"])


def start(folder):
    """A node in this folder, and when it listened and led, in seconds after its start."""
    began = time.monotonic()
    node = subprocess.Popen(
        [PROGRAM, "node", "--id", "n1", "--http", HTTP, "--raft", RAFT, "--first", f"n1={HTTP}/{RAFT}", "--dir", folder],
        stdout=subprocess.PIPE,
    )
    atexit.register(node.kill)
    line = node.stdout.readline().decode().strip()
    if not line:
        sys.exit(f"the node didn't start: status {node.wait()}")
    listened = time.monotonic() - began
    while ask("/db/query", ["SELECT 1"])[0] != 200:
        time.sleep(0.005)
    return node, line, listened, time.monotonic() - began


def end(node):
    node.kill()
    node.wait()


def ask(path, statements):
    connection = http.client.HTTPConnection("127.0.0.1", PORT, timeout=600)
    connection.request("POST", path, json.dumps(statements))
    response = connection.getresponse()
    body = response.read().decode()
    connection.close()
    return response.status, body


def must(path, statements):
    status, body = ask(path, statements)
    if status != 200 or '"error"' in body:
        sys.exit(f"{path}: {status} {body[:200]}")
    return json.loads(body)


def load(path, body, connections, seconds, most=None):
    words = [LOAD, str(PORT), path, body, str(connections), str(seconds)]
    said = json.loads(subprocess.run(words + ([str(most)] if most else []), check=True, capture_output=True).stdout)
    if said["failed"] or said["broken"]:
        sys.exit(f"{path} over {connections} connections: {said}")
    return said


def memory(node):
    with open(f"/proc/{node.pid}/status") as status:
        return next(int(line.split()[1]) for line in status if line.startswith("VmRSS")) / 1024


def sync_time(folder):
    """The median of 200 times of writing 100 bytes behind a file and syncing it, in microseconds."""
    times = []
    with tempfile.NamedTemporaryFile(dir=folder) as file:
        for _ in range(200):
            began = time.monotonic()
            os.write(file.fileno(), b"x" * 100)
            os.fdatasync(file.fileno())
            times.append(time.monotonic() - began)
    return sorted(times)[100] * 1e6


def rates(folder):
    node, _, _, led = start(folder)
    must("/db/execute", [CREATE])
    print("| request | connections | a second | p50, ms | p99, ms |\n|---|---|---|---|---|")
    for what, path, body, counts in (
        ("a write", "/db/execute", WRITE, (1, 16, 64)),
        ("a read, `none`", "/db/query?level=none", READ, (1, 64)),
        ("a read, `weak`", "/db/query?level=weak", READ, (1, 64)),
    ):
        for connections in counts:
            said = load(path, body, connections, SECONDS)
            print(f"| {what} | {connections} | {said['rate']:,} | {said['p50'] / 1000:.2f} | {said['p99'] / 1000:.2f} |", flush=True)
    end(node)
    print(f"\nThe first start: leads after {led:.2f} s.")


def many_rows(folder):
    node, _, _, _ = start(folder)
    must("/db/execute", [CREATE])
    before, began = memory(node), time.monotonic()
    statement = ["INSERT INTO foo(name, age) VALUES(?, ?)", "fiona", 20]
    for _ in range(ROWS // 1000):
        must("/db/execute", [statement] * 1000)
    took = time.monotonic() - began
    print(f"{ROWS:,} rows in lists of 1,000 statements: {ROWS / took:,.0f} rows a second; memory {before:.0f} MB before, {memory(node):.0f} MB after.", flush=True)
    end(node)


def many_entries(folder):
    node, _, _, _ = start(folder)
    must("/db/execute", [CREATE])
    said = load("/db/execute", WRITE, 64, 3000, ROWS)
    held = memory(node)
    end(node)
    print(f"{ROWS:,} entries of one row, in memory in place of a disk: {said['rate']:,} a second over 64 connections; memory {held:.0f} MB.", flush=True)
    node, line, listened, led = start(folder)
    began = time.monotonic()
    count = must("/db/query", ["SELECT COUNT(*) FROM foo"])["results"][0]["values"][0][0]
    all_there = led + time.monotonic() - began
    print(f"Started again: listens after {listened:.1f} s, leads after {led:.1f} s, counts {count:,} rows after {all_there:.1f} s; memory {memory(node):.0f} MB.")
    end(node)


def in_folder(at, measure):
    folder = tempfile.mkdtemp(prefix="rqlite-bench-", dir=at)
    try:
        measure(folder)
    finally:
        shutil.rmtree(folder)


if not os.path.exists(PROGRAM):
    sys.exit(f"{PROGRAM} isn't there: ./rqlite --version builds it")
with tempfile.TemporaryDirectory() as built:
    LOAD = os.path.join(built, "load")
    subprocess.run(["cc", "-O2", "-pthread", "-o", LOAD, os.path.join(TOP, "bench/load.c")], check=True)
    print(f"{os.cpu_count()} processors, {platform.system()} {platform.release()}; a write of 100 bytes with its sync takes {sync_time(DISK):.0f} µs.", flush=True)
    in_folder(DISK, rates)
    in_folder(DISK, many_rows)
    in_folder(MEMORY, many_entries)
