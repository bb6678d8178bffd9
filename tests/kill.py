"""Kills a node while clients write, and looks for each acknowledged row after each restart."""
import http.client
import json
import os
import random
import shutil
import signal
import subprocess
import sys
import tempfile
import threading
import time

ROUNDS = int(sys.argv[1])
CONNECTIONS = int(sys.argv[2])
TOP = os.path.dirname(os.path.dirname(os.path.abspath(__file__)))
PROGRAM = sys.argv[3] if len(sys.argv) > 3 and sys.argv[3] else os.path.join(TOP, "crates/rqlite_prog/out/rqlite_prog")
PORT = 47311
WORDS = ["node", "--id", "n1", "--http", f"127.0.0.1:{PORT}", "--raft", "127.0.0.1:47312", "--first", f"n1=127.0.0.1:{PORT}/127.0.0.1:47312"]


def ask(connection, path, statements):
    connection.request("POST", path, json.dumps(statements))
    response = connection.getresponse()
    return response.status, response.read().decode()


def start(folder):
    node = subprocess.Popen([PROGRAM, *WORDS, "--dir", folder], stdout=subprocess.PIPE)
    line = node.stdout.readline().decode().strip()
    if not line:
        sys.exit(f"the node didn't start: status {node.wait()}")
    return node, line


def wait_for_leader():
    for _ in range(200):
        try:
            connection = http.client.HTTPConnection("127.0.0.1", PORT, timeout=5)
            status, body = ask(connection, "/db/query", ["SELECT 1"])
            if status == 200:
                return connection
        except OSError:
            pass
        time.sleep(0.05)
    sys.exit("no leader")


def rows_of(connection):
    """The names and numbers of all rows."""
    status, body = ask(connection, "/db/query", ["SELECT * FROM rows"])
    result = json.loads(body)["results"][0]
    if "error" in result:
        sys.exit(f"the rows can't be read: {result['error']}")
    return {(name, number) for _, name, number in result.get("values", [])}


def write(name, first, acknowledged, stop):
    """Inserts rows one after the other, and notes those that were acknowledged."""
    try:
        connection = http.client.HTTPConnection("127.0.0.1", PORT, timeout=5)
        number = first
        while not stop.is_set():
            status, body = ask(connection, "/db/execute", [["INSERT INTO rows(name, number) VALUES(?, ?)", name, number]])
            if status != 200 or "error" in body:
                return
            acknowledged.append((name, number))
            number += 1
    except (OSError, http.client.HTTPException):
        return


def main():
    folder = tempfile.mkdtemp(prefix="rqlite-kill-")
    acknowledged = []
    for round_ in range(ROUNDS):
        node, line = start(folder)
        connection = wait_for_leader()
        if round_ == 0:
            ask(connection, "/db/execute", ["CREATE TABLE rows (id INTEGER PRIMARY KEY, name TEXT, number INTEGER)"])
        there = rows_of(connection)
        lost = [row for row in acknowledged if row not in there]
        if lost:
            node.kill()
            sys.exit(f"round {round_}: {len(lost)} acknowledged rows are lost, the first {lost[0]}; files in {folder}")
        stop = threading.Event()
        logs = [[] for _ in range(CONNECTIONS)]
        threads = [
            threading.Thread(target=write, args=(f"w{k}", round_ * 1_000_000, logs[k], stop)) for k in range(CONNECTIONS)
        ]
        for thread in threads:
            thread.start()
        time.sleep(random.uniform(0.05, 0.8))
        node.send_signal(signal.SIGKILL)
        node.wait()
        stop.set()
        for thread in threads:
            thread.join()
        for log in logs:
            acknowledged.extend(log)
        print(f"round {round_}: {line}; {len(acknowledged)} rows acknowledged so far", flush=True)
    shutil.rmtree(folder)
    print(f"{ROUNDS} kills, {len(acknowledged)} acknowledged rows, none lost")


main()
