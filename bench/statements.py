#!/usr/bin/env python3
"""Times statements by text: from a script's bytes to the replies of the program.

  bench/statements.py inserts ROWS [PROGRAM]    lists of 10,000 INSERTs, until the table has so many rows
  bench/statements.py selects ROWS [PROGRAM]    lists of 10,000 SELECTs by key over a table of so many rows
  bench/statements.py lines KIND ROWS TIMES     statements, one a line, for tables_timing: KIND is replace, update or fail

PROGRAM is a built `rqlite`, else ./rqlite of this repository. A time is the program's processor time, user and system, from reply to
reply, as Linux counts it (in hundredths of a second), through the statements of the list.
"""
import os
import subprocess
import sys
import threading

TOP = os.path.dirname(os.path.dirname(os.path.abspath(__file__)))
LIST = 10_000
TICKS = os.sysconf("SC_CLK_TCK")


def ask(path, statements):
    return f"ask n1 POST {path} [" + ",".join(f'"{it}"' for it in statements) + "]\napply n1\n"


def create(columns):
    return "cluster n1\nelect n1\n" + ask("/db/execute", [f"CREATE TABLE t ({columns})"])


def inserts(first, count):
    rows = range(first, first + count)
    return ask("/db/execute", [f"INSERT INTO t VALUES ({row}, 'key{row}', {row * 7919 % 1000003})" for row in rows])


def selects(column, rows):
    keys = [place * 7919 % rows + 1 for place in range(LIST)]
    literal = (lambda key: str(key)) if column == "id" else (lambda key: f"'key{key}'")
    return ask("/db/query?level=none", [f"SELECT * FROM t WHERE {column} = {literal(key)}" for key in keys])


def used(pid):
    fields = open(f"/proc/{pid}/stat").read().rsplit(") ", 1)[1].split()
    return (int(fields[11]) + int(fields[12])) / TICKS


def run(program, parts, heard):
    """Feeds the program its script, and calls heard with the number of each answer, the processor time so far and how many results have rows."""
    child = subprocess.Popen([program, "cluster"], stdin=subprocess.PIPE, stdout=subprocess.PIPE)

    def feed():
        for part in parts:
            child.stdin.write(part.encode())
        child.stdin.close()

    feeder = threading.Thread(target=feed)
    feeder.start()
    for line in child.stdout:
        if line.startswith(b"answer "):
            if b'"error"' in line:
                sys.exit("a statement was refused: " + line[:200].decode())
            heard(int(line.split()[1]), used(child.pid), line.count(b'"values"'))
    feeder.join()
    if child.wait():
        sys.exit(f"{program} ended with status {child.returncode}")


def time_inserts(rows, program):
    last = [0.0]

    def heard(number, now, found):
        if number > 1:
            print(f"rows {(number - 2) * LIST} to {(number - 1) * LIST}: {(now - last[0]) / LIST * 1e6:.1f} us a statement", flush=True)
        last[0] = now

    parts = (inserts(first, LIST) for first in range(1, rows, LIST))
    run(program, (it for some in ([create("id INTEGER PRIMARY KEY, u TEXT UNIQUE, n INTEGER")], parts) for it in some), heard)


def time_selects(rows, program):
    lists = -(-rows // LIST)
    last = [0.0]
    columns = ["id", "u"] * 3

    def heard(number, now, found):
        place = number - lists - 2
        if place >= 0:
            if found != LIST:
                sys.exit(f"{LIST - found} rows weren't found")
            print(f"{rows} rows, WHERE {columns[place]} = ..: {(now - last[0]) / LIST * 1e6:.1f} us a statement", flush=True)
        last[0] = now

    parts = [create("id INTEGER PRIMARY KEY, u TEXT UNIQUE, n INTEGER")]
    parts += [inserts(first, min(LIST, rows + 1 - first)) for first in range(1, rows + 1, LIST)]
    parts += [selects(column, rows) for column in columns]
    run(program, parts, heard)


def print_lines(kind, rows, times):
    print("CREATE TABLE t (id INTEGER PRIMARY KEY, u TEXT UNIQUE)")
    for row in range(1, rows + 1):
        print(f"INSERT INTO t VALUES ({row}, 'first{row}')")
    for time in range(times):
        row = time % rows + 1
        if kind == "replace":
            print(f"DELETE FROM t WHERE id = {row}")
            print(f"INSERT INTO t VALUES ({row}, 'next{time}')")
        elif kind == "update":
            print(f"UPDATE t SET u = 'next{time}' WHERE id = {row}")
        elif kind == "fail":
            print(f"INSERT INTO t VALUES (NULL, 'next{time}'), (1, 'x')")
        else:
            sys.exit(__doc__)


def main(words):
    if len(words) == 4 and words[0] == "lines":
        print_lines(words[1], int(words[2]), int(words[3]))
    elif len(words) in (2, 3) and words[0] in ("inserts", "selects"):
        program = words[2] if len(words) == 3 else f"{TOP}/rqlite"
        (time_inserts if words[0] == "inserts" else time_selects)(int(words[1]), program)
    else:
        sys.exit(__doc__)


if __name__ == "__main__":
    main(sys.argv[1:])
