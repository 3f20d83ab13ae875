#!/usr/bin/env python3
"""Walks through a term of tables with a desk that keeps its history, and beside it a second computation of the desk.

  term_walk.py --desk PROGRAM --oracle FOLDER [--keeper db|journal]

The four tables of examples/autumn-tables are imported, the students' requests met, some enrol, drop and wait, and each
report and table is asked for: each step by a call of its own, over one file. Output, status and its text are compared.
The last line tells how many steps were compared and how many differed; the status is 1 where one did.
"""
import argparse
import os
import subprocess
import sys
import tempfile

TABLES = os.path.join(os.path.dirname(os.path.abspath(__file__)), "..", "examples", "autumn-tables")
FIRST = {"offerings": 1, "students": 1001, "requests": 2001, "reservations": 5001}


def table(name):
    with open(os.path.join(TABLES, name + ".csv"), "rb") as file:
        return file.read()


def imported(name, first):
    return ["import", name, "--first", str(first), "--term", "2027-08-30"], table(name)


def batches():
    lines = [f"r1 {number} batch " + "+".join(str(1000 + 100 * number - 99 + i) for i in range(100)) for number in range(1, 6)]
    return ["run"], "\n".join(lines).encode() + b"\n"


REQUESTS = b"""# A student gives a course up, another waits, and the first asks again.
s1001 1 drop 1001 2020
s1002 1 wait 1002 8050
s1001 2 enrol 1001 2020+8010 rank 1
s1001 2 enrol 1001 2020+8010 rank 1
s1001 1 drop 1001 3030
r1 6 cancel 1013
r1 7 limit section 1051 16
s1500 9 drop 1499 1010
no request
"""


def steps():
    for name, first in FIRST.items():
        yield imported(name, first)
    yield imported("students", FIRST["students"])
    yield imported("offerings", 9001)
    yield ["import", "students", "--first", "9101"], table("students").replace(b"1002,", b"1002x,", 1)
    yield batches()
    yield ["run"], REQUESTS
    for words in ("waiting", "unmet", "roll 1051", "roll 9", "open 105", "open 104", "schedule 1001", "schedule 1", "open 9"):
        yield ["report"] + words.split(), b""
    for name in FIRST:
        yield ["export", name], b""
    yield ["audit"], b""


def answer(command, words, given):
    done = subprocess.run(command + words, input=given, capture_output=True, timeout=60)
    return done.returncode, done.stdout, done.stderr


def main():
    words = argparse.ArgumentParser(description=__doc__, formatter_class=argparse.RawDescriptionHelpFormatter)
    words.add_argument("--desk", required=True)
    words.add_argument("--oracle", required=True)
    words.add_argument("--keeper", choices=("db", "journal"), default="db")
    asked = words.parse_args()
    second = [sys.executable, os.path.join(asked.oracle, "desk.py")]
    count = differed = 0
    with tempfile.TemporaryDirectory() as folder:
        for step, given in steps():
            ours = answer([os.path.abspath(asked.desk)], step + [f"--{asked.keeper}", os.path.join(folder, "term")], given)
            theirs = answer(second, step + ["--rows", os.path.join(folder, "rows")], given)
            count += 1
            if ours != theirs:
                differed += 1
                print("differs:", " ".join(step))
    print(f"{count} steps, {differed} differ")
    sys.exit(1 if differed else 0)


if __name__ == "__main__":
    main()
