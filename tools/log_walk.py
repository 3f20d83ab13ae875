#!/usr/bin/env python3
"""Feeds the clerk's log of a history to a desk that has none, and compares the rows that the two keep.

  log_walk.py --desk PROGRAM --clerk PROGRAM

The histories are those of each script in examples/, and of the term of examples/autumn-tables with its requests met. Each
is kept in a database. Its log, read by a desk that has no history, has to make a database with the same rows, byte for byte,
and a journal of which the log is the same. The last line tells how many histories were compared and how many differed; the
status is 1 where one did.
"""
import argparse
import contextlib
import os
import sqlite3
import subprocess
import sys
import tempfile

import term_walk

EXAMPLES = os.path.join(os.path.dirname(os.path.abspath(__file__)), "..", "examples")


def call(command, words, given=b""):
    """What a command writes; it must end with status 0."""
    done = subprocess.run([os.path.abspath(command)] + words, input=given, capture_output=True, timeout=100)
    if done.returncode != 0:
        sys.exit(f"{' '.join(words)}: status {done.returncode} {done.stderr.decode().strip()}")
    return done.stdout


def rows_of(path):
    """The rows of a database."""
    with contextlib.closing(sqlite3.connect(path)) as rows:
        return [bytes(row) for _, row in rows.execute("select place, row from entry order by place")]


def bytes_of(path):
    with open(path, "rb") as file:
        return file.read()


def scripts():
    """(name, steps) of each script, and of the term of tables: each step has words and what is read."""
    for name in sorted(os.listdir(EXAMPLES)):
        if name.endswith(".txt"):
            yield name, [(["run"], bytes_of(os.path.join(EXAMPLES, name)))]
    tables = [term_walk.imported(name, first) for name, first in term_walk.FIRST.items()]
    yield "autumn-tables", tables + [term_walk.batches()]


def differs(desk, clerk, steps, folder):
    """What differs between the keeper of a history and those that its log makes; None where nothing does."""
    kept, again, journal = (os.path.join(folder, name) for name in ("kept.db", "again.db", "again.journal"))
    for words, given in steps:
        call(desk, words + ["--db", kept], given)
    log = call(clerk, ["log", "--db", kept])
    call(desk, ["run", "--db", again], log)
    call(desk, ["run", "--journal", journal], log)
    if rows_of(again) != rows_of(kept):
        return "the rows"
    if call(clerk, ["log", "--journal", journal]) != log:
        return "the log of the journal"
    return None


def main():
    words = argparse.ArgumentParser(description=__doc__, formatter_class=argparse.RawDescriptionHelpFormatter)
    words.add_argument("--desk", required=True)
    words.add_argument("--clerk", required=True)
    asked = words.parse_args()
    count = differed = 0
    for name, steps in scripts():
        with tempfile.TemporaryDirectory() as folder:
            found = differs(asked.desk, asked.clerk, steps, folder)
        count += 1
        if found:
            differed += 1
            print(f"{name}: {found}")
    print(f"{count} histories, {differed} differ")
    sys.exit(1 if differed else 0)


if __name__ == "__main__":
    main()
