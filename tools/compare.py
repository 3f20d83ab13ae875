#!/usr/bin/env python3
"""Compares the desk with a second computation of it, on scripts that the seeds make.

  compare.py --desk PROGRAM --oracle FOLDER [--seeds A..B] [--seconds S] [--show]

A script has an offering, students with rising ids and their enrolments; it may end early, with a line that
can't be read, or without its last line feed. The output, the status and its text are compared. The last
line tells how many scripts were compared and how many differed; the status is 1 where one did.
"""
import argparse
import os
import random
import subprocess
import sys
import time

WRONG = [
    lambda r, line: line.replace(" ", "  ", 1),
    lambda r, line: line + " ",
    lambda r, line: " " + line,
    lambda r, line: line[0] + "0" + line[1:],
    lambda r, line: line[0] + "+" + line[1:],
    lambda r, line: line[0] + "4294967296" + line[line.index(" "):],
    lambda r, line: line.replace(" ", " 18446744073709551616 x ", 1),
    lambda r, line: line.upper(),
    lambda r, line: line[1:],
    lambda r, line: line.rsplit(" ", 1)[0] + " x",
    lambda r, line: line + "\x00",
    lambda r, line: "x" * 65537,
]


def number(r, high):
    return r.choice([0, 1, 9, 10, 99, 100, high - 1, high, r.randint(0, high), r.randint(0, 50)])


def script(seed):
    """One script, as bytes."""
    r = random.Random(seed)
    ids = set()

    def registrar():
        while True:
            pair = (number(r, 2**32 - 1), number(r, 2**64 - 1))
            if pair not in ids:
                ids.add(pair)
                return "r%d %d" % pair

    offering, course, config, subpart, section = (number(r, 2**32 - 1) for _ in range(5))
    credits = r.choice([0, 1, 3, 29, 30])
    limit = r.choice(["-", 0, 1, 2, 3, r.randint(0, 40), 2**32 - 1])
    lines = ["%s offering %d course %d - %d config %d - subpart %d section %d %s - -" % (
        registrar(), offering, course, credits, config, subpart, section, limit)]
    students = sorted({number(r, 2**32 - 1) for _ in range(r.choice([0, 1, 3, 10, 60]))})
    for student in students:
        most = r.choice([credits, credits + 1, 18 if credits <= 18 else 40, 65535])
        lines.append("%s student %d max %d" % (registrar(), student, most))
    asking = [s for s in students if r.random() < 0.8]
    r.shuffle(asking)
    for student in asking:
        lines.append("s%d %d enrol %d %d" % (student, number(r, 2**64 - 1), student, course))
    if r.random() < 0.3:
        lines = lines[:r.randint(0, len(lines))]
    if lines and r.random() < 0.4:
        at = r.randrange(len(lines))
        lines[at] = r.choice(WRONG)(r, lines[at])
        if r.random() < 0.5:
            lines = lines[:at + 1]
    spelled = []
    for line in lines:
        if r.random() < 0.1:
            spelled.append(r.choice(["", "# a comment", "#", "\r"]) + "\n")
        spelled.append(line + r.choice(["\n", "\n", "\n", "\r\n"]))
    text = "".join(spelled)
    if text and r.random() < 0.3:
        text = text[:-1]
    return text.encode("latin-1")


def main():
    parser = argparse.ArgumentParser()
    parser.add_argument("--desk", required=True)
    parser.add_argument("--oracle", required=True)
    parser.add_argument("--seeds", default="1..400")
    parser.add_argument("--seconds", type=float, default=90)
    parser.add_argument("--show", action="store_true")
    options = parser.parse_args()
    sys.path.insert(0, os.path.abspath(options.oracle))
    sys.dont_write_bytecode = True
    sys.setrecursionlimit(10000)
    import app

    first, last = (int(part) for part in options.seeds.split(".."))
    end = time.time() + options.seconds
    compared = differed = 0
    for seed in range(first, last + 1):
        if time.time() > end:
            break
        text = script(seed)
        done = subprocess.run([options.desk, "run"], input=text, capture_output=True, timeout=60)
        ours = (done.stdout, done.returncode, done.stderr.rstrip(b"\n"))
        out = []
        status, error = app.desk_main(["run"], lambda: text, out.append, None)
        theirs = ("".join(out).encode("latin-1"), status, error.encode())
        compared += 1
        if ours != theirs:
            differed += 1
            print("seed %d differs: status %d and %d, text %r and %r" % (
                seed, ours[1], theirs[1], ours[2], theirs[2]))
            for a, b in zip(ours[0].split(b"\n"), theirs[0].split(b"\n")):
                if a != b:
                    print("  desk  ", a)
                    print("  second", b)
                    break
            if options.show:
                print(text.decode("latin-1"))
    print("%d scripts compared, %d differed" % (compared, differed))
    return 1 if differed or compared == 0 else 0


if __name__ == "__main__":
    sys.exit(main())
