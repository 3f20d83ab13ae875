#!/usr/bin/env python3
"""Holds what `PROGRAM plan` prints of random students against a second computation of the desk in Python, which searches
each list of requests anew.

  plans.py --oracle FOLDER --desk PROGRAM [--seeds A..B]

Each seed makes a term of few offerings at few times, students who hold some of the places, and student 11 with up to 8
course requests. The last line tells how many students were compared, how many lines of each kind there were, and how many
students differed; the status is 1 where one did.
"""
import argparse
import os
import random
import subprocess
import sys
import tempfile

MEETINGS = ["-", "M/0900-0950/1-15", "M/0930-1020/1-15", "T/0900-0950/1-15", "T/0940-1030/3", "W/0900-0950/1-15"]


def offering(dice, number):
    text = f"offering {number} course {number} {dice.choice(['-', '-', '1', '2'])} {dice.choice([1, 3])}"
    if dice.random() < 0.3:
        text += f" course {100 + number} - 3"
    for config in range(1, dice.choice([1, 1, 2]) + 1):
        text += f" config {10 * number + config} {dice.choice(['-', '-', '2'])}"
        earlier = ["-"]
        for subpart in range(1, dice.choice([1, 1, 2]) + 1):
            name = 100 * number + 10 * config + subpart
            text += f" subpart {name}"
            now = []
            for section in range(1, dice.choice([1, 2, 3]) + 1):
                text += f" section {10 * name + section} {dice.choice(['-', '1', '1', '2'])}"
                text += f" {dice.choice(earlier)} {dice.choice(MEETINGS)}"
                now.append(str(10 * name + section))
            earlier += now
    return text


def requests(dice, courses):
    """The requests of student 11: up to 8 for one to three courses, none of which stands in two, and free times."""
    left, text = list(courses), "requests 11"
    dice.shuffle(left)
    for _ in range(dice.randint(0, 8)):
        if dice.random() < 0.15:
            text += f" free {dice.choice(MEETINGS[1:])}"
        count = dice.choice([1, 1, 1, 2, 3])
        take, left = left[:count], left[count:]
        if take:
            text += " course " + "+".join(map(str, take)) + dice.choice(["", " wait", " substitute"])
    return text


def reservation(dice, number, offerings):
    audience = dice.choice(["students:11", "students:12+13", "group:1"])
    marks = dice.choice(["", "", " must", " overlap", " over"])
    return f"reserve {number} {dice.randint(1, offerings)} {audience} {dice.choice(['-', '1'])} -{marks}"


def commands(seed):
    dice = random.Random(seed)
    count = dice.randint(1, 8)
    lines = [offering(dice, number) for number in range(1, count + 1)]
    courses = [int(word) for line in lines for word in
               (line.split(" ")[at + 1] for at, part in enumerate(line.split(" ")) if part == "course")]
    lines += [f"student {number} max {dice.choice([6, 12, 18])} group 1" for number in (11, 12, 13, 14)]
    lines += [reservation(dice, number, count) for number in range(1, dice.choice([0, 0, 1, 3]) + 1)]
    for _ in range(dice.randint(0, 10)):
        lines.append(f"enrol {dice.choice([11, 12, 13, 14])} {dice.choice(courses)}")
    lines.append(requests(dice, courses))
    return [f"r1 {number} {line}" for number, line in enumerate(lines, 1)], dice.choice([1, 5, 12, 60, 500, 2000, 2000])


def machine_of(lines):
    """The machine of which these requests were asked."""
    import texts
    from machine import Machine
    machine = Machine()
    for line in lines:
        _, caller, _, command = texts.read_line(line)
        machine.step(texts.day("2025-09-01"), caller, command)
    return machine


def wanted(lines, budget):
    """The best whole schedule behind these requests."""
    import reports
    return reports.plan(machine_of(lines), 11, budget)


def printed(desk, lines, words):
    """What the program prints for the words on a journal of these requests."""
    with tempfile.TemporaryDirectory() as folder:
        journal = os.path.join(folder, "journal")
        script = "".join(f"@2025-09-01 {line}\n" for line in lines)
        subprocess.run([desk, "run", "--journal", journal], input=script, capture_output=True, text=True, check=True)
        return subprocess.run([desk, *words, "--journal", journal], capture_output=True, text=True, check=True).stdout


def given_words():
    """The program, and the first and the last seed; the second computation's modules can be imported behind it."""
    parser = argparse.ArgumentParser()
    parser.add_argument("--oracle", required=True)
    parser.add_argument("--desk", required=True)
    parser.add_argument("--seeds", default="1..500")
    given = parser.parse_args()
    sys.path.insert(0, given.oracle)
    return given.desk, *map(int, given.seeds.split(".."))


def main():
    desk, low, high = given_words()
    kinds, wrong = {"met": 0, "unmet": 0, "spent": 0, "none": 0}, 0
    for seed in range(low, high + 1):
        lines, budget = commands(seed)
        plan = wanted(lines, budget)
        for line in plan.splitlines():
            kinds[line.split(" ")[2] if " " in line else line] += 1
        if printed(desk, lines, ["plan", "11", "--budget", str(budget)]) != plan:
            print(f"seed {seed} differs")
            wrong += 1
    print(f"{high + 1 - low} students, " + ", ".join(f"{kind} {n}" for kind, n in kinds.items()) + f", {wrong} differ")
    return 1 if wrong else 0


if __name__ == "__main__":
    sys.exit(main())
