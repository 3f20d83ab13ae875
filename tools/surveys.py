#!/usr/bin/env python3
"""Holds what `PROGRAM survey` prints of random terms against a second computation of the desk in Python, which searches each
unmet request anew.

  surveys.py --oracle FOLDER --desk PROGRAM [--seeds A..B]

Each seed makes a term of few offerings at few times, some of which have so many choices that a search is spent, and
students who hold some of the places and have up to 8 course requests each. The last line tells how many terms were
compared, how many lines of each kind there were, and how many terms differed; the status is 1 where one did.
"""
import random
import sys

from plans import given_words, machine_of, offering, printed, requests, reservation


def crowded(number):
    """An offering with so many choices that all of them are full only behind more than 2,000 decisions."""
    text = f"offering {number} course {number} - 3 config {10 * number} -"
    for subpart in range(1, 5):
        text += f" subpart {100 * number + subpart}"
        for section in range(1, 8):
            text += f" section {1000 * number + 10 * subpart + section} {'0' if subpart == 4 else '-'} - -"
    return text


def commands(seed):
    dice = random.Random(seed)
    count = dice.randint(1, 8)
    lines = [crowded(number) if dice.random() < 0.1 else offering(dice, number) for number in range(1, count + 1)]
    courses = [int(word) for line in lines for word in
               (line.split(" ")[at + 1] for at, part in enumerate(line.split(" ")) if part == "course")]
    students = dice.sample(range(1, 60), dice.randint(1, 8))
    lines += [f"student {number} max {dice.choice([6, 12, 18])} group 1" for number in students]
    lines += [reservation(dice, number, count).replace("students:11 ", f"students:{students[0]} ").replace("students:12+13 ", "group:2 ")
              for number in range(1, dice.choice([0, 0, 1, 3]) + 1)]
    for _ in range(dice.randint(0, 12)):
        lines.append(f"enrol {dice.choice(students)} {dice.choice(courses)}")
    for number in students:
        lines.append(requests(dice, courses).replace("requests 11", f"requests {number}", 1))
    return [f"r1 {number} {line}" for number, line in enumerate(lines, 1)]


def wanted(lines):
    """The survey behind these requests."""
    import reports
    return reports.print_survey(machine_of(lines))


def main():
    desk, low, high = given_words()
    kinds, wrong = {"open": 0, "blocked": 0, "spent": 0, "leaves": 0, "wanted": 0, "none": 0}, 0
    for seed in range(low, high + 1):
        lines = commands(seed)
        survey = wanted(lines)
        for line in survey.splitlines():
            words = line.split(" ")
            kinds[words[{"student": 4, "rule": 2, "section": 2, "none": 0}[words[0]]]] += 1
        if printed(desk, lines, ["survey"]) != survey:
            print(f"seed {seed} differs")
            wrong += 1
    print(f"{high + 1 - low} terms, " + ", ".join(f"{kind} {n}" for kind, n in kinds.items()) + f", {wrong} differ")
    return 1 if wrong else 0


if __name__ == "__main__":
    sys.exit(main())
