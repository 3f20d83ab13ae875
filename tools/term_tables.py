#!/usr/bin/env python3
"""Writes the four tables of a term, as a registrar has them in a spreadsheet, into a folder.

    tools/term_tables.py FOLDER

40 offerings of eight departments, 500 students in four years and eight majors, what each asks for, and the places that
departments keep. The same tables come each time.
"""
import csv
import os
import random
import sys

TERM = "2027-08-30..2027-12-10"
# Department, by its number: the first offering id is 100 times it. Each has the shapes of its five offerings.
DEPARTMENTS = range(1, 9)
SHAPES = ["lecture", "lecture", "laboratory", "discussion", "seminar"]
LECTURE_TIMES = ["MWF/0800-0850", "MWF/0900-0950", "MWF/1000-1050", "MWF/1100-1150", "MWF/1330-1420", "MWF/1430-1520",
                 "TR/0830-0945", "TR/1000-1115", "TR/1130-1245", "TR/1330-1445"]
SMALL_TIMES = ["M/1530-1720", "T/1500-1650", "W/1530-1720", "R/1500-1650", "F/1230-1420"]
HONOURS = 7


def meeting(time):
    return f"{time}/{TERM}"


class Rows:
    """The rows of one offering, with its sections numbered as they come."""

    def __init__(self, chance, department, number):
        self.chance = chance
        self.offering = 100 * department + number
        self.section = 10 * self.offering
        self.rows = []

    def courses(self):
        course = 10 * self.offering
        cross = self.offering % 10 == 4
        return f"{course}:-:3" + (f"+{course + 1}:20:3" if cross else "")

    def add(self, config, subpart, limit, parent, time):
        self.section += 1
        self.rows.append([self.offering, self.courses(), config, "-", subpart, self.section, limit, parent, meeting(time)])
        return self.section


def offering_rows(chance, department, number, shape):
    rows = Rows(chance, department, number)
    config = 10 * rows.offering
    lecture, small = config, config + 1
    times = chance.sample(LECTURE_TIMES, 3)
    if shape == "lecture":
        for time in times:
            rows.add(config, lecture, 40, "-", time)
    elif shape == "seminar":
        for time in chance.sample(SMALL_TIMES, 2):
            rows.add(config, lecture, 15, "-", time)
    else:
        lectures = [rows.add(config, lecture, 40, "-", time) for time in times[:2]]
        for index, time in enumerate(chance.sample(SMALL_TIMES, 4)):
            parent = lectures[index % 2] if shape == "laboratory" else "-"
            rows.add(config, small, 20, parent, time)
    return rows.rows


def offerings(chance):
    return [row for department in DEPARTMENTS for number, shape in enumerate(SHAPES, 1)
            for row in offering_rows(chance, department, number, shape)]


def students(chance):
    rows = []
    for student in range(1001, 1501):
        year, major = 1 + (student % 4), 1 + chance.randrange(8)
        groups = str(HONOURS) if chance.random() < 0.1 else "-"
        rows.append([student, chance.choice([12, 15, 18]), groups, f"{major}:{year}:{major}"])
    return rows


def requests(chance, students):
    rows = []
    for student, most, _, curriculum in students:
        major = int(curriculum.split(":")[0])
        own = [1000 * major + 10 * number for number in range(1, 6)]
        others = [1000 * other + 10 * number for other in DEPARTMENTS if other != major for number in range(1, 6)]
        wanted = chance.sample(own, 2) + chance.sample(others, most // 3 - 1)
        named = list(wanted)
        for rank, course in enumerate(wanted[:-1], 1):
            value = f"{course}"
            if chance.random() < 0.4:
                second = chance.choice([c for c in own + others if c not in named])
                named.append(second)
                value += f"+{second}"
            rows.append([student, rank, "course", value, int(rank == 1), 0])
        rows.append([student, len(wanted), "course", wanted[-1], 0, 1])
        if chance.random() < 0.2:
            rows.append([student, len(wanted) + 1, "free", "F/1430-1700/1-15", 0, 0])
    return rows


def reservations():
    rows = []
    for department in DEPARTMENTS:
        first = 100 * department
        # Students of the department keep half of its first lecture until the term begins.
        rows.append([10 * department + 1, first + 1, f"curriculum:{department}:-:-", 60, "2027-09-03", "-", "-", 0, 0, 0])
        # Honours students keep five places of the seminar's first section.
        seminar = first + 5
        rows.append([10 * department + 2, seminar, f"group:{HONOURS}", 5, "2027-08-25", 10 * seminar, 10 * seminar + 1, 0, 0, 0])
    # The department of the fourth keeps its laboratory for its last year, whatever the limits.
    rows.append([49, 403, "curriculum:4:4:-", 6, "-", "-", "-", 1, 0, 0])
    return rows


HEADERS = {
    "offerings": "offering,courses,config,config_limit,subpart,section,limit,parent,meetings",
    "students": "student,max_credits,groups,curricula",
    "requests": "student,rank,kind,value,wait,substitute",
    "reservations": "reservation,offering,audience,limit,expiry,configs,sections,over,overlap,must",
}


def main():
    if len(sys.argv) != 2:
        sys.exit(__doc__)
    chance = random.Random(2027)
    known = students(chance)
    tables = {"offerings": offerings(chance), "students": known, "requests": requests(chance, known),
              "reservations": reservations()}
    os.makedirs(sys.argv[1], exist_ok=True)
    for table, rows in tables.items():
        with open(os.path.join(sys.argv[1], table + ".csv"), "w", newline="") as file:
            file.write(HEADERS[table] + "\n")
            csv.writer(file, lineterminator="\n").writerows(rows)


if __name__ == "__main__":
    main()
