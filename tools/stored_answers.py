#!/usr/bin/env python3
"""What a second computation of the desk in Python answers to the scripts of tests/, and to the inputs of test_commands and
test_usage.

  stored_answers.py --oracle FOLDER                    compares the stored answers with the second computation's
  stored_answers.py --oracle FOLDER --write            writes them
  stored_answers.py --oracle FOLDER --add KIND A..B    adds inputs of the oracle's fuzzer with these seeds, and writes the answers;
                                                       the kind is requests, tables or usage

The scripts are answered by command_answers.py and http_answers.py, as whole_runs.py wants them. The parts of test_commands are
answered by fault_answers.py, command_answers.py, http_answers.py and journal_answers.py, and the words of test_usage by
usage_answers.py. What the clerk answers, texts of help, and the parts answers, workers and calling are as they are stored. The status is 1 where
a line differs.
"""
import argparse
import os
import sys

ROOT = os.path.join(os.path.dirname(os.path.abspath(__file__)), "..")


def read(name):
    with open(os.path.join(ROOT, name), newline="\n") as file:
        return file.read()


def write(name, text):
    with open(os.path.join(ROOT, name), "w", newline="\n") as file:
        file.write(text)


def parts_of(lines, names):
    """The lines of each part with one of these names, behind one another."""
    parts = []
    for line in lines:
        if line[3:] in names and line.startswith("== "):
            parts.append((line[3:], []))
        else:
            parts[-1][1].append(line)
    return parts


def command_lines(lines, stored):
    """The answers to the parts of test_commands, each behind a line with its name."""
    import command_answers
    import fault_answers
    import http_answers
    import journal_answers
    known = {"desk": fault_answers.answers, "machine": command_answers.machine, "connections": http_answers.cuts, "bodies": http_answers.bodies,
             "disks": journal_answers.answers}
    kept = ("answers", "workers", "calling")
    stored_parts = dict(parts_of(stored.split("\n")[:-1], (*known, *kept))) if stored else {}
    for name, held in parts_of(lines, (*known, *kept)):
        yield f"== {name}\n"
        if name in kept:
            yield from (line + "\n" for line in stored_parts.get(name, []))
        else:
            yield from known[name](held, stored)


def script_lines(lines, stored):
    import command_answers
    return command_answers.commands(lines, stored)


def connection_lines(lines, _):
    import http_answers
    return http_answers.connections(lines, _)


def usage_lines(lines, _):
    import usage_answers
    return usage_answers.answers(lines)


# of each input its answers, and what tells them
ANSWERS = {
    "tests/commands.txt": ("tests/commands.answers", script_lines),
    "tests/connections.txt": ("tests/connections.answers", connection_lines),
    "crates/test_commands/stdin": ("crates/test_commands/stdout", command_lines),
    "crates/test_usage/stdin": ("crates/test_usage/stdout", usage_lines),
}


def add(kind, low, high):
    """Adds random inputs behind those that there are."""
    import command_answers
    import usage_answers
    fuzzed = {"requests": command_answers.fuzzed_requests, "tables": command_answers.fuzzed_tables, "usage": usage_answers.fuzzed}[kind]
    name = "crates/test_usage/stdin" if kind == "usage" else "tests/commands.txt"
    write(name, read(name) + "".join(map(fuzzed, range(low, high + 1))))


def tell_difference(name, told, stored):
    """Tells the first lines that differ, and how many lines there are."""
    told, stored = told.split("\n"), stored.split("\n")
    at = next((at for at, lines in enumerate(zip(told, stored)) if lines[0] != lines[1]), min(len(told), len(stored)))
    print(f"{name}: line {at + 1} of the stored answers is {stored[at:at + 1]}, and not {told[at:at + 1]}; "
          f"{len(stored)} lines are stored, and {len(told)} wanted")


def main():
    parser = argparse.ArgumentParser()
    parser.add_argument("--oracle", required=True)
    parser.add_argument("--write", action="store_true")
    parser.add_argument("--add", nargs=2, metavar=("KIND", "SEEDS"))
    given = parser.parse_args()
    os.environ["DESK_TODAY"] = "2025-09-01"
    sys.dont_write_bytecode = True
    sys.path.insert(0, given.oracle)
    if given.add:
        add(given.add[0], *map(int, given.add[1].split("..")))
    status = 0
    for name, (kept, answers) in ANSWERS.items():
        stored = read(kept)
        told = "".join(answers(read(name).split("\n")[:-1], stored))
        if given.write or given.add:
            write(kept, told)
        elif told != stored:
            tell_difference(kept, told, stored)
            status = 1
    return status


sys.exit(main())
