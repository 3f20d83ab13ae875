"""What a second computation of the desk in Python answers to whole commands over one keeper, the script tests/commands.txt, whose
form tools/whole_runs.py tells, and to lines over a machine, the part `machine` of the input of test_commands, whose form its main.rt
tells. What the clerk answers, and texts of help, are taken from the stored answers. The second computation's folder is among those
of modules."""
import copy
import re

import app
import journal
import texts
from machine import Machine

VERSION = "desk 0.1.0\n"
COMMANDS = ("run", "serve", "make", "audit", "report", "import", "export", "plan", "survey", "--version")
FUZZED = ("offerings", "students", "requests", "reservations")


def do(words, data, write, opened):
    """Does what the words ask of the desk that is opened."""
    if words == ["--version"]:
        write(VERSION)
        return
    command, given, options = app.parse(words)
    if command == "make":
        write(app.make(given[0]))
        return
    desk = opened()
    if command == "run":
        app.run(desk, data, write)
    elif command == "import":
        app.import_(desk, given[0], options["first"], options.get("term"), data, write)
    elif command != "serve":
        write(app.look(desk, command, given, options))


def ended(words, data, write, opened):
    """The number of the status with which a command ends, and its text."""
    try:
        do(words, data, write, opened)
    except app.BadWords:
        return f"2 {app.USAGE}"
    except app.Status as status:
        return f"{status.number} {status.text}"
    return "0"


def unfolded(text):
    """The text with the first item that stands in it many times, as `{ITEM*COUNT}`."""
    return re.sub(r"\{([^{}*]*)\*([0-9]+)\}", lambda fold: fold[1] * int(fold[2]), text, count=1)


def unescaped(text):
    """The bytes of a text in which `\\r`, `\\n` and `\\xHH` are bytes, and a backslash before another one is that one."""
    said = {b"r": b"\r", b"n": b"\n"}
    return re.sub(rb"\\(?:x([0-9a-f]{2})|(.))",
                  lambda mark: bytes.fromhex(mark[1].decode()) if mark[1] else said.get(mark[2], mark[2]), text.encode())


def input_of(line):
    """The bytes that a line of an input says; `\\.` at its end leaves out the line feed."""
    if line.endswith("\\."):
        return unescaped(unfolded(line[:-2]))
    return unescaped(unfolded(line)) + b"\n"


def numbered(words):
    """The bytes of `FIRST..END LINES`."""
    numbers, lines = words.split(" ", 1)
    first, end = map(int, numbers.split(".."))
    return "".join(lines.replace(" | ", "\n").replace("#", str(number)) + "\n" for number in range(first, end)).encode()


class Stored:
    """The stored answers, in which those of the clerk are looked up."""

    def __init__(self, text):
        self.text, self.at = text, 0

    def begin(self, name):
        """Goes to a section, or to the end where it isn't stored."""
        found = self.text.find(f"\n{name}\n")
        self.at = found if found >= 0 else len(self.text)

    def answer(self, line):
        """What is written for a line, and how the command ends."""
        rows = "" if line.startswith("& ") else "rows [0-9]+\\n"
        end = re.compile(rf"^{re.escape(line)}\n((?:.*\n)*?)(status .*\n{rows})", re.M)
        found = end.search(self.text, self.at)
        if found is None:
            return "", "not stored\n"
        self.at = found.end()
        return found.groups()


def is_stored(words, alone):
    """Whether the answer is as it is stored: the clerk's, and a text of help."""
    return words[:1] == ["clerk"] or not alone and words[0] not in COMMANDS or app.asks_help(words) and words != ["--version"]


class Commands:
    """Commands over one keeper, and the input of the next one."""

    def __init__(self, stored):
        self.stored, self.rows, self.input, self.written = stored, [], b"", ""
        self.keeper = self.desk = None

    def opened(self):
        """The desk, which stays open."""
        if self.desk is None:
            self.desk = app.open_desk(self.keeper)
        return self.desk

    def told(self, line):
        """What is printed for a line with words."""
        if self.keeper is None:
            self.keeper = journal.MemKeeper(self.rows)
        words, data, out = ["" if word == '""' else word for word in line[2:].split()], self.input, []
        self.input = b""
        if is_stored(words, line.startswith("& ")):
            self.written, end = self.stored.answer(line)
            return f"{line}\n{self.written}{end}"
        if line.startswith("& "):
            desk = app.open_desk(journal.MemKeeper())
            status = ended(words, data, out.append, lambda: desk)
            return f"{line}\n{''.join(out)}status {status}\n"
        status = ended(words, data, out.append, self.opened)
        self.written = "".join(out)
        shown = self.written
        if line.startswith("%"):
            shown = f"lines {shown.count(chr(10))}, last {shown.splitlines()[-1] if shown else ''}\n"
        return f"{line}\n{shown}status {status}\nrows {len(self.keeper.rows)}\n"

    def again(self):
        """Whether what was written last makes the same rows."""
        keeper = journal.MemKeeper()
        status = ended(["run"], self.written.encode(), lambda _: None, lambda: app.open_desk(keeper))
        return f"again {'the same' if keeper.rows == self.keeper.rows else 'other'} rows\nstatus {status}\n"


def commands(lines, stored):
    stored = Stored(stored)
    over = Commands(stored)
    for line in lines:
        if line.startswith("#"):
            over = Commands(stored)
            stored.begin(line)
            yield line + "\n"
        elif line.startswith(("$ ", "% ", "& ")):
            yield over.told(line)
        elif line == "= again":
            yield over.again()
        elif line.startswith("| "):
            over.rows.append(line[2:].encode())
        elif line.startswith("+ "):
            over.input += numbered(line[2:])
        elif not line.startswith("/ "):
            over.input += input_of(line)


def request_of(line):
    """The day, the caller and the command of a line."""
    day, caller, _, command = texts.read_line(line)
    return texts.day("2025-09-01") if day is None else day, caller, command


def judged(machine, line, tree):
    """Whether a tree refutes a line that would be blocked."""
    try:
        tree = texts.tree(tree)
    except texts.Bad:
        return "no tree"
    day, caller, command = request_of(line)
    if copy.deepcopy(machine).step(day, caller, command)[0] != "blocked":
        return "not blocked"
    return "refuted" if machine.recheck(day, command, tree) else "not refuted"


def sections_of(lines):
    """The lines of each section behind its title."""
    sections = []
    for line in lines:
        if line.startswith("#"):
            sections.append((line, []))
        else:
            sections[-1][1].append(line)
    return sections


def over_machine(lines, kept):
    """The answers to the lines of a section over the machine, with the counts of searches that are kept."""
    machine, last = Machine(), ""
    for at, line in enumerate(lines):
        if line.startswith("? "):
            yield judged(machine, last, line[2:])
        elif line.startswith("+ "):
            asked = numbered(line[2:]).decode().splitlines()
            amended = sum(texts.print_reply(machine.step(*request_of(each))) == "amended" for each in asked)
            yield f"{amended} amended"
        elif line.startswith("% "):
            counted = re.search(", searches [0-9]+$", kept[at]) if at < len(kept) else None
            yield texts.print_reply(machine.step(*request_of(line[2:]))) + (counted[0] if counted else ", searches ?")
        else:
            last = line
            yield texts.print_reply(machine.step(*request_of(line)))


def machine(lines, stored):
    """The second computation tries everybody who waits each time: so it counts no searches, and a section in which several lines
    are acted again and again stays as it is stored."""
    kept = dict(sections_of(stored.split("\n== machine\n")[-1].split("\n== ")[0].split("\n"))) if "\n== machine\n" in stored else {}
    for title, held in sections_of(lines):
        is_long = any(line.startswith("+ ") and " | " in line for line in held)
        answers = kept.get(title, []) if is_long else over_machine(held, kept.get(title, []))
        yield title + "\n"
        yield from (line + "\n" for line in answers)


def escaped(data):
    """The bytes as lines of an input."""
    lines = "".join("\\r" if byte == 13 else chr(byte) if byte == 10 or 32 <= byte < 127 and byte not in b"\\{" else f"\\x{byte:02x}"
                    for byte in data)
    lines = re.sub(r"(?m)^(?=[#|+$%&=/])", r"\\", lines)
    return lines if not lines or lines.endswith("\n") else lines + "\\.\n"


def fuzzed_requests(seed):
    """A section of random requests."""
    import fuzz
    lines = [line if line.startswith("@") else f"@2025-09-01 {line}"
             for line in fuzz.Gen(seed).script(100) if line and not line.startswith("#")]
    return f"# Random requests, {seed}.\n" + "".join(line + "\n" for line in [*lines, "$ run", "$ audit", "$ survey"])


def fuzzed_tables(seed):
    """A section of random tables of one term."""
    import fuzz
    imports = "".join(f"{escaped(fuzz.csv_bytes(seed, table))}$ import {table} --first {100 * at + 1} --term 2025-09-01\n"
                      for at, table in enumerate(FUZZED))
    return f"# Random tables, {seed}.\n/ 7\n{imports}" + "".join(f"$ export {table}\n" for table in FUZZED)
