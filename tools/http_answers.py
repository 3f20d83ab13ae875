"""What a second computation of the desk in Python answers over HTTP: to the script tests/connections.txt, and to the parts
`connections` and `bodies` of test_commands. The second computation's folder is among those of modules."""
import itertools

import app
import httpd
import journal
import texts
from command_answers import unescaped, unfolded

# The connection of test_commands, which is served again and again.
ROWS = [b"2025-09-01 r1 1 offering 1 course 1 - 3 config 1 - subpart 1 section 7 1 - - = amended",
        b"2025-09-01 r1 2 student 11 max 18 = amended", b"2025-09-01 r1 3 student 12 max 18 = amended"]
CURL = (b"POST /students/11/asks/1 HTTP/1.1\r\nHost: localhost:8080\r\nUser-Agent: curl/8.5.0\r\nAccept: */*\r\n"
        b"Content-Type: application/json\r\nContent-Length: 43\r\n\r\n")
WAITING = b"GET /waiting HTTP/1.1\r\nHost: localhost:8080\r\n\r\n"
BODY = b'{"verb":"enrol","student":11,"courses":[1]}'
CUT = CURL + BODY + WAITING + CURL + BODY[:10]


class Fault(Exception):
    """A read or a write that fails."""


class Talk:
    """A connection that gives and takes so many bytes at a time; the read and the write with these numbers, from 0, fail."""

    def __init__(self, data, piece, failing_read=None, failing_write=None):
        self.pieces = [data[at:at + piece] for at in range(0, len(data), piece)]
        self.piece, self.told, self.end = piece, b"", None
        self.failing = {"ReadFault": failing_read, "WriteFault": failing_write}
        self.calls = {"ReadFault": 0, "WriteFault": 0}

    def call(self, fault):
        if self.calls[fault] == self.failing[fault]:
            raise Fault(fault)
        self.calls[fault] += 1

    def read(self):
        self.call("ReadFault")
        return self.pieces.pop(0) if self.pieces else b""

    def write(self, data):
        for at in range(0, len(data), self.piece):
            self.call("WriteFault")
            self.told += data[at:at + self.piece]

    def serve(self, desk):
        """The connection when it was served."""
        try:
            self.end = httpd.session(self.read, self.write, desk, app.today)
        except Fault as fault:
            self.end = fault.args[0]
        return self


def served(talk, desk):
    """What a connection was told."""
    told = talk.serve(desk).told.decode().replace("\r", "\\r")
    return f"{len(talk.told)} bytes\n{told}" + "\n" * (told != "" and not told.endswith("\n"))


def sweep(kind, data, piece, opened):
    """The runs of a sweep, those with the same end together."""
    whole = Talk(data, 1).serve(opened()).told
    talks = {"cut": lambda number: Talk(data[:number], piece), "read": lambda number: Talk(data, 1, number),
             "write": lambda number: Talk(data, 1, None, number)}
    desk, ends = opened(), []
    for number in range(len(whole if kind == "write" else data) + 1):
        talk = talks[kind](number).serve(desk)
        told = f"{len(talk.told)} bytes" if whole.startswith(talk.told) else "no front"
        ends.append(f"{told}, {talk.end}")
    for end, runs in itertools.groupby(range(len(ends)), ends.__getitem__):
        runs = list(runs)
        first, last = runs[0], runs[-1]
        yield f"{first} to {last}: {end}\n" if first < last else f"{first}: {end}\n"


def connections(lines, _):
    """What is told of the script tests/connections.txt, whose form tools/whole_runs.py tells."""
    rows, failing, data, sent = [], [], b"", []
    for line in lines:
        if line.startswith("#"):
            rows, failing, data, sent = [], [], b"", []
            yield line + "\n"
        elif line.startswith("| "):
            rows.append(line[2:].encode())
        elif line.startswith("! "):
            failing = [int(line[2:])]
        elif line.startswith("/ "):
            sent.append((data, int(line[2:])))
            data = b""
        elif line.startswith("< "):
            data += unescaped(unfolded(line[2:]))
        else:
            keeper = journal.MemKeeper(rows, failing)
            desk = app.open_desk(keeper)
            order = sent[::-1] if line == "$ serve at once" else sent
            yield line + "\n" + "".join(served(Talk(*talk), desk) for talk in order)
            yield "status 0\n" + "".join(f"| {row.decode()}\n" for row in keeper.rows[len(rows):])


def cuts(*_):
    """What is told of the connection of the part `connections` of test_commands, which ends at each place."""
    for kind in ("cut", "read", "write"):
        yield f"{kind}\n"
        yield from sweep(kind, CUT, 1000, lambda: app.open_desk(journal.MemKeeper(list(ROWS))))


def body_told(text):
    try:
        return texts.print_command(texts.read_body(text.encode()))
    except texts.BadBody as bad:
        return f"bad {bad.args[0]}"


def bodies(lines, _):
    """What is told of the part `bodies` of test_commands."""
    for line in lines:
        yield (line if line.startswith("#") else body_told(line)) + "\n"
