#!/usr/bin/env python3
"""Runs the built programs on the scripts of tests/, and compares what they tell with the answers stored beside these.

  whole_runs.py --desk PROGRAM --clerk PROGRAM [--only TEXT]

Both answer files were written by a second computation of the desk, which `stored_answers.py` compares with them; what the clerk
answers, and texts of help, are as they are stored. Each history is kept in a journal. A day that is today's shows as 2025-09-01,
the day on which the second computation asks. With --only, of each script the sections are run whose name has the text in it. The
last line tells how many sections were run and how many differed; the status is 1 where one did.

`commands.txt`: a line `# NAME` begins a history without rows, `| ROW` puts a row behind those with which it begins. `/ PIECE` says
how many bytes a read of standard input gives at most. `+ FIRST..END LINE | LINE` puts the lines into the input once for each
number from FIRST to before END, in place of each `#`. `$ WORDS` does what the words ask over the history, with the lines before it
as input: the desk where the first word is one of its commands, and the clerk where it is another. Its answer has the words, what
was written, the status with its text, and how many rows the history has. `% WORDS` is the same, but instead of what was written the
answer has how many lines that were and the last one. `& WORDS` are words alone, which keep nothing; behind `clerk` they are the
clerk's, and `""` is a word without letters. `= again` runs what was written last over a history without rows, and tells whether it
has the same rows. Other lines are input: in one `{ITEM*COUNT}` is the item so many times, `\\r` a carriage return, `\\n` a line
feed, `\\x` with two digits a byte, a backslash before another byte that byte, and `\\.` at the end leaves out the line feed.

`connections.txt`: `# NAME` and `| ROW` are the same. `< TEXT` puts a text behind what a connection sends, `/ PIECE` ends the
connection, which is sent so many bytes at a time. `$ serve` serves the connections, one after another, by one worker; `$ serve at
once` by as many workers as there are connections, all of which come before the last one sends its bytes, and then the one before
it. The answer has for each how many bytes it was told and the bytes, with `\\r` for a carriage return; then the program's status,
and the rows that the history has behind those with which it began. Behind `! 1` the journal's file can't grow until the first
connection is answered.
"""
import argparse
import array
import contextlib
import datetime
import fcntl
import os
import re
import resource
import signal
import socket
import subprocess
import sys
import tempfile
import termios
import time

from serving import Server

TESTS = os.path.join(os.path.dirname(os.path.abspath(__file__)), '..', 'tests')
DESK = ('run', 'make', 'audit', 'report', 'import', 'export', 'plan', 'survey', 'serve')
ALONE = ('make', 'check')
SHOWN_DAY = b'2025-09-01'
BEGUN = datetime.datetime.now(datetime.timezone.utc).date()


def unfolded(text):
    """The text with the first item that stands in it many times, as `{ITEM*COUNT}`."""
    return re.sub(r'\{([^{}*]*)\*([0-9]+)\}', lambda fold: fold[1] * int(fold[2]), text, count=1)


def unescaped(text):
    """The bytes of a text in which `\\r`, `\\n` and `\\xHH` are bytes, and a backslash before another one is that one."""
    said = {b'r': b'\r', b'n': b'\n'}
    return re.sub(rb'\\(?:x([0-9a-f]{2})|(.))',
                  lambda mark: bytes.fromhex(mark[1].decode()) if mark[1] else said.get(mark[2], mark[2]), text.encode())


def input_of(line):
    """The bytes that a line of an input says."""
    if line.startswith('+ '):
        numbers, lines = line[2:].split(' ', 1)
        first, end = map(int, numbers.split('..'))
        return ''.join(lines.replace(' | ', '\n').replace('#', str(number)) + '\n' for number in range(first, end)).encode()
    if line.endswith('\\.'):
        return unescaped(unfolded(line[:-2]))
    return unescaped(unfolded(line)) + b'\n'


def journal_of(rows):
    """The bytes of a journal with these rows, each behind its gate and its length, and a closed gate."""
    return b''.join(b'\x01' + len(row).to_bytes(8, 'big') + row for row in rows) + b'\0'


def rows_of(path):
    """The rows of a journal; none where there is none."""
    rows, at = [], 0
    if not os.path.exists(path):
        return rows
    with open(path, 'rb') as file:
        data = file.read()
    while data[at:at + 1] == b'\x01':
        end = at + 9 + int.from_bytes(data[at + 1:at + 9], 'big')
        rows.append(data[at + 9:end])
        at = end
    return rows


def wait_until_read(pipe, process):
    """Waits until all that was written into a pipe is read, or the program is gone."""
    waiting = array.array('i', [1])
    while process.poll() is None:
        fcntl.ioctl(pipe, termios.FIONREAD, waiting)
        if waiting[0] == 0:
            return
        time.sleep(0)


def feed(process, data, piece):
    """Writes the input so many bytes at a time, each once those before it are read."""
    try:
        for at in range(0, len(data), piece):
            process.stdin.write(data[at:at + piece])
            process.stdin.flush()
            wait_until_read(process.stdin, process)
    except BrokenPipeError:
        pass
    with contextlib.suppress(BrokenPipeError):
        process.stdin.close()


def run(words, data, piece, folder):
    """(what was written, the status, its text) of a program."""
    with open(os.path.join(folder, 'written'), 'w+b') as written, open(os.path.join(folder, 'told'), 'w+b') as told:
        process = subprocess.Popen(words, stdin=subprocess.PIPE, stdout=written, stderr=told, cwd=folder)
        try:
            if piece:
                feed(process, data, piece)
                process.wait(timeout=60)
            else:
                process.communicate(data, timeout=60)
        finally:
            process.kill()
        written.seek(0)
        told.seek(0)
        return written.read(), process.returncode, told.read()


def day_hidden(data):
    """The bytes with another day in the place of today's, and of the day on which this program was begun."""
    for day in (datetime.datetime.now(datetime.timezone.utc).date(), BEGUN):
        data = data.replace(day.isoformat().encode(), SHOWN_DAY)
    return data


class Commands:
    """Commands over one history, and the input of the next one."""

    def __init__(self, programs, folder):
        self.programs, self.folder, self.path = programs, folder, os.path.join(folder, 'journal')
        self.rows, self.input, self.piece, self.written = [], b'', 0, b''

    def put(self, line):
        """What is told for a line."""
        if line.startswith('| '):
            self.rows.append(line[2:].encode())
        elif line.startswith('/ '):
            self.piece = int(line[2:])
        elif line.startswith(('$ ', '% ', '& ')):
            return self.done(line)
        elif line == '= again':
            return self.again()
        else:
            self.input += input_of(line)
        return b''

    def run(self, words, path):
        """What the program tells of its end that is named by the first word."""
        clerk = words[:1] == ['clerk'] or path is not None and words[0] not in DESK
        words = words[1:] if words[:1] == ['clerk'] else words
        keeper = [] if path is None or words[0] in ALONE else ['--journal', path]
        data, self.input = self.input, b''
        self.written, status, text = run([self.programs[clerk], *words, *keeper], data, self.piece, self.folder)
        return f'status {status} {text.decode()}'.rstrip().encode() + b'\n'

    def done(self, line):
        """Does what the words of a line ask."""
        words = ['' if word == '""' else word for word in line[2:].split()]
        if line.startswith('& '):
            end = self.run(words, None)
        else:
            if self.rows and not os.path.exists(self.path):
                with open(self.path, 'wb') as file:
                    file.write(journal_of(self.rows))
            end = self.run(words, self.path) + b'rows %d\n' % len(rows_of(self.path))
        shown = day_hidden(self.written)
        if line.startswith('% '):
            lines = shown.splitlines()
            shown = b'lines %d, last %s\n' % (len(lines), lines[-1] if lines else b'')
        return line.encode() + b'\n' + shown + end

    def again(self):
        """Whether what was written last makes the same rows."""
        path = os.path.join(self.folder, 'again')
        self.input, self.piece = self.written, 0
        end = self.run(['run'], path)
        return b'again %s rows\n' % (b'the same' if rows_of(path) == rows_of(self.path) else b'other') + end


def answered(connection, data, piece):
    """What a connection is told that sends these bytes, and then no more."""
    told = b''
    connection.setsockopt(socket.IPPROTO_TCP, socket.TCP_NODELAY, 1)
    try:
        for at in range(0, len(data), piece):
            connection.sendall(data[at:at + piece])
        connection.shutdown(socket.SHUT_WR)
    except OSError:
        pass
    try:
        while part := connection.recv(65536):
            told += part
    except OSError as error:
        told += f'({error})'.encode()
    return told


def heard(server, data, piece):
    """The same of a connection of its own."""
    with server.connect() as connection:
        return answered(connection, data, piece)


def shown(text):
    """How many bytes a text has, and the text, which ends with a line feed."""
    return b'%d bytes\n%s' % (len(text), text.replace(b'\r', b'\\r')) + (b'' if not text or text.endswith(b'\n') else b'\n')


class Connections:
    """Connections over one history."""

    def __init__(self, programs, folder):
        self.desk, self.path = programs[0], os.path.join(folder, 'journal')
        self.rows, self.data, self.sent, self.held = [], b'', [], False

    def put(self, line):
        """What is told for a line."""
        if line.startswith('| '):
            self.rows.append(line[2:].encode())
        elif line == '! 1':
            self.held = True
        elif line.startswith('< '):
            self.data += unescaped(unfolded(line[2:]))
        elif line.startswith('/ '):
            self.sent.append((self.data, int(line[2:])))
            self.data = b''
        elif line == '$ serve at once':
            return line.encode() + b'\n' + self.served_at_once()
        else:
            return line.encode() + b'\n' + self.served()
        return b''

    @contextlib.contextmanager
    def begun(self, workers=1):
        """A server over the history, whose workers serve as many connections in all as there are, and which is gone behind it.
        Where its file can't grow, a write past its end fails, and no signal ends the server."""
        with open(self.path, 'wb') as file:
            file.write(journal_of(self.rows))
        bound = os.path.getsize(self.path)
        held = {'preexec_fn': lambda: resource.setrlimit(resource.RLIMIT_FSIZE, (bound, resource.RLIM_INFINITY)),
                'restore_signals': False} if self.held else {}
        server = Server(self.desk, ['--journal', self.path], workers, len(self.sent) // workers, **held)
        try:
            yield server
        finally:
            server.process.kill()

    def served(self):
        """What each connection is told, how the server ends, and what it kept."""
        told = b''
        with self.begun() as server:
            for data, piece in self.sent:
                told += shown(heard(server, data, piece))
                resource.prlimit(server.process.pid, resource.RLIMIT_FSIZE, (resource.RLIM_INFINITY, resource.RLIM_INFINITY))
            return told + self.ended(server)

    def served_at_once(self):
        """The same of as many workers as connections: all of them come, and then the last one sends the first of its bytes."""
        told = b''
        with self.begun(len(self.sent)) as server, contextlib.ExitStack() as stack:
            came = [stack.enter_context(server.connect()) for _ in self.sent]
            for connection, (data, _) in reversed(list(zip(came, self.sent))):
                told += shown(answered(connection, data, len(data)))
                connection.close()
            return told + self.ended(server)

    def ended(self, server):
        """How a server ends, and what it kept."""
        status, text = server.end()
        kept = rows_of(self.path)[len(self.rows):]
        end = f'status {status} {text}'.rstrip().encode() + b'\n'
        return end + b''.join(b'| ' + day_hidden(row) + b'\n' for row in kept)


def sections_of(path):
    """(name, lines) of each section of a script."""
    with open(path, newline='\n') as file:
        lines = file.read().split('\n')[:-1]
    sections = []
    for line in lines:
        if line.startswith('#'):
            sections.append((line, []))
        else:
            sections[-1][1].append(line)
    return sections


def answers_of(path, names):
    """The stored answer of each section, in the order of these names."""
    with open(path, 'rb') as file:
        data = b'\n' + file.read()
    ends = [data.find(b'\n%s\n' % name.encode()) + 1 for name in names] + [len(data)]
    return {name: data[start + len(name.encode()) + 1:end] for name, start, end in zip(names, ends, ends[1:]) if start}


def told_of(kind, programs, lines):
    """What the programs tell of the lines of a section."""
    with tempfile.TemporaryDirectory(dir='/dev/shm' if os.path.isdir('/dev/shm') else None) as folder:
        over = kind(programs, folder)
        return b''.join(over.put(line) for line in lines)


def tell_difference(name, told, stored):
    """Tells the first lines that differ."""
    told, stored = told.split(b'\n'), stored.split(b'\n')
    at = next((at for at, lines in enumerate(zip(told, stored)) if lines[0] != lines[1]), min(len(told), len(stored)))
    print(f'{name}\n  line {at + 1} is   {b"".join(told[at:at + 1])[:300]!r}\n  and not {b"".join(stored[at:at + 1])[:300]!r}')


def main():
    parser = argparse.ArgumentParser(description=__doc__, formatter_class=argparse.RawDescriptionHelpFormatter)
    parser.add_argument('--desk', required=True)
    parser.add_argument('--clerk', required=True)
    parser.add_argument('--only', default='')
    given = parser.parse_args()
    signal.signal(signal.SIGXFSZ, signal.SIG_IGN)
    programs = os.path.abspath(given.desk), os.path.abspath(given.clerk)
    count = differ = 0
    for script, kind in (('commands', Commands), ('connections', Connections)):
        sections = sections_of(os.path.join(TESTS, script + '.txt'))
        stored = answers_of(os.path.join(TESTS, script + '.answers'), [name for name, _ in sections])
        for name, lines in sections:
            if given.only in name:
                told, count = told_of(kind, programs, lines), count + 1
                if told != stored.get(name):
                    differ += 1
                    tell_difference(f'{script}: {name}', told, stored.get(name, b''))
    print(f'{count} sections, {differ} differ')
    return 1 if differ or not count else 0


if __name__ == '__main__':
    sys.exit(main())
