"""Tries each way in which the program ends over real files: its status, its text and what it leaves behind.

python3 tools/statuses.py [--files] [PROGRAM]

PROGRAM is ./desk where none is named. A file without permission is tried but by root, and a full disk by root alone, on a file
system in memory. With --files, as behind the gate, a full disk, a program that is killed and want of memory aren't tried, and
only what differs is printed. The status is 1 where a case differs.
"""
import contextlib
import os
import resource
import sqlite3
import subprocess
import sys
import tempfile
import threading

ROOT = os.path.dirname(os.path.dirname(os.path.abspath(__file__)))
FILES = '--files' in sys.argv[1:2]
NAMED = sys.argv[1 + FILES:]
PROGRAM = os.path.abspath(NAMED[0] if NAMED else os.path.join(ROOT, 'desk'))
LINES = b'@2025-08-01 r1 1 student 11 max 18\n@2025-08-01 r1 2 student 12 max 18\n@2025-08-01 r1 3 student 13 max 18\n'
ANSWERS = b'0 amended\n1 amended\n2 amended\n'
USAGE = b'usage: desk run|serve|make|audit|report|import|export|plan|survey\n'

differing = []


def told(name, got, wanted):
    """Notes a case, and prints it where it differs."""
    if not FILES or got != wanted:
        print('ok  ' if got == wanted else 'BAD ', name)
    if got != wanted:
        print('     got   ', got)
        print('     wanted', wanted)
        differing.append(name)


def run(words, given=b'', stdout=subprocess.PIPE, limit=None):
    """(status, standard error, standard output) of the program."""
    def limited():
        resource.setrlimit(resource.RLIMIT_AS, (limit, limit))

    done = subprocess.run([PROGRAM, *words], input=given, stdout=stdout, stderr=subprocess.PIPE,
                          preexec_fn=limited if limit else None, check=False)
    return done.returncode, done.stderr, done.stdout


def ends(name, words, status, text, given=b'', output=None, **more):
    got = run(words, given, **more)
    told(name, got if output is not None else got[:2], (status, text, output) if output is not None else (status, text))


def words():
    ends('no words', [], 2, USAGE)
    ends('an unknown command', ['fly'], 2, USAGE)
    ends('both keepers', ['run', '--db', 'a', '--journal', 'b'], 2, USAGE)
    told('bad words make no file', os.path.exists('a'), False)
    ends('a text of help', ['run', '--help'], 0, b'')
    ends('a bad line', ['run'], 3, b'line 2 field 0\n', LINES[:35] + b'fly\n', b'0 amended\n')


def streams():
    folder = os.open('/', os.O_RDONLY)
    done = subprocess.run([PROGRAM, 'run'], stdin=folder, capture_output=True, check=False)
    os.close(folder)
    told('an input that is a folder', (done.returncode, done.stderr), (4, b'read fault\n'))
    with open('/dev/full', 'wb') as full:
        ends('an output that is full', ['run'], 5, b'write fault\n', LINES, stdout=full)
    read, write = os.pipe()
    os.close(read)
    ends('an output that is closed', ['run'], 5, b'write fault\n', LINES, stdout=write)
    os.close(write)


def content(path):
    with open(path, 'rb') as file:
        return file.read()


def put(path, data):
    with open(path, 'wb') as file:
        file.write(data)


def keeper(option, fresh):
    """The cases that both keepers of a file have in common."""
    ends(f'{option}: a new file', ['run', option, fresh], 0, b'', LINES, ANSWERS)
    ends(f'{option}: the same lines again', ['run', option, fresh], 0, b'', LINES, ANSWERS)
    ends(f'{option}: its audit', ['audit', option, fresh], 0, b'', b'', b'entries 3 blocked 0 verified 0 day 2025-08-01\n')
    ends(f'{option}: a folder', ['run', option, '/tmp'], 6, b'keeper fault\n', LINES)
    ends(f'{option}: a folder that is not there', ['run', option, 'none/file'], 6, b'keeper fault\n', LINES)
    if os.getuid():
        put('closed', b'')
        os.chmod('closed', 0)
        ends(f'{option}: a file without permission', ['run', option, 'closed'], 6, b'keeper fault\n', LINES)
        os.remove('closed')
    before = content(fresh)
    first = subprocess.Popen([PROGRAM, 'run', option, fresh], stdin=subprocess.PIPE, stdout=subprocess.PIPE)
    first.stdin.write(LINES[:35])
    first.stdin.flush()
    first.stdout.readline()
    ends(f'{option}: a second program on the file', ['run', option, fresh], 6, b'keeper fault\n', b'r1 9 student 99 max 18\n', b'')
    first.stdin.close()
    told(f'{option}: the first one ends as ever', first.wait(), 0)
    told(f'{option}: the file is as it was', content(fresh), before)


def many(option, path):
    """More rows than are read at once, the longest of some seven hundred bytes."""
    lines = [b'@2025-08-01 r1 %d student %d max 18' % (number, number) for number in range(1, 601)]
    lines += [b'@2025-08-01 r1 %d batch %s' % (601 + count, b'+'.join(b'%d' % number for number in range(1, count)))
              for count in range(2, 201)]
    status, text, output = run(['run', option, path], b'\n'.join(lines) + b'\n')
    told(f'{option}: many rows', (status, text, output.count(b'\n')), (0, b'', 799))
    ends(f'{option}: their audit', ['audit', option, path], 0, b'', b'', b'entries 799 blocked 0 verified 0 day 2025-08-01\n')
    ends(f'{option}: the last of them again', ['run', option, path], 0, b'', lines[-1] + b'\n', output.splitlines(True)[-1])


def databases():
    keeper('--db', 'term.db')
    many('--db', 'many.db')
    with contextlib.closing(sqlite3.connect('term.db')) as conn:
        rows = conn.execute('select place, cast(row as text) from entry order by place').fetchall()
    told('--db: rows as sqlite3 reads them', [place for place, _ in rows], [0, 1, 2])
    put('text.db', b'a text that is no database, and longer than a header of one hundred bytes is, so that it is read to its end\n')
    ends('--db: a file of another kind', ['run', '--db', 'text.db'], 6, b'keeper fault\n', LINES)
    with contextlib.closing(sqlite3.connect('other.db')) as conn:
        conn.execute('create table entry (name text)')
        conn.commit()
    ends('--db: another table of this name', ['run', '--db', 'other.db'], 6, b'keeper fault\n', LINES)
    with contextlib.closing(sqlite3.connect('term.db')) as conn:
        conn.execute("update entry set row = cast('no entry' as blob) where place = 1")
        conn.commit()
    ends('--db: a row that is no entry', ['run', '--db', 'term.db'], 7, b'bad entry 1\n', LINES, b'')
    with contextlib.closing(sqlite3.connect('term.db')) as conn:
        conn.execute('delete from entry where place = 1')
        conn.commit()
    ends('--db: a row that is missing', ['run', '--db', 'term.db'], 7, b'bad entry 1\n', LINES, b'')


def journals():
    keeper('--journal', 'term.journal')
    many('--journal', 'many.journal')
    whole = content('term.journal')
    put('text.journal', b'a text that is no journal')
    ends('--journal: a file of another kind', ['run', '--journal', 'text.journal'], 6, b'keeper fault\n', LINES)
    told('--journal: that file is as it was', content('text.journal'), b'a text that is no journal')
    kinds = {}
    for length in range(1, len(whole)):
        put('cut.journal', whole[:length])
        status, text, _ = run(['audit', '--journal', 'cut.journal'])
        kinds.setdefault((status, text.split(b' ')[:2] == [b'bad', b'journal']), []).append(length)
    told('--journal: cut at any byte it ends with status 7 and its place', sorted(kinds), [(7, True)])
    if kinds.keys() - {(7, True)}:
        print('     ', kinds)


def full():
    """A disk without room: what was answered `fault` isn't kept, and what was answered otherwise is."""
    if os.getuid():
        return
    os.mkdir('small')
    for option, path, size in (('--db', 'small/term.db', '2m'), ('--journal', 'small/term.journal', '128k')):
        subprocess.run(['mount', '-t', 'tmpfs', '-o', f'size={size}', 'none', 'small'], check=True)
        try:
            fill(option, path)
        finally:
            subprocess.run(['umount', 'small'], check=True)


def fill(option, path):
    """Lines until the disk is full: those that were answered otherwise than `fault` are there."""
    lines = b''.join(b'@2025-08-01 r1 %d student %d max 18\n' % (number, number) for number in range(1, 20001))
    status, text, output = run(['run', option, path], lines)
    answers = output.split(b'\n')[:-1]
    done = answers.index(b'fault') if b'fault' in answers else len(answers)
    told(f'{option}: a full disk', (status, text, set(answers[done:])), (0, b'', {b'fault'}))
    status, text, output = run(['audit', option, path])
    print(f'     {done} lines answered, then', status, text, output)
    told(f'{option}: its entries', (status, output.split()[1:2]), (0, [b'%d' % done]))


def killed():
    """A run that is killed loses no answered line."""
    for option, path in (('--db', 'killed.db'), ('--journal', 'killed.journal')):
        program = subprocess.Popen([PROGRAM, 'run', option, path], stdin=subprocess.PIPE, stdout=subprocess.PIPE)
        threading.Timer(0.25, program.kill).start()
        answered = 0
        # Answers are written before the next line is read.
        for number in range(1, 1000001):
            try:
                program.stdin.write(b'@2025-08-01 r1 %d student %d max 18\n' % (number, number))
                program.stdin.flush()
            except BrokenPipeError:
                break
            if not program.stdout.readline().endswith(b'\n'):
                break
            answered += 1
        program.wait()
        status, text, output = run(['audit', option, path])
        entries = int(output.split()[1]) if status == 0 else -1
        print(f'     {answered} lines answered, {entries} entries found')
        told(f'{option}: a run that was killed', (status, text, 0 < answered <= entries <= answered + 1), (0, b'', True))


def memory():
    lines = b''.join(b'@2025-08-01 r1 %d student %d max 18\n' % (number, number) for number in range(1, 200001))
    status, text, _ = run(['run'], lines, limit=48 << 20)
    told('want of memory', (status, text) in ((9, b'out of memory\n'), (0, b'')), True)


def main():
    with tempfile.TemporaryDirectory() as folder:
        os.chdir(folder)
        for cases in (words, streams, databases, journals, *(() if FILES else (full, killed, memory))):
            cases()
        os.chdir(ROOT)
    print(f'{len(differing)} cases differ')
    return 1 if differing else 0


sys.exit(main())
