"""Tries what is told on standard error of work that takes more than a second: something on a terminal, nothing elsewhere.

python3 tools/progress.py [PROGRAM [HISTORY]]

PROGRAM is ./desk where none is named. HISTORY is a journal whose opening takes more than a second, for instance one of
400,000 rows; without it imports alone are tried. It stands outside the gate. The status is 1 where a case differs.
"""
import os
import pty
import subprocess
import sys
import time

ROOT = os.path.dirname(os.path.dirname(os.path.abspath(__file__)))
PROGRAM = os.path.abspath(sys.argv[1] if len(sys.argv) > 1 else os.path.join(ROOT, 'desk'))
IMPORT = ['import', 'students', '--first', '1']
HEADER = b'student,max_credits,groups,curricula\n'
ERASED = b'\r\x1b[K'


def slow_table(given, seconds):
    """Writes a table whose rows come over this time."""
    given.write(HEADER)
    for number in range(10):
        given.write(b'%d,18,-,-\n' % (number + 1))
        given.flush()
        time.sleep(seconds / 10)
    given.close()


def read_all(descriptor):
    parts = []
    while True:
        try:
            part = os.read(descriptor, 65536)
        except OSError:
            part = b''
        if not part:
            return b''.join(parts)
        parts.append(part)


def run(words, seconds, terminal):
    """(standard error, standard output) of the program, whose table comes over this time where it is above 0."""
    ours, theirs = pty.openpty() if terminal else os.pipe()
    program = subprocess.Popen([PROGRAM, *words], stdin=subprocess.PIPE, stdout=subprocess.PIPE, stderr=theirs)
    os.close(theirs)
    if seconds:
        slow_table(program.stdin, seconds)
    else:
        program.stdin.close()
    output = program.stdout.read()
    program.wait()
    told = read_all(ours)
    os.close(ours)
    return told, output


def main():
    answers = b''.join(b'%d amended\n' % number for number in range(10))
    history = ['audit', '--journal', sys.argv[2]] if len(sys.argv) > 2 else None
    differing = 0

    def case(name, is_right, got):
        nonlocal differing
        differing += not is_right
        print('ok  ' if is_right else 'BAD ', name, '' if is_right else got)

    got = run(IMPORT, 3, True)
    case('a slow import on a terminal', got[0].startswith(ERASED + b'import: ') and got[0].endswith(b' bytes read' + ERASED)
         and got[1] == answers, got)
    got = run(IMPORT, 3, False)
    case('a slow import without a terminal', got == (b'', answers), got)
    got = run(IMPORT, 0.2, True)
    case('a fast import on a terminal', got == (b'', answers), got)
    if history:
        told, _ = run(history, 0, True)
        case('a slow opening on a terminal', told.startswith(ERASED + b'opening: ') and told.endswith(ERASED), told)
        told, _ = run(history, 0, False)
        case('a slow opening without a terminal', told == b'', told)
    print(f'{differing} cases differ')
    return 1 if differing else 0


sys.exit(main())
