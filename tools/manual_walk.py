#!/usr/bin/env python3
"""Does what docs/MANUAL.md shows, and compares the answers that stand there.

  manual_walk.py --desk PROGRAM --clerk PROGRAM

In a block a line that begins with `@` is sent to `desk run --db term.db`, and one that begins with `$` is a command; what stands
under it is its answer. Each part of the manual begins with the term of examples/tasks.txt, and each of its tasks too. Blocks
that ask a server are passed over. The last line tells how many answers were compared and how many differed; the status is 1
where one did.
"""
import argparse
import os
import re
import subprocess
import sys
import tempfile

ROOT = os.path.dirname(os.path.dirname(os.path.abspath(__file__)))
RUN = './desk run --db term.db'


def blocks(text):
    """The blocks to be walked through: the heading above each, whether it is the first behind it, and its lines."""
    pieces = re.split(r'^(```\w*|##+ .*)$', text, flags=re.M)
    part, heading, is_first = '', '', True
    for mark, behind in zip(pieces[1::2], pieces[2::2]):
        if mark.startswith('#'):
            part = mark if mark.startswith('## ') else part
            if mark == part or part == '## Tasks':
                heading, is_first = mark.lstrip('# '), True
        elif mark == '```' and re.match(r'\n(@|\$ (?!curl|\./desk serve))', behind):
            yield heading, is_first, behind.strip('\n').split('\n')
            is_first = False


def answered(command, given, folder):
    """The lines that a command answers."""
    done = subprocess.run(['bash', '-c', command], input=given, cwd=folder, stdout=subprocess.PIPE, stderr=subprocess.STDOUT, text=True, check=False)
    return done.stdout.rstrip('\n').split('\n') if done.stdout else []


def begun(words, folder):
    """A folder with the programs, the examples and the term."""
    os.mkdir(folder)
    for name, path in (('desk', words.desk), ('clerk', words.clerk), ('examples', os.path.join(ROOT, 'examples'))):
        os.symlink(os.path.abspath(path), os.path.join(folder, name))
    answered(f'{RUN} < examples/tasks.txt', '', folder)
    return folder


def walked(lines, folder):
    """Each line that asks, with what stands under it up to the next one, and its answer. An answer may have lines that begin so too."""
    at = 0
    while at < len(lines):
        line = lines[at]
        got = answered(RUN, line + '\n', folder) if line.startswith('@') else answered(line[2:], '', folder)
        end = at + 1 + len(got)
        while end < len(lines) and not lines[end].startswith(('@', '$ ')):
            end += 1
        yield line, lines[at + 1:end], got
        at = end


def main():
    parser = argparse.ArgumentParser(description=__doc__.split('\n')[0])
    parser.add_argument('--desk', required=True)
    parser.add_argument('--clerk', required=True)
    words = parser.parse_args()
    compared = differed = 0
    with tempfile.TemporaryDirectory() as place, open(os.path.join(ROOT, 'docs', 'MANUAL.md')) as file:
        for heading, is_first, lines in blocks(file.read()):
            if is_first:
                folder = begun(words, os.path.join(place, str(compared)))
            for line, wanted, got in walked(lines, folder):
                compared += 1
                if wanted != got:
                    differed += 1
                    print(f'{heading}: {line}\n  is answered {got}\n  and not {wanted}')
    print(f'{compared} answers of the manual compared, {differed} differed')
    return 1 if differed or not compared else 0


if __name__ == '__main__':
    sys.exit(main())
