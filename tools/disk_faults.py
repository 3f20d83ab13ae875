#!/usr/bin/env python3
"""Lets each write and each sync of a short `desk run` over a file fail once, and looks whether the answers tell so.

  disk_faults.py --desk PROGRAM [--keeper journal|db] [--folder FOLDER]

It wants strace. Without --keeper both keepers are tried. The lines are asked one at a time, each once the one before was
answered. A first run tells which calls of the system belong to which line; then there is a run for each of them and each of the
errors EIO and ENOSPC, with which strace answers that one call in place of the system. There

- an answer to the line of the call is `fault`, and those before it are as in the first run; a call of the opening ends the
  program with status 6 before any answer, and one behind the last answer changes nothing;
- once the file is opened anew and all lines are asked again, each answer but `fault` comes again, with its place and reply,
  and each line has a place of its own, from 0 without a gap;
- `desk audit` counts each line once.

Where there is strace, it stands behind the gate, with the journal. The status is 1 where something differs.
"""
import argparse
import os
import re
import subprocess
import sys
import tempfile

from serving import entries, run_lines

LINES = [
    'r1 1 offering 1 course 1 - 3 config 1 - subpart 1 section 1 1 - MWF/0900-0950/1-15\n', 'r1 2 student 11 max 18\n', 'r1 3 student 12 max 18\n',
    's11 1 enrol 11 1\n', 's12 1 wait 12 1\n', 's11 2 drop 11 1\n',
]
CALLS = 'pwrite64,fdatasync,fsync,ftruncate,write,rename,unlink'
ERRORS = ('EIO', 'ENOSPC')


def run(program, options, log, inject=()):
    """Asks the lines one at a time under strace. The answers, the status and what was said."""
    words = ['strace', '-o', log, '-e', f'trace={CALLS}', *(part for rule in inject for part in ('-e', f'inject={rule}')), program, 'run', *options]
    process = subprocess.Popen(words, stdin=subprocess.PIPE, stdout=subprocess.PIPE, stderr=subprocess.PIPE)
    told = []
    for line in LINES:
        try:
            process.stdin.write(line.encode())
            process.stdin.flush()
        except BrokenPipeError:
            break
        answer = process.stdout.readline().decode()
        if not answer:
            break
        told.append(answer.strip())
    try:
        process.stdin.close()
    except BrokenPipeError:
        pass
    said = process.stderr.read().decode().strip()
    process.stdout.close()
    return told, process.wait(), said


def calls_of(log):
    """Each call that may fail: its name, which of its name it is, from 1, and how many answers were written before it."""
    counts, answered, calls = {}, 0, []
    with open(log, encoding='latin-1') as file:
        for text in file:
            call = re.match(r'(\w+)\((\d+|".*?)', text)
            if not call:
                continue
            name, first = call.groups()
            counts[name] = counts.get(name, 0) + 1
            if name == 'write' and first == '1':
                answered += 1
            elif not (name == 'write' and first == '2'):
                calls.append((name, counts[name], answered))
    return calls


def difference(words, options, told, clean, answered, opening, end):
    """What differs in a run in which a call failed when so many lines had been answered."""
    status, said = end
    if opening:
        if (told, status) != ([], 6):
            return f'the opening ended with {status} {said}, answered {told}'
    elif status or len(told) != len(LINES) or told[:answered] != clean[:answered]:
        return f'status {status} {said}, answered {told}'
    elif told[answered:answered + 1] not in ([], ['fault']):
        return f'line {answered + 1} was answered {told[answered]}'
    status, now, said = run_lines(words.desk, options, LINES)
    if status or len(now) != len(LINES) or any(before not in ('fault', after) for before, after in zip(told, now)):
        return f'answered {told}, and then {now} {status} {said}'
    if sorted(answer.split()[0] for answer in now) != [str(place) for place in range(len(LINES))]:
        return f'the places are not each once in {now}'
    count = entries(words.desk, options)
    return None if count == len(LINES) else f'the audit says {count}'


def keeper_is_good(words, keeper, folder):
    """Tries each call and each error over one keeper."""
    log = os.path.join(folder, 'log')

    def options_of(number):
        return [f'--{keeper}', os.path.join(folder, f'term.{keeper}.{number}')]
    clean, status, said = run(words.desk, options_of('clean'), log)
    if status or len(clean) != len(LINES):
        print(f'{keeper}: the first run ended with {status} {said}')
        return False
    calls, bad = calls_of(log), 0
    # The opening's calls are those of a run without lines.
    subprocess.run(['strace', '-o', log, '-e', f'trace={CALLS}', words.desk, 'report', 'waiting', *options_of('opened')], capture_output=True, check=False)
    opening = sum(1 for _, _, answered in calls_of(log) if answered == 0)
    for at, (name, which, answered) in enumerate(calls):
        for error in ERRORS:
            options = options_of(f'{at}.{error}')
            told, *end = run(words.desk, options, log, [f'{name}:error={error}:when={which}'])
            found = difference(words, options, told, clean, answered, answered == 0 and at < opening, end)
            if found:
                bad += 1
                print(f'BAD {keeper}, {name} number {which} {error}, after {answered} answers: {found}')
    print(f'{keeper}: {len(calls)} calls, {opening} of the opening, each with {" and ".join(ERRORS)}; {bad} differences')
    return not bad


def main():
    parser = argparse.ArgumentParser(description=__doc__.split('\n')[0])
    parser.add_argument('--desk', required=True)
    parser.add_argument('--keeper', choices=('journal', 'db'))
    parser.add_argument('--folder')
    words = parser.parse_args()
    with tempfile.TemporaryDirectory(dir=words.folder) as folder:
        good = [keeper_is_good(words, keeper, folder) for keeper in ([words.keeper] if words.keeper else ('journal', 'db'))]
    return 0 if all(good) else 1


if __name__ == '__main__':
    sys.exit(main())
