#!/usr/bin/env python3
"""Refuses allocations of the desk, one a run, and looks at what it answers then and when it is asked again.

  refusals.py --oracle FOLDER [--samples N] [--step N] [--families NAME,..] [--keep FOLDER]

It stands outside the gate. In a copy of the repository it makes a small program over `desk` and objects in memory, of
refusals_program.txt and four files of test_commands. It asks one command after another, each over the keeper that the one before
gave back. Where memory was wanted it asks the same command again before the next; where no keeper came back it asks all of them
over a new one. Each has to be told what a second computation of the desk tells. `rt try --fail-alloc` builds the program once
and refuses one allocation in each run, the same number in all: before the commands each run has as many others as put the
refusal where it is wanted, at N places a family, one every so many allocations. The first places fall where the commands are
read (`read`, `burnt`), and those behind the last command refuse nothing (`ok nothing`). The last lines tell how many were
refused; the status is 1 where an answer differed.
"""
import argparse
import os
import re
import shutil
import subprocess
import sys
import tempfile

HERE = os.path.dirname(os.path.abspath(__file__))
ROOT = os.path.dirname(HERE)
REFUSED = 20_000

ONE_PLACE = 'r1 1 offering 1 course 1 - 3 config 1 - subpart 1 section 7 1 - -'
FIRST = [ONE_PLACE, 'r1 2 student 11 max 18', 'r1 3 student 12 max 18', 's11 1 enrol 11 1']
FULL = FIRST + ['s12 1 enrol 12 1']
OTHER_PLACE = 'r1 4 offering 9 course 9 - 3 config 9 - subpart 9 section 91 1 - -'
TABLE = 'student,max_credits,groups,curricula\n%s,18,4+5,1:2:3+4\n'
OFFERING = ('offering,courses,config,config_limit,subpart,section,limit,parent,meetings\n'
            '1,1:-:3,1,-,1,7,1,-,M/0900-0950/1-15\n')
POST = 'POST /students/%d/asks/%d HTTP/1.1\r\nContent-Length: %d\r\n\r\n%s'


def run(*lines):
    return [('run', line + '\n') for line in lines]


def post(student, number, body):
    return ('serve --port 8080 --sessions 1', POST % (student, number, len(body), body))


# A family's name, how many of its commands only give the keeper's first rows, and its commands with their input.
FAMILIES = {
    'first-run': (0, run(*FIRST)),
    'full': (0, run(*FULL)),
    'budgets': (3, run(*FIRST, 's12 1 enrol 12 1 budget 1', 's12 2 enrol 12 1 budget 3', 's12 3 enrol 12 1 budget 4')),
    'repeats': (4, run(*FULL, 's12 1 enrol 12 1', 's11 2 drop 11 1', 's12 1 enrol 12 1', 's11 2 drop 11 1',
                       's12 1 drop 12 1', 's12 4 enrol 12 1')),
    'swap': (3, run('r1 1 offering 2 course 2 - 3 config 2 - subpart 2 section 21 - - M/0900-0950/1-15',
                    'r1 2 offering 4 course 4 - 3 config 4 - subpart 4 section 41 - - M/0945-1040/1-15',
                    'r1 3 student 11 max 18', 's11 1 enrol 11 2', 's11 2 swap 11 give 2 take 4', 's11 3 drop 11 2')),
    'chain': (5, run(ONE_PLACE, 'r1 2 student 11 max 18', 'r1 3 student 12 max 18', OTHER_PLACE, 'r1 5 student 13 max 18',
                     's11 1 enrol 11 1', 's12 1 enrol 12 9', 's12 2 wait 12 1 give 9', 's13 1 wait 13 9', 's11 2 drop 11 1',
                     's12 3 drop 12 9', 's13 2 drop 13 9')),
    'opening': (6, run(*FULL, 's12 2 wait 12 1', 's11 2 drop 11 1')),
    'batch': (6, run(ONE_PLACE, 'r1 2 student 11 max 18', 'r1 3 student 12 max 18', OTHER_PLACE, 's12 1 enrol 12 1',
                     'r1 5 requests 11 course 1 course 9 substitute', 'r1 6 batch 11', 'r1 7 batch -')),
    'import': (0, [('import students --first 1', TABLE % 11), ('import students --first 2', TABLE % 12),
                   ('import offerings --first 3', OFFERING)] + run('s11 1 enrol 11 1')),
    'report': (7, run(*FULL, 's12 2 wait 12 1', 'r1 4 requests 12 course 1')
               + [(words, '') for words in ('report roll 7', 'report open 1', 'report schedule 11', 'report waiting',
                                            'report unmet', 'export offerings', 'export students', 'plan 12', 'survey', 'audit')]),
    'session': (3, run(*FIRST[:3]) + [post(11, 1, '{"verb":"enrol","student":11,"courses":[1]}'),
                                      post(12, 1, '{"verb":"enrol","student":12,"courses":[1]}'),
                                      post(11, 1, '{"verb":"enrol","student":11,"courses":[1]}'),
                                      ('serve --port 8080 --sessions 1', 'GET /sections/7/roll HTTP/1.1\r\n\r\n')]),
}


def told(oracle, words, given, keeper):
    """What the second computation tells."""
    if words.startswith('serve'):
        pieces, out = [given.encode()], []
        desk = oracle.app.open_desk(keeper)
        oracle.httpd.session(lambda: pieces.pop(0) if pieces else b'', out.append, desk, oracle.app.today)
        return b''.join(out).decode()
    out = []
    status, text = oracle.app.desk_main(words.split(), lambda: given.encode(), out.append, keeper)
    assert status == 0, (words, text)
    return ''.join(out)


def escaped(text):
    return text.replace('\\', '\\\\').replace('\r', '\\r').replace('\n', '\\n')


def script_of(oracle, name):
    """The lines of a family: its keeper's rows, and the commands with what they must be told."""
    before, commands = FAMILIES[name]
    keeper = oracle.journal.MemKeeper()
    lines = []
    for at, (words, given) in enumerate(commands):
        if at == before:
            lines += ['| ' + row.decode() for row in keeper.rows]
        answer = told(oracle, words, given, keeper)
        if at >= before:
            lines += ['$ ' + words, '< ' + escaped(given), '> ' + escaped(answer)]
    return lines


def copy_of(folder):
    """A copy of the repository with the program."""
    shutil.copytree(os.path.join(ROOT, 'crates'), os.path.join(folder, 'crates'), ignore=shutil.ignore_patterns('out', 'must-fail'))
    shutil.copy(os.path.join(ROOT, 'HANDLES'), folder)
    with open(os.path.join(ROOT, 'crates.txt')) as file:
        crates = file.read()
    with open(os.path.join(folder, 'crates.txt'), 'w') as file:
        file.write(crates + 'refusals may_wait=8: sect_base sect_edge sect_app\n')
    source = os.path.join(folder, 'crates', 'refusals', 'src')
    os.makedirs(source)
    for name in ('keepers.rt', 'runs.rt', 'stand.rt', 'streams.rt'):
        shutil.copy(os.path.join(ROOT, 'crates', 'test_commands', 'src', name), source)
    with open(os.path.join(HERE, 'refusals_program.txt')) as file:
        parts = re.split(r'(?m)^==== (\S+)\n', file.read())
    for name, text in zip(parts[1::2], parts[2::2]):
        with open(os.path.join(source, name), 'w') as file:
            file.write(text)
    subprocess.run(['git', 'init', '-q', folder], check=True)
    return os.path.dirname(source)


def tried(crate, cases):
    """What each case printed."""
    words = ['nice', '-n', '10', 'rt', 'try', '--fail-alloc', str(REFUSED), '--cases', cases]
    done = subprocess.run(words, cwd=crate, stdin=subprocess.DEVNULL, capture_output=True, text=True, check=False)
    parts = re.split(r'(?m)^== (\S+)\n', done.stdout)
    if len(parts) < 2:
        sys.exit(done.stdout + done.stderr)
    return {name: text.split('\n')[0] for name, text in zip(parts[1::2], parts[2::2])}


def main():
    parser = argparse.ArgumentParser()
    parser.add_argument('--oracle', required=True)
    parser.add_argument('--samples', type=int, default=60)
    parser.add_argument('--step', type=int, default=25)
    parser.add_argument('--families', default=','.join(FAMILIES))
    parser.add_argument('--keep')
    given = parser.parse_args()
    os.environ['DESK_TODAY'] = '2025-09-01'
    sys.dont_write_bytecode = True
    sys.path.insert(0, given.oracle)
    import app
    import httpd
    import journal
    oracle = argparse.Namespace(app=app, httpd=httpd, journal=journal)
    folder = given.keep or tempfile.mkdtemp()
    cases = os.path.join(folder, 'cases')
    os.makedirs(cases)
    for name in given.families.split(','):
        script = script_of(oracle, name)
        for sample in range(given.samples):
            place = 1 + sample * given.step
            with open(os.path.join(cases, '%s.%05d' % (name, place)), 'w') as file:
                file.write('\n'.join(['burn %d' % (REFUSED - place)] + script) + '\n')
    found = tried(copy_of(folder), cases)
    counts = {}
    for case, text in sorted(found.items()):
        name = case.split('.')[0]
        kind = ' '.join(text.split()[:2])
        counts.setdefault(name, {}).setdefault(kind, []).append(case)
        if not text.startswith(('ok ', 'read', 'burnt')):
            print('differs:', case, text)
    seen = ('ok memory', 'ok lost')
    for name, kinds in counts.items():
        print(name, ', '.join('%s: %d' % (kind, len(kinds[kind])) for kind in sorted(kinds)))
    refused = sum(len(cases) for kinds in counts.values() for kind, cases in kinds.items() if kind in seen)
    wrong = [case for case, text in found.items() if not text.startswith(('ok ', 'read', 'burnt'))]
    print('%d families, %d runs, %d told of a refused allocation, %d differ' % (len(counts), len(found), refused, len(wrong)))
    if not given.keep:
        shutil.rmtree(folder)
    return 1 if wrong else 0


if __name__ == '__main__':
    sys.exit(main())
