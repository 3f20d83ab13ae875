"""Kills the program at random moments while it keeps a history, and looks whether an answer that it had written is lost.

python3 tools/kill_desk.py [PROGRAM [KILLS [FOLDER]]]

PROGRAM is ./desk where none is named. Over each keeper, a database and a journal, `desk run` is killed by SIGKILL KILLS
(300) times at a random moment, mostly between its first answer and its last; each line is asked when the one before it was
answered. Then the same lines are asked of the same file again: each answer that had been written must come once more, place and
reply, and the places must go on without a gap, so that no request acted twice. At the end `desk audit` must count each request
once. FOLDER is where the files lie. It stands outside the gate. The status is 1 where something differs.
"""
import os
import random
import subprocess
import sys
import tempfile
import threading
import time

from serving import entries, run_lines

ROOT = os.path.dirname(os.path.dirname(os.path.abspath(__file__)))
PROGRAM = os.path.abspath(sys.argv[1] if len(sys.argv) > 1 else os.path.join(ROOT, 'desk'))
KILLS = int(sys.argv[2]) if len(sys.argv) > 2 else 300
FOLDER = sys.argv[3] if len(sys.argv) > 3 else None
LINES = 40

# one section of 20 places, so that half of the enrolments are blocked
OFFERING = 'r1 1 offering 1 course 1 - 3 config 1 - subpart 1 section 1 20 - MWF/0900-0950/1-15\n'


def lines_of(round_number):
    """The requests of a round: students with their requests, enrolments, and drops of every third."""
    first = 10 + round_number * LINES
    lines = []
    for at in range(LINES // 4):
        student = 1 + (round_number * (LINES // 4) + at) % 40000
        number = first + 4 * at
        lines.append(f'r1 {number} student {student} max 18\n')
        lines.append(f'r1 {number + 1} requests {student} course 1\n')
        lines.append(f'r1 {number + 2} enrol {student} 1\n')
        lines.append(f'r1 {number + 3} drop {student} 1\n' if at % 3 else f'r1 {number + 3} student {student} max 12\n')
    return lines


def ask(program, line):
    """Asks a line and waits for its answer, which is written before the program waits for the next one. None where it was killed."""
    try:
        program.stdin.write(line.encode())
        program.stdin.flush()
    except BrokenPipeError:
        return None
    answer = program.stdout.readline().decode()
    return answer[:-1] if answer.endswith('\n') else None


def started(options):
    return subprocess.Popen([PROGRAM, 'run', *options], stdin=subprocess.PIPE, stdout=subprocess.PIPE, stderr=subprocess.DEVNULL)


def killed(options, lines):
    """The answers that the program had written whole when it was killed."""
    program, told = started(options), []
    timer = threading.Timer(random.uniform(0, killed.longest), program.kill)
    # most are killed among the answers
    begin = 1 if random.random() < 0.75 else 0
    for line in lines:
        if len(told) == begin:
            timer.start()
        answer = ask(program, line)
        if answer is None:
            break
        told.append(answer)
    timer.join()
    program.wait()
    program.communicate()
    return told


def span_of_answers(options):
    """How long it takes from the first answer to the last."""
    run_lines(PROGRAM, options, [OFFERING])
    program, (line, *lines) = started(options), lines_of(0)
    ask(program, line)
    first = time.time()
    for line in lines:
        ask(program, line)
    span = time.time() - first
    program.communicate()
    return span


def keeper_is_good(keeper, folder):
    options = [f'--{keeper}', os.path.join(folder, f'term.{keeper}')]
    status, answers, said = run_lines(PROGRAM, options, [OFFERING])
    if (status, answers) != (0, ['0 amended']):
        print(f'{keeper}: the first run ended with {status}: {said}{answers}')
        return False
    killed.longest = span_of_answers([f'--{keeper}', os.path.join(folder, f'warm.{keeper}')])
    place, good, cut, none, whole = 1, True, 0, 0, 0
    for round_number in range(KILLS):
        lines = lines_of(round_number)
        told = killed(options, lines)
        status, answers, said = run_lines(PROGRAM, options, lines)
        places = [int(answer.split()[0]) for answer in answers if answer.split()[0].isdigit()]
        if status or places != list(range(place, place + LINES)) or answers[:len(told)] != told:
            print(f'{keeper}, kill {round_number}: status {status} {said}\n  had written {told}\n  answers now {answers}')
            good = False
            break
        place += LINES
        none += not told
        whole += len(told) == LINES
        cut += 0 < len(told) < LINES
    counted = entries(PROGRAM, options)
    if good and counted != place:
        print(f'{keeper}: the audit says {counted}, and not {place}')
        good = False
    print(f'{keeper}: {KILLS} kills, {none} before the first answer, {cut} among the answers, {whole} behind the last; {place} entries; '
          + ('nothing lost' if good else 'BAD'))
    return good


def main():
    random.seed(1)
    with tempfile.TemporaryDirectory(dir=FOLDER) as folder:
        good = [keeper_is_good(keeper, folder) for keeper in ('db', 'journal')]
    return 0 if all(good) else 1


if __name__ == '__main__':
    sys.exit(main())
