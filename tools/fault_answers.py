"""What a second computation of the desk in Python answers to commands of which one call after another fails: to the part `desk`
of the input of test_commands, whose form its main.rt tells. The second computation's folder is among those of modules.

The second computation knows nothing of sources and sinks: of a read that fails it is handed the lines that were read whole,
and of a write that fails the bytes before it are kept; whole commands follow one another over one keeper. So no piece of a
source may hold the ends of two lines.
"""
import app
import csvio
import httpd
import journal
from command_answers import do

TEXTS = {0: '', 2: app.USAGE, 4: 'read fault', 5: 'write fault', 8: 'link fault'}
TALKS = [b'POST /students/%d/asks/1 HTTP/1.1\r\nContent-Length: 43\r\n\r\n{"verb":"enrol","student":%d,"courses":[1]}' % (s, s)
         for s in (11, 12)]


class WriteFailed(Exception):
    """A write that fails."""


class Sink:
    """Takes one byte a write; the write with this number, from 1, fails."""

    def __init__(self, failing):
        self.taken, self.failing = '', failing

    def write(self, text):
        for letter in text:
            if len(self.taken) + 1 == self.failing:
                raise WriteFailed
            self.taken += letter


def table_cut(table, options, data, desk, sink):
    """Asks the commands that whole rows of a table show complete, where there may be more rows."""
    if b'\n' not in data:
        return
    given = list(csvio.commands(table, data, options.get('term')))[:-1]
    for at, (_, command) in enumerate(given):
        sink.write(app.answer_line(desk.ask(('r', 0), options['first'] + at, app.today(), command)))


def cut(words, data, sink, opened):
    """Does a command of which a read fails behind these whole lines."""
    command, given, options = app.parse(words)
    if command == 'import':
        table_cut(given[0], options, data, opened(), sink)
    else:
        do(words, data, sink.write, opened)
    if command in ('run', 'import'):
        raise app.Status(4, TEXTS[4])


def run(words, keeper, data, piece=8192, read=0, write=0):
    """The text of a run: its status, how many rows the keeper has and what was written."""
    sink, status, text = Sink(write), 0, ''
    try:
        if 0 < read <= -(-len(data) // piece) + 1:
            data = data[:(read - 1) * piece]
            cut(words, data[:data.rfind(b'\n') + 1], sink, lambda: app.open_desk(keeper))
        else:
            do(words, data, sink.write, lambda: app.open_desk(keeper))
    except WriteFailed:
        status, text = 5, TEXTS[5]
    except app.BadWords:
        status, text = 2, TEXTS[2]
    except app.Status as end:
        status, text = end.number, end.text
    return told(status, text, keeper) + bars(sink.taken)


def serve(words, keeper, failing):
    """The text of serving one link, whose accept with this number fails."""
    sessions = app.parse(words)[2]['sessions']
    desk, status, talks = app.open_desk(keeper), 0, []
    for accept in range(1, sessions + 1):
        if accept == failing:
            status = 8
            break
        if len(talks) == len(TALKS):
            break
        pieces, written = [TALKS[len(talks)]], []
        httpd.session(lambda: pieces.pop(0) if pieces else b'', written.append, desk, app.today)
        talks.append(bars(b''.join(written).decode()))
    talks += ['not served'] * (len(TALKS) - len(talks))
    return told(status, TEXTS[status], keeper) + ''.join(talk + ' ' for talk in talks)


def told(status, text, keeper):
    return 'status %d %srows %d ' % (status, text + '|' if text else '', len(keeper.rows))


def bars(text):
    return text.replace('\r', '').replace('\n', '|')


def one_run(call, piece, number, words, rows, data):
    """The line of one run."""
    if call == 'byte':
        rows = rows[:-1] + [rows[-1][:number - 1] + b'x' + rows[-1][number:]]
    keeper = journal.MemKeeper(rows, [number] if call == 'append' else [], [number] if call == 'row' else [])
    if call == 'accept':
        return serve(words, keeper, number)
    fails = {call: number} if call in ('read', 'write') else {}
    first = run(words, keeper, data, piece, **fails)
    return first + ' then ' + run(words, keeper, data)


def answers(lines, _):
    words, rows, data = [], [], b''
    for line in lines:
        if line[:1] in ('#', '$', '?'):
            yield line + '\n'
        if line.startswith('#'):
            words, rows, data = [], [], b''
        elif line.startswith('$ '):
            words, data = line[2:].split(), b''
        elif line.startswith('| '):
            rows = rows + [line[2:].encode()]
        elif line.startswith('? '):
            call, piece, count = line[2:].split()
            for number in range(1, int(count) + 1):
                yield '%d: %s\n' % (number, one_run(call, int(piece), number, words, rows, data))
        else:
            data += line.encode() + b'\n'
