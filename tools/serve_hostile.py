#!/usr/bin/env python3
"""Sends `desk serve` hostile heads and bodies, and compares its answers and its history with a second computation's.

  serve_hostile.py --desk PROGRAM --oracle FOLDER [--cases 500] [--seed 1] [--keeper journal|db] [--folder FOLDER]

FOLDER has the second computation of the desk in Python. Each case is one connection; one server with one worker takes them all,
one behind the other. Its bytes are requests of the second computation's fuzzer or of this file, often mangled, cut short, or
followed by something else; they are sent in pieces, and then the client ends its bytes. The answers must be the same, byte
for byte, the server must end with status 0 behind the last connection, and the rows that it kept must be the same. It stands
outside the gate. The status is 1 where something differs.
"""
import argparse
import os
import random
import re
import socket
import sys
import tempfile
import time

from serving import Server, run_lines

HEAD, BODY = 16384, 65536
ODD = [b'\0', b'\r', b'\n', b'\r\n', b' ', b':', b'\t', b'\x7f', b'(', b'/', b'?', b'%', b',', b'"', b'{', b'[', b'\\', b'0', b'-']

# What is odd in a body: numbers, depth, names twice, texts that are none.
BODIES = [
    b'{"verb":"enrol","student":11,"courses":[1%s]}' % (b',1' * 5), b'{"verb":"enrol","student":11,"courses":[%s]}' % (b'1,' * 9 + b'1'),
    b'{"verb":"enrol","student":11,"courses":[1],"only":[%s7]}' % (b'7,' * 1300), b'{"verb":"enrol","student":1%s}' % (b'0' * 400),
    b'{"verb":"drop","student":11,"course":1,"course":1e400}', b'{"verb":"drop","student":11,"course":1e400,"course":1}',
    b'{"verb":"drop","student":0.5e1,"course":1}', b'{"verb":"drop","student":11,"course":0x1}', b'{"verb":"drop","student":11,"course":null}',
    b'{"verb":"line","text":"\xff"}', b'{"verb":"line","text":"\\u0000"}', b'{"verb":"line","text":"drop 11 1\\u000a"}', b'{"verb":"line","text":""}',
    b'{"verb":"line","text":"\\ud83d\\ude00"}', b'{"verb":"line","text":"\\ud83d"}', b'{"verb":"line","text":"%s"}' % (b'a' * 60000),
    b'{"verb":"line","text":"batch %s11"}' % (b'11+' * 20000), b'{"verb":"swap","student":11,"give":[],"take":[{"courses":[1],"rank":1,"x":1}]}',
    b'{"verb":"swap","student":11,"give":[],"take":[{"courses":[1]},{"courses":[1]}]}', b'{"verb":"swap","student":11,"give":[1],"take":{}}',
    b'[' * 127 + b']' * 127, b'[' * 60000, b'{"a":' * 9000, b'\xef\xbb\xbf{}', b'"', b'{"verb":"drop","student":11,"course":1}\0', b' ' * 65536,
    b'{"verb":"enrol","student":11,"courses":[1],"rank":21,"budget":1}', b'nul', b'{"verb":"dr\\u006fp","student":11,"course":1}',
    b'{"verb":"wait","student":11,"courses":[1],"give":0}', b"{'verb':'drop'}", b'{"verb":"unwait","student":11,"ticket":-1}',
]
FIELDS = [
    b'Transfer-Encoding: chunked', b'Transfer-Encoding : chunked', b'transfer-encoding:', b'Content-Length: 5, 5', b'Content-Length: +5', b'Content-Length:',
    b'Content-Length: 00000000000', b'Content-Length: 0000000000', b'Content-Length: 4294967296', b'Content-Length: 65537', b'Content-Length: 99999999999',
    b'Content-Length: \t7\t ', b'Connection: close', b'Connection: ,, CLOSE ,', b'Connection: keep-alive', b'Connection: close-not', b'Connection:\tclose',
    b' folded: x', b'\tfolded', b': empty', b'Na me: x', b'N\0me: x', b'X: \0', b'X: \x80\xff', b'X: \r', b'(x): y', b'X' * 5000 + b': y', b'X: ' + b'y' * 9000, b'X:',
    b'Expect: 100-continue', b'Upgrade: h2c', b'Host: a\r\nHost: b', b'Trailer: x', b'Content-Length: 3\r\nContent-Length: 3', b'Content-Length: 3\r\ncontent-length: 03',
]
TARGETS = [
    b'/waiting', b'/waiting?', b'/waiting?a=b?c', b'/WAITING', b'/waiting#x', b'/%77aiting', b'/', b'//', b'*', b'http://localhost/waiting', b'/students/11',
    b'/students/4294967295', b'/students/4294967296', b'/students/-1', b'/students/1e1', b'/students/11/', b'/students/11/asks', b'/sections/7/roll',
    b'/sections/07/roll', b'/offerings/1/open', b'/offerings/1/open/x', b'/unmet', b'/../waiting', b'/students/11/asks/18446744073709551615',
    b'/students/11/asks/18446744073709551616', b'/registrars/0/asks/0', b'/students/11/asks/1/..', b'/' + b'a' * 16000, b'/\xc3\xa9', b'/\xff', b'/\x01',
]


def request_of(dice, number):
    """A request in which one thing or more is odd."""
    body = dice.choice(BODIES) if dice.random() < 0.6 else b'{"verb":"%s","student":11,"course%s}' % dice.choice([(b'drop', b'":1'), (b'enrol', b's":[1]')])
    method = dice.choice([b'POST'] * 8 + [b'GET'] * 4 + [b'HEAD', b'PUT', b'OPTIONS', b'post', b'PO ST', b'\0', b'A' * 5000])
    target = b'/students/11/asks/%d' % number if method == b'POST' and dice.random() < 0.8 else dice.choice(TARGETS)
    fields = [b'Host: localhost'] * (dice.random() < 0.9) + [dice.choice(FIELDS) for _ in range(dice.choice([0, 0, 0, 1, 1, 2]))]
    if dice.random() < 0.05:
        fields += [b'F%d: x' % at for at in range(dice.choice([60, 63, 64, 65, 100, 3000]))]
    if method == b'POST' and dice.random() < 0.95:
        fields.append(b'Content-Length: %d' % (len(body) + dice.choice([0] * 15 + [1, -1, 7])) if body else b'Content-Length: 0')
    if dice.random() < 0.03:
        fields.append(b'Fill: ' + b'x' * (HEAD - dice.randint(0, 200)))
    dice.shuffle(fields)
    end = dice.choice([b'\r\n'] * 9 + [b'\n'])
    version = dice.choice([b'HTTP/1.1'] * 20 + [b'HTTP/1.0', b'HTTP/1.0', b'HTTP/1.2', b'HTTP/2', b'http/1.1', b'HTTP/1.1 ', b''])
    head = method + b' ' + target + b' ' + version + end + b''.join(field + end for field in fields) + end
    return head + (body if method == b'POST' or dice.random() < 0.1 else b'')


def exact_head(dice):
    """A head whose size is the most that a head may have, or near it."""
    size = HEAD + dice.choice([-1, 0, 1])
    blank = dice.choice([b'', b'\r\n' * 3])
    start = blank + b'GET /waiting HTTP/1.1\r\nFill: '
    return start + b'x' * (size - len(start) - 4) + b'\r\n\r\n'


def bytes_of(dice, fuzz, seed):
    """The bytes of one connection."""
    chance = dice.random()
    if chance < 0.4:
        return fuzz.http_bytes(seed)
    if chance < 0.45:
        return exact_head(dice) + dice.choice([b'', request_of(dice, 1)])
    if chance < 0.5:
        few = [b'\r\n', b'\n', b'\r', b'G', b'\x16\x03\x01\x02\0\x01', b'PRI * HTTP/2.0\r\n\r\nSM\r\n\r\n', b'\0' * 100, b'']
        return (dice.choice(few) * dice.choice([1, 1, 20000]))[:100000]
    data = b''.join(request_of(dice, dice.choice([dice.randint(0, 9), dice.randint(10, 10**6)])) for _ in range(dice.randint(1, 5)))
    for _ in range(dice.choice([0, 0, 0, 1, 1, 3])):
        at = dice.randrange(len(data) + 1)
        data = data[:at] + dice.choice(ODD) + data[at + dice.randint(0, 1):]
    return data[:dice.randrange(len(data) + 1)] if dice.random() < 0.2 else data


def talk(server, dice, data):
    """The answers to these bytes, sent in pieces."""
    with server.connect() as connection:
        connection.setsockopt(socket.IPPROTO_TCP, socket.TCP_NODELAY, 1)
        got = b''
        try:
            while data:
                piece = dice.choice([1, 7, 100, 5000, len(data)]) if dice.random() < 0.3 else len(data)
                connection.sendall(data[:piece])
                data = data[piece:]
                if dice.random() < 0.1:
                    time.sleep(0.001)
            connection.shutdown(socket.SHUT_WR)
            while True:
                piece = connection.recv(65536)
                if not piece:
                    return got
                got += piece
        except OSError as error:
            return got + f'({error})'.encode()


def ends_in_target(data):
    """Whether the bytes end inside a target that is no text: it is refused, or cut."""
    return re.fullmatch(rb'[^ \r\n]+ [^ \r\n]*[\x80-\xff][^ \r\n]*', data.split(b'\n')[-1]) is not None


def rows_kept(journal, keeper, path):
    """The rows of a keeper, as the second computation reads them."""
    if keeper == 'journal':
        with open(path, 'rb') as file:
            return journal.rows_of(file.read())[0]
    database = journal.SqliteKeeper(path)
    return [database.row(place) for place in range(database.length())]


def main():
    parser = argparse.ArgumentParser(description=__doc__.split('\n')[0])
    parser.add_argument('--desk', required=True)
    parser.add_argument('--oracle', required=True)
    parser.add_argument('--cases', type=int, default=500)
    parser.add_argument('--seed', type=int, default=1)
    parser.add_argument('--keeper', choices=('journal', 'db'), default='journal')
    parser.add_argument('--folder')
    words = parser.parse_args()
    sys.path.insert(0, words.oracle)
    sys.setrecursionlimit(100000)
    import app
    import fuzz
    import httpd
    import journal
    import once
    setup = ''.join(f'@2025-09-01 {line}\n' for line in fuzz.SETUP)
    keeper = journal.MemKeeper()
    app.desk_main(['run'], setup.encode, lambda text: None, keeper)
    desk, differ, skipped = once.Desk(keeper), 0, 0
    with tempfile.TemporaryDirectory(dir=words.folder) as folder:
        path = os.path.join(folder, 'term')
        run_lines(words.desk, [f'--{words.keeper}', path], [setup])
        server = Server(words.desk, [f'--{words.keeper}', path], 1, words.cases)
        for seed in range(words.seed, words.seed + words.cases):
            dice = random.Random(seed)
            data = bytes_of(dice, fuzz, seed)
            pieces, want = [data], []
            httpd.session(lambda: pieces.pop() if pieces else b'', want.append, desk, app.today)
            got, want = talk(server, dice, data), b''.join(want)
            if got != want and ends_in_target(data):
                skipped += 1
            elif got != want:
                differ += 1
                print(f'BAD seed {seed}: {data[:300]!r} ({len(data)} bytes)\n  wanted {want[-300:]!r}\n  got    {got[-300:]!r}')
        status, said = server.end()
        if status != 0:
            differ += 1
            print(f'BAD the server ended with {status} {said}')
        kept = rows_kept(journal, words.keeper, path)
        if kept != keeper.rows:
            differ += 1
            at = next((at for at, pair in enumerate(zip(kept, keeper.rows)) if pair[0] != pair[1]), min(len(kept), len(keeper.rows)))
            print(f'BAD the rows differ from {at} on: {kept[at:at + 1]}, and {keeper.rows[at:at + 1]}')
    print(f'{words.cases} connections, {len(keeper.rows)} rows, {skipped} ended inside a target that is no text, {differ} differences')
    return 1 if differ else 0


if __name__ == '__main__':
    sys.exit(main())
