#!/usr/bin/env python3
"""Measures what a request over one connection costs: an enrolment and a drop of one student in turn.

  session_bench.py [--bench PROGRAM] [--desk NAME=PROGRAM ..] [--requests N]

PROGRAM of --bench is a crate of its own, which no gate reads: in a copy of the repository `bench/session/main.rt.txt` goes to
crates/bench_session/src/main.rt, with args and stdout beside src/, and the line of `bench/session/line.txt` to crates.txt.
`serve.rt`, `streams.rt` and `keepers.rt` of crates/test_commands/src go beside main.rt, and `crates/test_commands/proofs/serve` to
crates/bench_session/proofs, with `bench_session` in place of `test_commands` in it; then `rt run` in that crate builds it. It has
sessions of thirty requests over memory, timed, and its instructions counted by callgrind. Each --desk is served over one
connection of TCP under callgrind, which counts what the program itself does. Instructions are those of N requests more, beside
those of none, so that the start doesn't count.
"""
import argparse
import re
import socket
import subprocess
import sys
import tempfile
import time

from serving import free_port

ROWS = ['offering 1 course 1 - 3 config 1 - subpart 1 section 7 1 - -', 'student 11 max 18']


def post(path, body):
    return ('POST %s HTTP/1.1\r\nHost: localhost:8080\r\nUser-Agent: curl/8.5.0\r\nAccept: */*\r\n'
            'Content-Type: application/json\r\nContent-Length: %d\r\n\r\n%s' % (path, len(body), body)).encode()


def set_up():
    return [post('/registrars/1/asks/%d' % (at + 1), '{"verb":"line","text":"%s"}' % row) for at, row in enumerate(ROWS)]


def requests(count):
    bodies = ('{"verb":"enrol","student":11,"courses":[1]}', '{"verb":"drop","student":11,"course":1}')
    return [post('/students/11/asks/%d' % (at + 1), bodies[at % 2]) for at in range(count)]


def counted(command, while_running=None):
    """The instructions of a run of the command, in user mode."""
    with tempfile.NamedTemporaryFile() as log:
        run = subprocess.Popen(['valgrind', '--tool=callgrind', '--callgrind-out-file=/dev/null', '--log-file=' + log.name] + command,
                               stdin=subprocess.DEVNULL, stdout=subprocess.DEVNULL, stderr=subprocess.DEVNULL)
        if while_running:
            while_running()
        run.wait()
        return int(re.search(r'Collected : (\d+)', open(log.name).read())[1])


def talk(port, sent):
    """Sends each request once the one before it was answered, over one connection."""
    for _ in range(600):
        try:
            connection = socket.create_connection(('127.0.0.1', port))
            break
        except OSError:
            time.sleep(0.1)
    else:
        sys.exit('nobody listens')
    connection.setsockopt(socket.IPPROTO_TCP, socket.TCP_NODELAY, 1)
    with connection:
        for request in sent:
            connection.sendall(request)
            answer = connection.recv(65536)
            if not answer.startswith(b'HTTP/1.1 200'):
                sys.exit('answered %r' % answer)


def served(program, count):
    port = free_port()
    return counted([program, 'serve', '--port', str(port), '--workers', '1', '--sessions', '1'],
                   lambda: talk(port, set_up() + requests(count)))


def main():
    parser = argparse.ArgumentParser(description=__doc__.split('\n')[0])
    parser.add_argument('--bench')
    parser.add_argument('--desk', action='append', default=[])
    parser.add_argument('--requests', type=int, default=5000)
    args = parser.parse_args()
    if args.bench:
        least = {}
        for count in (0, 200000):
            for _ in range(5):
                began = time.perf_counter()
                subprocess.run([args.bench, str(count)], check=True, stdout=subprocess.DEVNULL)
                took = time.perf_counter() - began
                least[count] = min(took, least.get(count, took))
        print('sessions over memory: %.0f requests a second' % (200000 / (least[200000] - least[0])))
        more = counted([args.bench, str(args.requests)]) - counted([args.bench, '0'])
        print('sessions over memory: %d instructions a request, with those that write it' % (more // args.requests))
    for name, program in (desk.split('=', 1) for desk in args.desk):
        more = served(program, args.requests) - served(program, 0)
        print('%s over TCP: %d instructions a request' % (name, more // args.requests))


if __name__ == '__main__':
    main()
