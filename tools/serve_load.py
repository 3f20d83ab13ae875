#!/usr/bin/env python3
"""Loads `desk serve` with many connections for a while, and holds all that they were answered against its history.

  serve_load.py --desk PROGRAM [--connections 64] [--seconds 600] [--keeper journal|db] [--acts 200000] [--folder FOLDER]

Each connection stays and asks one request after another for its own students: new ones, repeats and reports; now and then it
sends two at once, half a request, is closed or reset before its answer, or waits until the server closes it. In the first
half of the time, and while fewer than ACTS were asked, requests are new; behind that they are repeats alone. A worker for
each connection serves. At the end the server is stopped, and over its keeper

- each answer that a client read comes again to the same request, with its place and reply, by `desk run`;
- `desk audit` counts each of them, no more than were asked, and no more once they were asked again;
- the server has as many descriptors as before the load, and in the last quarter its memory didn't grow by more than 2 %.

It stands outside the gate. The status is 1 where something differs.
"""
import argparse
import collections
import os
import random
import sys
import tempfile
import threading
import time

from serving import Connection, Server, compared, draw, entries, line_of, run_lines, term

OFFERINGS, STUDENTS_EACH = 60, 10


class Client(threading.Thread):
    """One connection after another, of students that no other client speaks for."""

    def __init__(self, load, place):
        super().__init__(daemon=True)
        self.load, self.dice = load, random.Random(place)
        self.students = range(1 + place * STUDENTS_EACH, 1 + (place + 1) * STUDENTS_EACH)
        self.number, self.told, self.open = 0, [], []
        self.counts, self.bad = collections.Counter(), None

    def next(self):
        """A request that is new, that was left without an answer, or one that was answered already."""
        if self.open and self.dice.random() < 0.5:
            return self.open.pop()
        if self.told and (self.dice.random() < 0.2 or not self.load.takes_new()):
            return self.dice.choice(self.told)[0]
        self.number += 1
        return draw(self.dice, self.dice.choice(self.students), self.number, OFFERINGS)

    def take(self, ask, answer):
        status, body = answer
        self.counts[status] += 1
        if status == 200:
            self.told.append((ask, line_of(status, body)))
        else:
            self.open.append(ask)
            self.bad = self.bad or f'{ask.line().strip()}: {status} {body}'

    def turn(self, connection):
        """One turn of a connection. Whether it stays."""
        chance = self.dice.random()
        if chance < 0.1:
            status, _ = connection.get(self.dice.choice(['/waiting', f'/students/{self.students[0]}', '/sections/1/roll', '/offerings/1/open']))
            self.counts[f'report {status}'] += 1
            return True
        ask = self.next()
        if chance < 0.97:
            self.take(ask, connection.ask(ask))
            return True
        if chance < 0.98:
            other = self.next()
            connection.send(ask.request() + other.request())
            self.take(ask, connection.answer())
            self.take(other, connection.answer())
            return True
        self.open.append(ask)
        request = ask.request()
        if chance < 0.985:
            self.counts['half'] += 1
            connection.send(request[:self.dice.randrange(1, len(request))])
        else:
            self.counts['no answer awaited'] += 1
            connection.send(request)
        return self.leave(connection)

    def leave(self, connection):
        """Ends a connection in one of three ways."""
        chance = self.dice.random()
        if chance < 0.02:
            self.counts['idle'] += 1
            while connection.socket.recv(65536):
                pass
        elif chance < 0.5:
            self.counts['reset'] += 1
            connection.reset()
        connection.close()
        return False

    def run(self):
        while not self.load.is_over():
            try:
                connection = Connection(self.load.server)
                self.counts['connections'] += 1
                while not self.load.is_over() and self.turn(connection):
                    pass
                connection.close()
            except OSError as error:
                self.counts[type(error).__name__] += 1
                self.bad = self.bad or (None if self.load.is_over() else repr(error))


class Load:
    """The server, its clients and the time that they have."""

    def __init__(self, words, options):
        self.server = Server(words.desk, options, words.connections)
        self.begin, self.seconds, self.acts = time.time(), words.seconds, words.acts
        self.clients = [Client(self, place) for place in range(words.connections)]
        self.samples = []

    def is_over(self):
        return time.time() - self.begin > self.seconds

    def takes_new(self):
        return time.time() - self.begin < self.seconds / 2 and sum(client.number for client in self.clients) < self.acts

    def sample(self):
        """The number of the process's descriptors, and the kilobytes of its memory."""
        folder = f'/proc/{self.server.process.pid}'
        with open(f'{folder}/status') as file:
            memory = next(int(line.split()[1]) for line in file if line.startswith('VmRSS'))
        return len(os.listdir(f'{folder}/fd')), memory

    def run(self):
        """Samples before the load, each second of it, and behind it."""
        Connection(self.server).close()
        time.sleep(0.5)
        self.samples.append(self.sample())
        for client in self.clients:
            client.start()
        while not self.is_over():
            time.sleep(1)
            self.samples.append(self.sample())
        for client in self.clients:
            client.join(30)
        time.sleep(1)
        self.samples.append(self.sample())


def faults(load, words, options):
    """What differs from what is to be."""
    yield from (client.bad for client in load.clients if client.bad)
    before, after = load.samples[0][0], load.samples[-1][0]
    if before != after:
        yield f'{before} descriptors before the load, and {after} behind it'
    last = [memory for _, memory in load.samples[len(load.samples) * 3 // 4:]]
    if max(last) > last[0] * 1.02:
        yield f'in the last quarter the memory grew from {last[0]} to {max(last)} kB'
    told = [pair for client in load.clients for pair in client.told]
    asked = {(ask.caller, ask.number) for ask, _ in told}
    made = OFFERINGS + words.connections * STUDENTS_EACH
    count = entries(words.desk, options)
    most = made + sum(client.number for client in load.clients)
    if not isinstance(count, int) or not made + len(asked) <= count <= most:
        yield f'the audit says {count}, and {made + len(asked)} to {most} were asked'
    difference = compared(words.desk, options, told)
    if difference:
        yield difference
    again = entries(words.desk, options)
    if again != count:
        yield f'{count} entries, and {again} once all was asked again'


def main():
    parser = argparse.ArgumentParser(description=__doc__.split('\n')[0])
    parser.add_argument('--desk', required=True)
    parser.add_argument('--connections', type=int, default=64)
    parser.add_argument('--seconds', type=float, default=600)
    parser.add_argument('--keeper', choices=('journal', 'db'), default='journal')
    parser.add_argument('--acts', type=int, default=200000)
    parser.add_argument('--folder')
    words = parser.parse_args()
    with tempfile.TemporaryDirectory(dir=words.folder) as folder:
        options = [f'--{words.keeper}', os.path.join(folder, 'term')]
        status, answers, said = run_lines(words.desk, options, term(OFFERINGS, words.connections * STUDENTS_EACH))
        if status or any(not answer.endswith(' amended') for answer in answers):
            print(f'the term was not made: {status} {said}')
            return 1
        load = Load(words, options)
        load.run()
        ended = load.server.stop()
        counts = sum((client.counts for client in load.clients), collections.Counter())
        print(f'{counts[200] / words.seconds:.0f} answers a second;', ', '.join(f'{name}: {count}' for name, count in counts.items()))
        print(f'descriptors at most {max(count for count, _ in load.samples)}, memory at most {max(size for _, size in load.samples)} kB;'
              f' the server ended by its signal: {ended}')
        found = list(faults(load, words, options))
    for fault in found[:10]:
        print('BAD', fault)
    print(f'{len(found)} differences')
    return 1 if found else 0


if __name__ == '__main__':
    sys.exit(main())
