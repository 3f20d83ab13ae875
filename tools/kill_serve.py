#!/usr/bin/env python3
"""Kills `desk serve` at random moments under load, and looks whether an answer that a client had read is lost.

  kill_serve.py --desk PROGRAM [--kills 100] [--connections 8] [--keeper journal|db] [--seed 1] [--folder FOLDER]

Without --keeper both keepers are tried. In each round the server is started over the same file, clients ask for a moment, and
SIGKILL ends it. Then every request of the round, also those whose answer nobody read, is asked of the file by `desk run`: each
answer that a client had read must come again with its place and reply, and each request has a place of its own. `desk audit`
must count each request of all rounds once, so that none acted twice. It stands outside the gate. The status is 1 where
something differs.
"""
import argparse
import os
import random
import signal
import sys
import tempfile
import threading
import time

from serving import Connection, Server, draw, entries, line_of, run_lines, term

OFFERINGS, KEEPERS, LONGEST = 20, ('journal', 'db'), 0.4


class Client(threading.Thread):
    """A student who asks until the server is gone."""

    def __init__(self, server, dice, student, first):
        super().__init__(daemon=True)
        self.server, self.dice, self.student, self.number = server, dice, student, first
        self.asked, self.told = [], []

    def run(self):
        try:
            connection = Connection(self.server)
            while True:
                ask = draw(self.dice, self.student, self.number, OFFERINGS)
                self.asked.append(ask)
                self.number += 1
                self.told.append(line_of(*connection.ask(ask)))
        except OSError:
            pass


def round_of(words, options, dice, numbers):
    """Clients of a server that is killed. It begins with each student's next number, and keeps them."""
    server = Server(words.desk, options, words.connections)
    Connection(server).close()
    clients = [Client(server, random.Random(dice.random()), student, numbers[student]) for student in numbers]
    for client in clients:
        client.start()
    time.sleep(dice.uniform(0, LONGEST))
    status, said = server.stop(signal.SIGKILL)
    for client in clients:
        client.join()
        numbers[client.student] = client.number
    return clients, (None if status == -signal.SIGKILL else f'the server had ended with {status} {said}')


def difference(words, options, clients, places):
    """What differs once the requests of a round are asked again. The places of its answers go to `places`."""
    asks = [ask for client in clients for ask in client.asked]
    status, answers, said = run_lines(words.desk, options, [ask.line() for ask in asks])
    if status or len(answers) != len(asks):
        return f'the run ended with {status} {said} after {len(answers)} of {len(asks)} answers'
    at = 0
    for client in clients:
        now = answers[at:at + len(client.asked)]
        at += len(client.asked)
        for ask, before, after in zip(client.asked, client.told, now):
            if before != after:
                return f'{ask.line().strip()}: answered {before}, and now {after}'
    for ask, answer in zip(asks, answers):
        place = answer.split()[0]
        if not place.isdigit() or place in places:
            return f'{ask.line().strip()}: {answer} has no place of its own'
        places.add(place)
    return None


def keeper_is_good(words, keeper, folder):
    options = [f'--{keeper}', os.path.join(folder, f'term.{keeper}')]
    dice = random.Random(words.seed)
    numbers = {student: 1 for student in range(1, words.connections + 1)}
    made = term(OFFERINGS, words.connections)
    run_lines(words.desk, options, made)
    places, told, open_ = set(str(place) for place in range(len(made))), 0, 0
    for number in range(words.kills):
        clients, bad = round_of(words, options, dice, numbers)
        bad = bad or difference(words, options, clients, places)
        if bad:
            print(f'{keeper}, kill {number}: {bad}')
            return False
        told += sum(len(client.told) for client in clients)
        open_ += sum(len(client.asked) - len(client.told) for client in clients)
    count = entries(words.desk, options)
    good = count == len(places)
    print(f'{keeper}: {words.kills} kills, {told} answers read, {open_} requests without one; the audit says {count} entries of {len(places)};',
          'nothing lost' if good else 'BAD')
    return good


def main():
    parser = argparse.ArgumentParser(description=__doc__.split('\n')[0])
    parser.add_argument('--desk', required=True)
    parser.add_argument('--kills', type=int, default=100)
    parser.add_argument('--connections', type=int, default=8)
    parser.add_argument('--keeper', choices=KEEPERS)
    parser.add_argument('--seed', type=int, default=1)
    parser.add_argument('--folder')
    words = parser.parse_args()
    with tempfile.TemporaryDirectory(dir=words.folder) as folder:
        good = [keeper_is_good(words, keeper, folder) for keeper in ([words.keeper] if words.keeper else KEEPERS)]
    return 0 if all(good) else 1


if __name__ == '__main__':
    sys.exit(main())
