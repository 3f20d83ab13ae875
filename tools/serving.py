"""`desk serve` as a client sees it: a server over a keeper, requests, and connections that stay. The tools that try the
server from outside stand on it.
"""
import contextlib
import json
import random
import signal
import socket
import struct
import subprocess
import time

WAIT = 20


def free_port():
    """A port at which nobody listens, below those that the system gives to clients, so that none of these takes it meanwhile."""
    while True:
        port = random.randrange(20_000, 32_000)
        with socket.socket() as free, contextlib.suppress(OSError):
            free.bind(('127.0.0.1', port))
            return port


class Server:
    """A program that serves at a free port, started so as `subprocess.Popen` is told."""

    def __init__(self, program, options, workers, sessions=None, **how):
        self.port = free_port()
        words = [program, 'serve', '--port', str(self.port), '--workers', str(workers), *options]
        if sessions:
            words += ['--sessions', str(sessions)]
        self.process = subprocess.Popen(words, stdin=subprocess.DEVNULL, stdout=subprocess.PIPE, stderr=subprocess.PIPE, **how)

    def connect(self):
        """A connection, once the server listens."""
        end = time.time() + WAIT
        while True:
            try:
                return socket.create_connection(('127.0.0.1', self.port), timeout=WAIT)
            except ConnectionRefusedError:
                if time.time() > end or self.process.poll() is not None:
                    raise
                time.sleep(0.01)

    def stop(self, by=signal.SIGTERM):
        """Ends it by a signal, and gives its status and what it said on standard error."""
        self.process.send_signal(by)
        return self.end()

    def end(self):
        """Waits until it ends, and gives its status and what it said on standard error."""
        try:
            _, said = self.process.communicate(timeout=WAIT)
        except subprocess.TimeoutExpired:
            self.process.kill()
            self.process.communicate()
            return None, '(it did not end)'
        return self.process.returncode, said.decode(errors='replace').strip()


class Ask:
    """A request: the caller's letter and id, its number, and the command as a line has it."""

    def __init__(self, kind, caller, number, command):
        self.kind, self.caller, self.number, self.command = kind, caller, number, command

    def line(self):
        return f'{self.kind}{self.caller} {self.number} {self.command}\n'

    def path(self):
        return f'/{"students" if self.kind == "s" else "registrars"}/{self.caller}/asks/{self.number}'

    def body(self):
        """The command as JSON: by its own verb where it has one, else as a line."""
        verb, *words = self.command.split()
        ids = [[int(word) for word in text.split('+')] for text in words if text[0].isdigit()]
        data = {'verb': 'line', 'text': self.command}
        if verb == 'enrol' and len(words) == 2:
            data = {'verb': verb, 'student': ids[0][0], 'courses': ids[1]}
        elif verb == 'drop':
            data = {'verb': verb, 'student': ids[0][0], 'course': ids[1][0]}
        elif verb == 'wait' and len(words) == 2:
            data = {'verb': verb, 'student': ids[0][0], 'courses': ids[1], 'give': None}
        return json.dumps(data, separators=(',', ':')).encode()

    def request(self):
        body = self.body()
        return b'POST %s HTTP/1.1\r\nHost: localhost\r\nContent-Type: application/json\r\nContent-Length: %d\r\n\r\n%s' % (
            self.path().encode(), len(body), body)


def line_of(status, body):
    """The answer as a line of `desk run` has it."""
    data = json.loads(body)
    if status == 200:
        return f'{data["place"]} {data["reply"]}'
    return {'reused': f'reused {data.get("place")}'}.get(data['error'], data['error'])


class Connection:
    """A connection that stays, with what it was answered."""

    def __init__(self, server):
        self.socket = server.connect()
        self.socket.setsockopt(socket.IPPROTO_TCP, socket.TCP_NODELAY, 1)
        self.left = b''

    def send(self, data):
        self.socket.sendall(data)

    def answer(self):
        """The next answer: its status and its body. ConnectionError where the connection ends before."""
        while b'\r\n\r\n' not in self.left:
            self.more()
        head, _, self.left = self.left.partition(b'\r\n\r\n')
        first, *fields = head.decode().split('\r\n')
        size = next(int(field.split(':')[1]) for field in fields if field.lower().startswith('content-length:'))
        while len(self.left) < size:
            self.more()
        body, self.left = self.left[:size], self.left[size:]
        return int(first.split()[1]), body

    def more(self):
        piece = self.socket.recv(65536)
        if not piece:
            raise ConnectionError('the connection ended')
        self.left += piece

    def ask(self, ask):
        self.send(ask.request())
        return self.answer()

    def get(self, path):
        self.send(b'GET %s HTTP/1.1\r\nHost: localhost\r\n\r\n' % path.encode())
        return self.answer()

    def close(self):
        self.socket.close()

    def reset(self):
        """Closes it by a reset: what was sent and not yet read is gone."""
        self.socket.setsockopt(socket.SOL_SOCKET, socket.SO_LINGER, struct.pack('ii', 1, 0))
        self.socket.close()


def run_lines(program, options, lines):
    """What `desk run` answers: its status, its lines and what it said."""
    done = subprocess.run([program, 'run', *options], input=''.join(lines).encode(), capture_output=True, check=False)
    return done.returncode, done.stdout.decode().split('\n')[:-1], done.stderr.decode().strip()


def entries(program, options):
    """How many requests have acted, by `desk audit`, or what it said where it ended otherwise."""
    done = subprocess.run([program, 'audit', *options], capture_output=True, check=False)
    words = done.stdout.decode().split()
    return int(words[1]) if words[:1] == ['entries'] and not done.returncode else done.stderr.decode().strip()


def term(offerings, students):
    """Lines that make a term: offerings of one section with 40 places each, and students."""
    lines = [f'r1 {n} offering {n} course {n} - 3 config {n} - subpart {n} section {n} 40 - MWF/0900-0950/1-15\n'
             for n in range(1, offerings + 1)]
    return lines + [f'r1 {offerings + n} student {n} max 60\n' for n in range(1, students + 1)]


def draw(dice, student, number, offerings):
    """A request of a student's."""
    course = dice.randint(1, offerings)
    verb = dice.choice(['enrol', 'enrol', 'enrol', 'drop', 'wait', 'swap'])
    command = f'{verb} {student} {course}'
    if verb == 'enrol' and dice.random() < 0.3:
        command += f'+{course % offerings + 1}'
    if verb == 'swap':
        command = f'swap {student} give {course} take {course % offerings + 1}'
    return Ask('s', student, number, command)


def compared(program, options, told):
    """Asks again what was answered: each answer is to come once more. The first that differs, or none."""
    status, answers, said = run_lines(program, options, [ask.line() for ask, _ in told])
    if status or len(answers) != len(told):
        return f'the second run ended with {status} {said} after {len(answers)} of {len(told)} answers'
    for (ask, before), now in zip(told, answers):
        if before != now:
            return f'{ask.line().strip()}: answered {before}, and now {now}'
    return None
