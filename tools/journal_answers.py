"""What a second computation of journals and disks answers to the part `disks` of the input of test_commands, whose form its main.rt
tells. It needs nothing of the second computation of the desk.
"""
WINDOW = 65536


class Failed(Exception):
    """A call of the disk that fails."""


class Bad(Exception):
    """A bad gate, with its place."""


class Disk:
    def __init__(self, data, fail):
        self.durable, self.seen = bytes(data), bytearray(data)
        self.pending, self.fail, self.calls = [], set(fail), []

    def call(self, done, failed):
        bad = len(self.calls) + 1 in self.fail
        self.calls.append(failed if bad else done)
        if bad:
            raise Failed

    def size(self):
        self.call(('look',), ('look',))
        return len(self.seen)

    def read(self, at, count):
        self.call(('look',), ('look',))
        return bytes(self.seen[at:at + count])

    def write(self, at, piece):
        self.pending.append((at, len(piece)))
        self.call(('write', at, piece), ('write', at, bytes(len(piece))))
        self.seen[at:at + len(piece)] = piece

    def sync(self):
        self.call(('sync',), ('look',))
        self.durable, self.pending = bytes(self.seen), []

    def image(self, pick):
        if pick == 0:
            return self.durable
        if pick == 1:
            return bytes(self.seen)
        touched = [any(at <= i < at + count for at, count in self.pending) for i in range(len(self.seen))]
        return bytes(pick % 256 if hit else byte for hit, byte in zip(touched, self.seen))

    def again(self, call):
        try:
            if call[0] == 'write':
                self.write(call[1], call[2])
            elif call[0] == 'sync':
                self.sync()
            else:
                self.size()
        except Failed:
            pass


class Journal:
    def __init__(self, disk):
        self.disk, self.spans, self.torn, self.gate = disk, [], False, 0
        self.window = (0, b'')
        disk.sync()
        size = disk.size()
        while True:
            head = self.read(self.gate, 9)
            if not head:
                raise Bad(self.gate)
            if head[0] != 1:
                break
            count = int.from_bytes(head[1:], 'big')
            if len(head) < 9 or self.gate + 9 + count > size:
                raise Bad(self.gate)
            self.note(count)
        self.window = (0, b'')

    def note(self, count):
        self.spans.append((self.gate + 9, count))
        self.gate += 9 + count

    def read(self, at, count):
        if count > WINDOW:
            return self.disk.read(at, count)
        place, data = self.window
        if not (place <= at and at + count <= place + len(data)):
            self.window = (0, b'')
            place, data = self.window = (at, self.disk.read(at, WINDOW))
        return data[at - place:at - place + count]

    def put(self, at, piece):
        self.window = (0, b'')
        self.disk.write(at, piece)
        self.disk.sync()

    def append(self, rows):
        if self.torn:
            self.put(self.gate, b'\0')
            self.torn = False
        if rows:
            text = b'\1'.join(len(row).to_bytes(8, 'big') + row for row in rows) + b'\0'
            self.put(self.gate + 1, text)
            self.torn = True
            self.put(self.gate, b'\1')
            self.torn = False
            for row in rows:
                self.note(len(row))

    def row(self, at):
        return self.read(*self.spans[at]) if at < len(self.spans) else None

    def told(self, at):
        try:
            row = self.row(at)
            return ' none' if row is None else ' ' + row.decode()
        except Failed:
            return ' failed'

    def all(self):
        return ''.join(self.told(at) for at in range(len(self.spans)))


def images(disk):
    out = ''
    for pick in (0, 1, 257, 2):
        try:
            out += Journal(Disk(disk.image(pick), [])).all() + ' |'
        except Bad:
            out += ' fault |'
    return out


def numbers(text):
    return [int(word) for word in text.split(',') if word.isdigit()]


def opened(rest, out):
    data, fail = map(numbers, rest.split(' '))
    disk = Disk(data, fail)
    try:
        journal = Journal(disk)
        out.append('ok')
        return data, fail, journal
    except Failed:
        out.append('failed')
    except Bad as bad:
        out.append(f'bad journal {bad.args[0]}')
    return None


def crashes(stand, first, out):
    data, fail, journal = stand
    calls = journal.disk.calls
    out.append(f'{len(calls)} calls')
    for count in range(first, len(calls)):
        disk = Disk(data, fail)
        for call in calls[:count]:
            disk.again(call)
        out.append(f'{count}:' + images(disk))
    out.append('end:' + images(journal.disk))


def asked(stand, word, rest, out):
    journal = stand[2]
    if word == 'append':
        try:
            journal.append([b'' if row == '-' else row.encode() for row in rest.split()])
            out.append('ok')
        except Failed:
            out.append('failed')
    elif word == 'rows':
        out.append(f'{len(journal.spans)}:' + journal.all())
    else:
        crashes(stand, int(rest), out)
        return None
    return stand


def answers(lines, _):
    out, stand = [], None
    for line in lines:
        word, _, rest = line.partition(' ')
        if word == 'open':
            stand = opened(rest, out)
        elif stand is None:
            out.append(line)
        else:
            stand = asked(stand, word, rest, out)
    return (line + '\n' for line in out)
