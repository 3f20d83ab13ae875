#!/usr/bin/env python3
"""Asks a desk over files that a crash may leave of its journal, and looks whether the answers come once more.

  crash_images.py --desk PROGRAM

A first run answers a few lines over a journal. A crash in the append of a row leaves the rows before it, behind them a closed
gate, and behind that any bytes, since they weren't synced: none, a part of the row, the row, other bytes; or, once the row was
synced, the row behind an open gate. Over each such file the same lines are asked again: each answer is the first run's, whether
the request stands in the file or acts anew, and `desk audit` counts each once. The status is 1 where something differs.
"""
import argparse
import os
import sys
import tempfile

from disk_faults import LINES
from serving import entries, run_lines
from whole_runs import journal_of, rows_of


def images(rows, count):
    """(what was left, its bytes) of each file that a crash may leave in the append behind so many rows."""
    before, after = journal_of(rows[:count]), journal_of(rows[:count + 1])
    record = after[len(before):]
    yield 'nothing of the row', before
    for size in (1, 7, 8, 9, len(record) // 2, len(record) - 1):
        yield f'{size} bytes of the row', before + record[:size]
    yield 'the row behind a closed gate', before + record
    for byte in (b'\0', b'\1', b'\xff'):
        yield f'as many bytes {byte[0]}', before + byte * len(record)
    yield 'more bytes than the row has', before + b'\1' * 70_000
    yield 'the row behind an open gate', after


def difference(desk, path, told):
    """What differs where the lines are asked again over a file."""
    status, now, said = run_lines(desk, ['--journal', path], LINES)
    if status or now != told:
        return f'answered {now}, status {status} {said}'
    count = entries(desk, ['--journal', path])
    return None if count == len(LINES) else f'the audit says {count}'


def main():
    parser = argparse.ArgumentParser(description=__doc__.split('\n')[0])
    parser.add_argument('--desk', required=True)
    desk = parser.parse_args().desk
    tried = bad = 0
    with tempfile.TemporaryDirectory() as folder:
        path = os.path.join(folder, 'journal')
        status, told, said = run_lines(desk, ['--journal', path], LINES)
        if status or len(told) != len(LINES):
            print(f'the first run ended with {status} {said}')
            return 1
        rows = rows_of(path)
        for count in range(len(rows)):
            for name, image in images(rows, count):
                with open(path, 'wb') as file:
                    file.write(image)
                found, tried = difference(desk, path, told), tried + 1
                if found:
                    bad += 1
                    print(f'BAD behind {count} rows, {name}: {found}')
    print(f'{tried} files after a crash, {bad} differ')
    return 1 if bad else 0


if __name__ == '__main__':
    sys.exit(main())
