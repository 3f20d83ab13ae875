"""Kills a program that appends rows to a journal at random moments, and looks whether a row that it acknowledged is lost.

python3 tools/kill_journal.py [KILLS [FOLDER]]

The program is a crate of its own, made and built in a copy of the repository. It appends rows to a journal in a file,
and prints each row's number once the append was answered Ok. KILLS (500) times it is killed by SIGKILL up to 40 ms
after its first row; then the journal is opened again. Its rows must be those of before, without a gap, at least up to
the last number that was printed whole, and at most one row more. FOLDER is where the journal lies (the disk matters for the
appends a second, which are printed with those of a bare loop of two writes and two fdatasyncs).
"""
import os
import random
import shutil
import signal
import subprocess
import sys
import tempfile
import time

ROOT = os.path.dirname(os.path.dirname(os.path.abspath(__file__)))

PROGRAM = r'''// Appends rows to a journal in a file, or lists them.
#![tactic(auto)]

use sect_edge::Keeper;
use sect_journal::Journal;
use sect_system::FileDisk;
use std::io::Write;
use std::process::ExitCode;
use std::{env, io};

fn main(rt: HostRuntime) -> io::Result<ExitCode> {
    let alloc = rt.alloc();
    let mut words = Vec::new(alloc);
    for word in env::args(&rt)?.skip(1) {
        words.push(word)?;
    }
    let [path, count] = words.as_slice() else {
        return Ok(ExitCode::from(2));
    };
    let Ok(count) = count.parse::<u64>() else {
        return Ok(ExitCode::from(2));
    };
    let Ok(mut journal) = Journal::start(alloc, FileDisk::open(&rt, path.as_str())?) else {
        return Ok(ExitCode::from(6));
    };
    let Ok(first) = journal.len() else {
        return Ok(ExitCode::from(6));
    };
    let mut row = Vec::new(alloc);
    if count == 0 {
        for at in 0..first {
            match journal.row(at, &mut row) {
                Ok(true) => {}
                _ => return Ok(ExitCode::from(7)),
            }
            rt.stdout().write_all(row.as_slice())?;
        }
        return Ok(ExitCode::from(0));
    }
    for at in first..first.saturating_add(count) {
        row.clear();
        writeln!(row, "{at}")?;
        if journal.append(row.as_slice()).is_err() {
            return Ok(ExitCode::from(6));
        }
        rt.stdout().write_all(row.as_slice())?;
    }
    Ok(ExitCode::from(0))
}
'''


def build():
    """The path of the program, built in a copy of the repository."""
    copy = tempfile.mkdtemp(prefix='kill_journal_')
    shutil.copytree(ROOT, copy, dirs_exist_ok=True, ignore=shutil.ignore_patterns('.git'))
    crate = os.path.join(copy, 'crates', 'journal_trial')
    os.makedirs(os.path.join(crate, 'src'))
    with open(os.path.join(crate, 'src', 'main.rt'), 'w') as file:
        file.write(PROGRAM)
    with open(os.path.join(copy, 'crates.txt'), 'a') as file:
        file.write('journal_trial: sect_base sect_edge sect_journal sect_system\n')
    made = subprocess.run(['rt', 'run', '--', '/tmp/kill_journal_first', '1'], cwd=crate, capture_output=True, text=True)
    if made.returncode:
        sys.exit(made.stdout + made.stderr)
    return os.path.join(crate, 'out', 'journal_trial')


def rows(program, path):
    """The rows of a journal, as numbers."""
    said = subprocess.run([program, path, '0'], capture_output=True, text=True)
    if said.returncode:
        sys.exit(f'the journal does not open: status {said.returncode}')
    return [int(line) for line in said.stdout.split()]


def kill_once(program, path, known):
    """Kills one run, and returns how many rows the journal has now."""
    run = subprocess.Popen([program, path, '1000000'], stdout=subprocess.PIPE)
    first = run.stdout.readline()
    time.sleep(random.random() * 0.04)
    run.send_signal(signal.SIGKILL)
    said = first + run.stdout.read()
    run.wait()
    acknowledged = known + said.count(b'\n')
    found = rows(program, path)
    if found != list(range(len(found))):
        sys.exit('rows are missing or in another order')
    if not acknowledged <= len(found) <= acknowledged + 1:
        sys.exit(f'{acknowledged} rows were acknowledged, {len(found)} are there')
    return len(found), len(found) - acknowledged


def speed(program, folder):
    """Appends a second, and those of a bare loop of two writes and two fdatasyncs."""
    path, count = os.path.join(folder, 'speed.journal'), 2000
    start = time.perf_counter()
    subprocess.run([program, path, str(count)], stdout=subprocess.DEVNULL, check=True)
    ours = count / (time.perf_counter() - start)
    bare = os.open(os.path.join(folder, 'bare'), os.O_CREAT | os.O_RDWR)
    start, at = time.perf_counter(), 0
    for _ in range(count):
        os.pwrite(bare, b'\0' * 14, at)
        os.fdatasync(bare)
        os.pwrite(bare, b'\1', at)
        os.fdatasync(bare)
        at += 13
    theirs = count / (time.perf_counter() - start)
    os.close(bare)
    return ours, theirs


def main():
    kills = int(sys.argv[1]) if len(sys.argv) > 1 else 500
    folder = tempfile.mkdtemp(prefix='kill_journal_', dir=sys.argv[2] if len(sys.argv) > 2 else None)
    program = build()
    path, known, more = os.path.join(folder, 'rows.journal'), 0, 0
    for _ in range(kills):
        known, extra = kill_once(program, path, known)
        more += extra
    print(f'{kills} kills, {known} rows, none acknowledged was lost; {more} times one row more')
    for _ in range(3):
        ours, theirs = speed(program, tempfile.mkdtemp(dir=folder))
        print(f'appends a second {ours:.0f}, bare loop {theirs:.0f}, ratio {ours / theirs:.2f}')


if __name__ == '__main__':
    main()
