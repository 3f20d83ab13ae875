#!/usr/bin/env python3
"""Checks one crate over libraries that the gate left in a checkout, and takes up what an earlier check of it proved.

`tools/check_over.py GATE CRATE [--build] [--jobs N] [--keep DIR] [-- FLAGS]` checks the crate CRATE of this checkout over the
libraries in GATE/crates/*/out/rlib, which stand there where the gate ran whole. So nothing below it is proved again, which
`rt check` would do, and only what changed since the last run in DIR (/tmp/check_over) is checked: a change of one function takes
half a minute. With `--build` the library is also put into DIR, and a check of a crate above takes it from there. FLAGS go to
`rattle`, as `--fix-imports`. It is for the time before the gate: what it proves, the gate proves again.
"""

import argparse
import os
import subprocess
import sys

KIT = os.path.dirname(subprocess.run(['rt', 'doc'], capture_output=True, text=True, check=True).stdout.split()[0])
ROOT = os.path.dirname(os.path.dirname(os.path.abspath(__file__)))


def dependencies():
    """Of each crate of crates.txt the names behind its colon."""
    found = {}
    with open(f'{ROOT}/crates.txt') as lines:
        for line in lines:
            head, colon, names = line.split('#')[0].partition(':')
            if colon:
                found[head.split()[0]] = names.split()
    return found


def below(crates, name):
    """The repository's libraries below a crate, each once."""
    found = []
    for other in crates[name]:
        if other in crates:
            found += [it for it in [*below(crates, other), other] if it not in found]
    return found


def library(name, keep, gate):
    """Where a library was built: by this tool, or by the gate, or it is the kit's."""
    for folder in (f'{keep}/{name}', f'{gate}/crates/{name}/out/rlib', f'{KIT}/rlibs'):
        if os.path.exists(f'{folder}/{name}.rlib'):
            return folder
    sys.exit(f'no library {name} in {gate}, {keep} or the kit: did the gate run whole there?')


def words(crates, asked):
    """What `rattle` is called with."""
    folder = f'{ROOT}/crates/{asked.crate}'
    root = 'src/main.rt' if os.path.exists(f'{folder}/src/main.rt') else 'src/lib.rt'
    found = [f'{KIT}/bin/rattle', 'build' if asked.build else 'check', '--crate-name', asked.crate, root]
    for name in ['std', *crates[asked.crate]]:
        found += ['--extern', f'{name}={library(name, asked.keep, asked.gate)}/{name}.rlib']
    for name in ['std', *below(crates, asked.crate)]:
        found += ['-L', f'dependency={library(name, asked.keep, asked.gate)}']
    earlier = f'{asked.keep}/earlier/{asked.crate}'
    os.makedirs(earlier, exist_ok=True)
    found += ['--antt-project', f'{KIT}/rattle/logic/antt-project.json', '--logic-built', f'{KIT}/logic_built']
    found += ['--incremental', earlier, '--jobs', str(asked.jobs)]
    if asked.build:
        os.makedirs(f'{asked.keep}/{asked.crate}', exist_ok=True)
        found += ['-o', f'{asked.keep}/{asked.crate}/{asked.crate}.rlib']
    return found + asked.flags


def main():
    names = argparse.ArgumentParser(description=__doc__.split('\n\n')[0])
    names.add_argument('gate')
    names.add_argument('crate')
    names.add_argument('--build', action='store_true')
    names.add_argument('--jobs', type=int, default=2)
    names.add_argument('--keep', default='/tmp/check_over')
    given = sys.argv[1:]
    end = given.index('--') if '--' in given else len(given)
    asked = names.parse_args(given[:end])
    asked.flags = given[end + 1:]
    asked.gate = os.path.abspath(asked.gate)
    sys.exit(subprocess.call(words(dependencies(), asked), cwd=f'{ROOT}/crates/{asked.crate}'))


if __name__ == '__main__':
    main()
