"""A copy of the repository in which the model has examples more: the prover computes them by the definitions."""
import os
import re
import shutil
import subprocess

from examples import answers, snake
from scripts import MODEL, imports

HERE = os.path.dirname(os.path.abspath(__file__))


def try_examples(copy, text, names, more=None, extra=''):
    """Writes the statements `text` of the types `names`, and answers which of them are not proved, with what rt said."""
    shutil.rmtree(copy, ignore_errors=True)
    os.makedirs(copy)
    for part in ('crates', 'crates.txt', 'HANDLES'):
        source, target = os.path.join(HERE, '..', part), os.path.join(copy, part)
        if os.path.isdir(source):
            shutil.copytree(source, target, ignore=shutil.ignore_patterns('out', 'must-fail'))
        elif os.path.exists(source):
            shutil.copy(source, target)
    crate = os.path.join(copy, 'crates', 'sect_model')

    def write(path, content, mode='w'):
        path = os.path.join(crate, path)
        os.makedirs(os.path.dirname(path), exist_ok=True)
        with open(path, mode) as file:
            file.write(content)
    write('specs/Trial.antt', f'-- Examples to be tried.\n{imports(text, more)}{extra}\n{text}')
    write('specs/Lib.antt', 'pub mod Trial\n', 'a')
    clauses = '\n'.join(f'    ensures {snake(n)} {{ {n} }}' for n in names)
    write('src/trial.rt', f'// Examples to be tried.\n\nghost use {MODEL}.Trial.{{{", ".join(names)}}};\n\n/// Examples.\n'
          f'pub fn tried()\n{clauses}\n{{\n}}\n')
    with open(os.path.join(crate, 'src/lib.rt')) as file:
        lib = file.read()
    write('src/lib.rt', lib.replace('pub mod laws;', 'pub mod laws;\npub mod trial;'))
    write('proofs/trial/tried/Answers.antt', answers('trial', 'tried', [(snake(n), 'refl') for n in names]))
    told = subprocess.run(['rt', 'check', '--only', 'sect_model::trial::tried'], cwd=crate, capture_output=True, text=True)
    said = told.stdout + told.stderr
    refused = [n for n in names if re.search(rf'error: `returns-clause-{snake(n)}`', said)]
    proved = re.search(r'fn sect_model::trial::tried: proved', said) is not None
    errors = [line for line in said.splitlines() if 'error' in line and 'was not admitted' not in line]
    return refused, proved, '\n'.join(errors)[:6000]
