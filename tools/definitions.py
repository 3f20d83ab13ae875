"""Writes docs/DEFINITIONS.md: each definition with its file and its sentence, in an order in which they can be read, and an
index of the names. And docs/FIND.md: where each rule, refusal, command, limit, format, route and status stands.

python3 tools/definitions.py            writes the documents
python3 tools/definitions.py --missing  lists the definitions without a sentence
python3 tools/definitions.py --check    compares the documents with what would be written; the status is 1 where they differ

Where a definition stands before one that it uses, a name of tools/find_it.py stands nowhere or is a definition that
docs/DEFINITIONS.md leaves out, or a piece of code in docs/CALLING.md isn't in the file that it names, it is told, the status is
1 and nothing is written.
"""
import os
import re
import sys

from find_it import GROUPS, INTRODUCTION as FIND_INTRODUCTION
from reading_order import CHAPTERS, INDEX, INSIDE, INTRODUCTION, READERS, SENTENCES

ROOT = os.path.join(os.path.dirname(os.path.abspath(__file__)), '..')
CRATES = os.path.join(ROOT, 'crates')
DEFINED = r'^ *(?:abbrev |unfoldable )?pub (?:record |data )?{}(?=[\s:(]|$)'


def read(*path):
    with open(os.path.join(ROOT, *path)) as file:
        return file.read()


def definitions(path):
    """Names, sentences and first lines of the definitions in a file of specs/, in its order."""
    found, comment, mutual, module = [], [], False, False
    for line in read('crates', path).split('\n')[1:]:
        text = line.strip()
        if text.startswith('-- ----') or not text:
            comment = []
            continue
        if text.startswith('--'):
            comment.append(text[2:].strip())
            continue
        if line.startswith(('abbrev mutual', 'mutual')):
            mutual, comment = True, []
            continue
        mutual = mutual and line.startswith(' ')
        module = line.startswith('module ') or module and line.startswith(' ')
        m = re.match(('^  ' if module else '^') + r'(?:abbrev |unfoldable )?pub (record |data )?([^\s:({]+)', line)
        if not m and mutual:
            m = re.match(r'^  (?:abbrev |unfoldable )?pub (data )?([^\s:({]+)', line)
        if m and m[2] not in ('mod', 'use'):
            found.append((m[2], ' '.join(comment), re.sub(r'^(abbrev |unfoldable )?pub (record |data )?| where$', '', text)))
        comment = []
    return found


def told(path):
    """The definitions of a file that the document lists."""
    found = [d for d in definitions(path) if '-' not in d[0]]
    return [d for d in found if d[1]] if path == 'sect_model/specs/Script.antt' else found


def definitions_text():
    out = [INTRODUCTION]
    for title, text, files in CHAPTERS:
        out.append(f'## {title}\n\n{text}\n')
        for path in files:
            found = told(path)
            if not found:
                continue
            out.append(f'In `crates/{path}`:\n')
            for name, sentence, _ in found:
                sentence = sentence or SENTENCES.get((path, name), '')
                out.append(f'- `{name}`: {sentence}.' if sentence else f'- `{name}`')
            out.append('')
    return '\n'.join(out + index()).rstrip() + '\n'


def index():
    """The names of the document from A to Z, each with its first line and its file."""
    names = {(name, path, line) for _, _, files in CHAPTERS for path in files for name, _, line in told(path)}
    out, letter = [f'## From A to Z\n\n{INDEX}\n'], ''
    for name, path, line in sorted(names, key=lambda n: (n[0].upper(), n)):
        if name[0].isascii() and name[0].upper() != letter:
            letter = name[0].upper()
            out += [''] * out[-1].startswith('- ') + [f'### {letter}\n']
        out.append(f'- `{line}`, {path}')
    return out


def missing_sentences():
    return [(path, name) for _, _, files in CHAPTERS for path in files for name, sentence, _ in told(path)
            if not (sentence or SENTENCES.get((path, name), ''))]


def outside_the_order():
    """Files of definitions that no chapter lists."""
    seen = set(INSIDE).union(path for _, _, files in CHAPTERS for path in files)
    for crate in ('sect_base', 'sect_catalog', 'sect_people', 'sect_reserve', 'sect_model'):
        for name in sorted(os.listdir(os.path.join(CRATES, crate, 'specs'))):
            path = f'{crate}/specs/{name}'
            if path not in seen and definitions(path) and not name.startswith(('Lib', 'Examples')):
                yield path


def used_before():
    """Files of definitions that a file of the document uses, and that stand behind it there or nowhere."""
    told_so_far = set(READERS)
    for path in (path for _, _, files in CHAPTERS for path in files):
        told_so_far.add(path)
        for crate, name in re.findall(r'^use Rattle\.(sect_\w+)\.specs\.([A-Z]\w*)(?:\.\{| as )', read('crates', path), re.M):
            used = f'{crate}/specs/{name}.antt'
            if used not in told_so_far and os.path.isfile(os.path.join(CRATES, used)) and definitions(used):
                yield path, used


def stands(path, names):
    """Whether the file is there, and has what the pattern says."""
    return os.path.isfile(os.path.join(CRATES, path)) and re.search(names, read('crates', path), re.M)


def lost():
    """What the rows of find_it.py name and what stands nowhere."""
    headings = re.findall(r'^##+ (.*)$', read('docs', 'MANUAL.md'), re.M)
    listed = {path for _, _, files in CHAPTERS for path in files}
    for _, rows in GROUPS:
        for what, heading, means, does, test in rows:
            if heading not in headings:
                yield what, f'docs/MANUAL.md: {heading}'
            for path in {name.split(': ')[0] for name in means} - listed:
                yield what, f'{path}: in docs/DEFINITIONS.md'
            tests = [test] if test else []
            for names, pattern in ((means, DEFINED), (does, r'\bfn {}\b'), (tests, '{}')):
                for name in names:
                    path, name = name.split(': ', 1)
                    if not stands(path, pattern.format(re.escape(name))):
                        yield what, f'{path}: {name}'


def misquoted():
    """The files that docs/CALLING.md quotes otherwise than they are."""
    for path, code in re.findall(r'^From `crates/([^`]*)`:\n\n```(?:rust|text)\n(.*?)^```', read('docs', 'CALLING.md'), re.M | re.S):
        if not stands(path, re.escape(code)):
            yield path


def by_file(names):
    """Names with their files, the file once."""
    files = {}
    for name in names:
        path, name = name.split(': ', 1)
        files.setdefault(path, []).append(f'`{name}`')
    return '; '.join(f'{", ".join(names)} in {path}' for path, names in files.items())


def link(heading):
    place = re.sub(r'[^\w\- ]', '', heading.lower()).replace(' ', '-')
    return f'[{heading}](MANUAL.md#{place})'


def find_text():
    out = [FIND_INTRODUCTION]
    for title, rows in GROUPS:
        out.append(f'## {title}\n\n| What | Manual | Meaning | Code | Test |\n|---|---|---|---|---|')
        for what, heading, means, does, test in rows:
            path, text = test.replace('|', '\\|').split(': ', 1) if test else ('', '')
            out.append(f'| {what} | {link(heading)} | {by_file(means)} | {by_file(does)} | ' + (f'{path}: `{text}` |' if test else 'none |'))
        out.append('')
    return '\n'.join(out).rstrip() + '\n'


def main():
    if sys.argv[1:] == ['--missing']:
        for path, name in missing_sentences():
            print(path, name)
        return 0
    for path in outside_the_order():
        print('not in the order:', path, file=sys.stderr)
    used = list(used_before())
    for path, name in used:
        print(f'tools/reading_order.py, {path}: uses {name}, which does not stand before it')
    absent = list(lost())
    for what, name in absent:
        print(f'tools/find_it.py, {what}: not found, {name}')
    strange = list(misquoted())
    for path in strange:
        print('docs/CALLING.md quotes what does not stand in', path)
    if used or absent or strange:
        return 1
    status = 0
    for name, text in (('DEFINITIONS.md', definitions_text()), ('FIND.md', find_text())):
        path = os.path.join(ROOT, 'docs', name)
        if sys.argv[1:] != ['--check']:
            with open(path, 'w') as file:
                file.write(text)
        elif not os.path.isfile(path) or read('docs', name) != text:
            print(f'docs/{name} is not what tools/definitions.py writes')
            status = 1
    return status


if __name__ == '__main__':
    sys.exit(main())
