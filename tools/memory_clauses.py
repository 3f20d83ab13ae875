#!/usr/bin/env python3
"""Lists the public functions that may tell of want of memory and have no clause of what is as before then.

  memory_clauses.py [--all]

A function may tell of want of memory where its result names `Memory`, or an enum one of whose variants is called so. What it
could change is what it takes as `&mut`. A clause says what that is then where it names its `.new`, and speaks neither of a
good end alone nor of a count of faults. The clauses of a trait stand for those of its impls. The functions in DESCRIBED are
told in docs/PROVED.md. The status is 1 where one is left that neither has a clause nor stands there, or where one stands there that
has a clause. --all also lists the others.
"""
import os
import re
import sys

CRATES = os.path.join(os.path.dirname(os.path.abspath(__file__)), '..', 'crates')
OTHER = re.compile(r'^\s*(?:\(\w+ [^→]*\) → )*(IfOk|OnOk|IfSome|HasCause|HasCauseFor)\b|→ Rose \(')

# Those of which docs/PROVED.md says why nothing is promised.
DESCRIBED = {
    'sect_check: print_complaint', 'sect_edge: Keeper::row', 'sect_head: read_head', 'sect_journal: Disk::read_at',
    'sect_machine: Machine::step_counted', 'sect_app: make', 'sect_machine: Machine::step_told', 'sect_once: Desk::ask_lent', 'sect_once: Object::step', 'sect_once: Object::copy_request', 'sect_once: Object::print_request',
    'sect_once: Object::print_reply', 'sect_tables: Reading::take',
    'sect_tables: Reading::end', 'sect_talk: await_head', 'sect_tell: Teller::text', 'sect_wait: leave_course',
    'sect_wait: mark_enrolment', 'sect_wait: mark_leaving', 'sect_wait: mark_noted', 'sect_wait: mark', 'sect_wait: settle_opened',
}


def text_of(path):
    with open(path) as file:
        return re.sub(r'(?m)^\s*//.*\n', '', file.read())


def sources(crate):
    folder = os.path.join(CRATES, crate, 'src')
    for root, _, names in sorted(os.walk(folder)):
        for name in sorted(names):
            if name.endswith('.rt') and 'tests' not in os.path.join(root, name):
                yield os.path.join(root, name)


def closing(text, at):
    """The place behind the bracket that closes the one at this place."""
    depth = 0
    for place in range(at, len(text)):
        if text[place] in '([{':
            depth += 1
        elif text[place] in ')]}':
            depth -= 1
            if depth == 0:
                return place + 1
    return len(text)


def faults():
    """The enums one of whose variants is called Memory."""
    found = set()
    for crate in sorted(os.listdir(CRATES)):
        for path in sources(crate):
            text = text_of(path)
            for m in re.finditer(r'pub(?:\(crate\))? enum (\w+)[^{]*\{', text):
                body = text[m.end() - 1:closing(text, m.end() - 1)]
                if re.search(r'\bMemory\b\s*[,(}]', body):
                    found.add(m[1])
    return found


def owners(text):
    """(start, end, name, whether a trait) of each impl of a type and each trait."""
    found = []
    for m in re.finditer(r'(?m)^(?:unsafe )?(impl|pub trait)\b([^{;]*)\{', text):
        head = m[2]
        of_trait = m[1] == 'impl' and re.search(r'\bfor\b', head)
        name = re.sub(r'^<[^>]*(?:<[^>]*>[^>]*)*>', '', head.strip()).strip()
        name = re.match(r'\w*', name)[0]
        found.append((m.start(), closing(text, m.end() - 1), None if of_trait else name, m[1] == 'pub trait'))
    return found


def functions(text):
    """(owner, name, arguments, result, clauses) of each function that may be called from elsewhere."""
    spans = owners(text)
    for m in re.finditer(r'(?m)^\s*(pub )?fn (\w+)(?:<[^{;]*?>)?\(', text):
        inside = [s for s in spans if s[0] < m.start() < s[1]]
        owner, is_trait = (inside[-1][2], inside[-1][3]) if inside else ('', False)
        if owner is None or not (m[1] or is_trait):
            continue
        end = closing(text, m.end() - 1)
        arguments = text[m.end():end - 1]
        rest = text[end:]
        result = re.match(r'\s*(?:->\s*((?:[^\n{;]|\n(?=[^\n]*[)>,]))*?))?\s*(?=\n\s*(?:requires|ensures|where)\b|\{|;|\n\{)', rest)
        yield owner, m[2], arguments, (result[1] or '') if result else '', list(clauses(rest[result.end():] if result else rest))


def clauses(text):
    """(name, text) of each clause of what holds behind the call."""
    at = 0
    while True:
        m = re.compile(r'\s*(?:where(?:\s+[\w:]+\s*:[^\n{]*)*|(requires|ensures)\s+(\w*)\s*(?=\{))').match(text, at)
        if not m:
            return
        at = m.end()
        if m[1]:
            end = closing(text, at)
            if m[1] == 'ensures':
                yield m[2], text[at + 1:end - 1].strip()
            at = end


def exported(crate):
    """The names that the crate gives out."""
    names = set()
    for root in ('lib.rt', 'main.rt'):
        path = os.path.join(CRATES, crate, 'src', root)
        if os.path.exists(path):
            text = text_of(path)
            for m in re.finditer(r'pub use ([^;]*);', text):
                names |= set(re.findall(r'\w+', m[1]))
            names |= set(re.findall(r'pub (?:struct|enum|trait|fn) (\w+)', text))
    return names


def changed(arguments):
    """The names of what a function could change."""
    names = re.findall(r'(\w+): &(?:\'\w+ )?mut\b', arguments)
    return (['self'] if re.search(r'&(?:\'\w+ )?mut self', arguments) else []) + names


def unsaid(names, found):
    """Those of the names of which no clause says what they are at want of memory."""
    return [n for n in names if not any(re.search(r'\b%s\.new\b' % n, text) and not OTHER.search(text) for _, text in found)]


def main():
    memory = faults()
    tells = re.compile(r'\b(Memory|%s)\b' % '|'.join(sorted(memory)))
    show, left, said, nothing = sys.argv[1:] == ['--all'], [], [], []
    for crate in sorted(os.listdir(CRATES)):
        if not crate.startswith('sect_'):
            continue
        names = exported(crate)
        for path in sources(crate):
            for owner, name, arguments, result, found in functions(text_of(path)):
                if not tells.search(result) or (owner or name) not in names:
                    continue
                full = '%s: %s%s' % (crate, owner + '::' if owner else '', name)
                taken = changed(arguments)
                open_ = unsaid(taken, found)
                (nothing if not taken else left if open_ else said).append((full, open_))
    for full, open_ in left:
        if full not in DESCRIBED:
            print('%s (%s)' % (full, ', '.join(open_)))
    if show:
        for full, _ in said:
            print('said:', full)
        for full, _ in nothing:
            print('changes nothing:', full)
    new = [full for full, _ in left if full not in DESCRIBED]
    gone = DESCRIBED - {full for full, _ in left}
    for full in sorted(gone):
        print('described, and has a clause or is gone:', full)
    print('%d functions may tell of want of memory: %d change nothing, %d say what is as before, %d are described, %d are left' % (
        len(left) + len(said) + len(nothing), len(nothing), len(said), len(left) - len(new), len(new)))
    return 1 if new or gone else 0


if __name__ == '__main__':
    sys.exit(main())
