"""Random worlds and moves, on which the definitions are held against one another.

python3 tools/random_worlds.py SEED COUNT
"""
import random
import sys
import tempfile

from scripts import numbers, request, terms
from trial import try_examples

MEETINGS = ['-', 'M/0900-0950/1', 'M/0930-1020/1', 'T/0900-0950/1']
TESTS = '''
abbrev path_agrees : World → Move → Step → Bool
path_agrees w mv s =
    not (is_complete mv (after w s))
    || beq (unbroken_from w mv start (s.before ++ s.pick ∷ [])) (is_allowed_move w mv (after w s).done)

-- each complete path is unbroken exactly where its choices are an allowed move; the refutation covers exactly where
-- there is none; the world is good, and the state settled
abbrev agrees : State → Move → List Bool
agrees s mv =
    list_all (path_agrees s.world mv) (all_steps s.world mv)
    ∷ beq (covers s.world mv (refutation_of s.world mv)) (is_none (first_allowed s.world mv))
    ∷ nat_le (visits_of s.world mv) (full_of s.world mv)
    ∷ limits_kept s.world
    ∷ reservations_kept s.world
    ∷ all_go_together s.world s.world.roster
    ∷ credits_kept s.world
    ∷ list_all (is_sound s.world) s.world.roster
    ∷ is_settled s
    ∷ []

abbrev all_true : List Bool
all_true = true ∷ true ∷ true ∷ true ∷ true ∷ true ∷ true ∷ true ∷ true ∷ []
'''
MORE = {
    'Rattle.std.specs.Prelude': '◌≡◌ true false [] ◌∷◌ Some None Bool List ◌++◌ not ◌||◌ nat_le',
    'Rattle.std.specs.List': 'list_all', 'Rattle.std.specs.Bool': 'beq', 'Rattle.std.specs.Option': 'is_none',
    'Rattle.sect_model.specs.Data': 'Move', 'Rattle.sect_model.specs.World': 'World State',
    'Rattle.sect_model.specs.Move': 'is_allowed_move', 'Rattle.sect_model.specs.Path': 'start is_complete',
    'Rattle.sect_model.specs.Covers': 'covers',
    'Rattle.sect_model.specs.Visits': 'Step after all_steps unbroken_from visits_of full_of',
    'Rattle.sect_model.specs.Outcome': 'first_allowed refutation_of', 'Rattle.sect_model.specs.Settle': 'is_settled',
    'Rattle.sect_model.specs.GoodWorld': 'limits_kept reservations_kept all_go_together credits_kept is_sound',
}


def offering(dice, number, state):
    text, courses, configs, sections = f'offering {number}', [], [], []
    for _ in range(dice.choice([1, 1, 2])):
        text += f" course {state['course']} {dice.choice(['-', '-', '1', '2'])} {dice.choice([1, 3])}"
        courses.append(state['course'])
        state['course'] += 1
    for _ in range(dice.choice([1, 1, 2])):
        config = state['config']
        text += f" config {config} {dice.choice(['-', '-', '1', '2'])}"
        configs.append(config)
        state['config'] += 1
        earlier = []
        for _ in range(dice.choice([1, 1, 2])):
            text += f" subpart {state['subpart']}"
            state['subpart'] += 1
            now = []
            for _ in range(dice.choice([1, 2])):
                section = state['section']
                parent = dice.choice(['-'] + [str(x) for x in earlier])
                text += f" section {section} {dice.choice(['-', '1', '1', '2'])} {parent} {dice.choice(MEETINGS)}"
                now.append(section)
                sections.append((config, section))
                state['section'] += 1
            earlier += now
    return text, (courses, configs, sections)


def audience(dice, courses, groups=True):
    kinds = ['students:11', 'students:11+12', 'curriculum:1:-:-', 'curriculum:1:2:5+6', f'course:{courses[0]}']
    return dice.choice(kinds + (['group:4'] if groups else []))


def listed(dice, configs, sections, often):
    if dice.random() >= often:
        return ''
    config = dice.choice(configs)
    text = f' config {config}'
    if dice.random() < .6:
        text += f' section {dice.choice([s for g, s in sections if g == config])}'
    return text


def script(dice):
    state = {'course': 1, 'config': 1, 'subpart': 1, 'section': 1}
    lines, rows = [], {}
    for number in range(1, dice.choice([2, 2, 3]) + 1):
        text, rows[number] = offering(dice, number, state)
        lines.append('r1 ' + text)
    for student in (11, 12, 13):
        lines.append(f'r1 student {student} max {dice.choice([3, 6, 18])}' + (' group 4' if dice.random() < .4 else '')
                     + (' curriculum 1:2:5' if dice.random() < .4 else ''))
    for number in range(1, dice.choice([1, 2, 3, 4])):
        of = dice.choice(list(rows))
        courses, configs, sections = rows[of]
        text = f"r1 reserve {number} {of} {audience(dice, courses)} {dice.choice(['-', '1', '1', '2'])} "
        text += dice.choice(['-', '-', '2025-08-01'])
        if dice.random() < .15:
            text += ' from 2025-10-01'
        text += listed(dice, configs, sections, .6)
        lines.append(text + ''.join(f' {flag}' for flag in ('over', 'overlap', 'must') if dice.random() < .3))
    for number in range(1, dice.choice([1, 1, 2, 3])):
        of = dice.choice(list(rows))
        courses, configs, sections = rows[of]
        lines.append(f'r1 restrict {number} {of} {audience(dice, courses, False)}' + listed(dice, configs, sections, 1))
    known = [c for row in rows.values() for c in row[0]]
    for student in (11, 12):
        asked = dice.sample(known, min(2, len(known)))
        text = f'r1 requests {student} ' + (f'free {dice.choice(MEETINGS[1:])} ' if dice.random() < .5 else '')
        text += f'course {asked[0]}' + dice.choice(['', ' wait'])
        if len(asked) > 1:
            text += f' course {asked[1]}' + dice.choice(['', ' wait', ' substitute'])
        lines.append(text)
    for _ in range(dice.choice([2, 3, 4])):
        student, course, section = dice.choice([11, 12, 13]), dice.choice(known), dice.randint(1, state['section'] - 1)
        lines.append(dice.choices([
            f's{student} enrol {student} {course}', f's{student} wait {student} {course}',
            f's{student} drop {student} {course}', f'r1 batch {student}', f'r1 cancel {section}',
            f"r1 limit section {section} {dice.choice(['-', '1', '2'])}"],
            [50, 15, 10, 10, 7, 8])[0])
    return lines, known, state['section']


def move(dice, known, sections):
    def want(courses, only):
        return f"want {numbers('+'.join(map(str, courses)))} {numbers(only)} {dice.choice([1, 21, 21])}"
    first, second = dice.choice(known), dice.choice(known)
    courses = [first] + ([second] if dice.random() < .3 else [])
    takes = [want(courses, '-' if dice.random() < .8 else str(dice.randint(1, sections - 1)))]
    if dice.random() < .3:
        takes.append(want([second], '-'))
    give = '[]' if dice.random() < .6 else terms([f'course_id {dice.choice(known)}'])
    return f'record {{ student = student_id {dice.choice([11, 12, 13])}; give = {give}; take = {terms(takes)} }}'


def main():
    dice, texts, names = random.Random(int(sys.argv[1])), [TESTS], []
    for k in range(int(sys.argv[2])):
        lines, known, sections = script(dice)
        requests = '\n    ∷ '.join([request(line) for line in lines] + ['[]'])
        texts.append(f'abbrev run{k} : State\nrun{k} = state_after (\n    {requests})\n\n'
                     f'abbrev move{k} : Move\nmove{k} = {move(dice, known, sections)}\n\n'
                     f'abbrev pub World{k} : Type 0\nWorld{k} = agrees run{k} move{k} ≡ all_true\n')
        names.append(f'World{k}')
    refused, proved, said = try_examples(tempfile.mkdtemp(prefix='random_worlds_'), '\n'.join(texts), names, MORE)
    print(f'{len(names)} worlds, proved {proved}, refused {refused}')
    if not proved:
        print(said)


main()
