"""The worked examples of examples.txt: scripts from the empty desk with what each line is answered.

python3 tools/examples.py                     writes crates/sect_model/specs/Examples*.antt, src/examples.rt and its proofs
python3 tools/examples.py --oracle FOLDER     compares each example with the oracle in FOLDER, an independent desk

examples.txt: `== TOPIC: title`, then examples `-- NAME: comment`, each with lines `[@DAY] CALLER COMMAND = REPLY` (where no
reply stands, `amended`). Of views there are lines `? QUERY = VIEW`, with both as terms; of refutations a line `> MOVE`, a
term, and lines `? TREE = true` or `false`.
"""
import os
import re
import subprocess
import sys

from scripts import LAYERS, LAYER_FILES, MODEL, TODAY, imports, reply, request, tree

HERE = os.path.dirname(os.path.abspath(__file__))
CRATE = os.path.join(HERE, '..', 'crates', 'sect_model')
VIEW_NAMES = {
    'Rattle.sect_command.specs.declared.view.Query.TheVariants': 'Roll Open Schedule Waiting Unmet Rows',
    'Rattle.sect_command.specs.declared.view.View.TheVariants':
        'Roll:RollOf Open:OpenOf Schedule:ScheduleOf Waiting:WaitingList Unmet:UnmetList Unknown:UnknownId',
    'Rattle.sect_command.specs.declared.reply.Reply.TheVariants': '',
}
GOOD = 'record { limits = refl; reservations = refl; together = refl; credits = refl; sound = refl }'


def topics():
    """(topic, title, [(name, comment, [(line, reply)], [(query, view)], [move])])"""
    found = []
    with open(os.path.join(HERE, 'examples.txt')) as file:
        for text in file.read().split('\n'):
            left, _, right = text[3:].partition(': ')
            if text.startswith('== '):
                found.append((left, right, []))
            elif text.startswith('-- '):
                found[-1][2].append((left, right, [], [], []))
            elif text.startswith('> '):
                found[-1][2][-1][4].append(text[2:])
            elif text.startswith('? '):
                query, _, view = text[2:].partition(' = ')
                found[-1][2][-1][3].append((query, view))
            elif text:
                line, _, answer = text.partition(' = ')
                found[-1][2][-1][2].append((line, answer or 'amended'))
    return found


def snake(name):
    return re.sub(r'(?<!^)(?=[A-Z])', '_', name).lower()


def listed(items):
    return '\n    ∷ '.join(items + ['[]'])


def statement(name, comment, lines):
    pairs = listed([f'({request(line)}, {reply(answer)})' for line, answer in lines])
    return f'-- {comment}\nabbrev pub {name} : Type 0\n{name} = Answers (\n    {pairs})\n'


def view(name, comment, lines, views, move):
    state, pairs = f'after_{snake(name)}', listed([f'({query}, {answer})' for query, answer in views])
    told = f'Looks {state}'
    if move:
        pairs = listed([f'({tree(query)}, {answer})' for query, answer in views])
        told = f'Covering {state}.world ({move[0]})'
    return (f'abbrev pub {state} : State\n{state} = state_after (\n    {listed([request(line) for line, _ in lines])})\n\n'
            f'-- {comment}\nabbrev pub {name} : Type 0\n{name} = {told} (\n    {pairs})\n')


def answers(module, function, names):
    """The answers of a function whose clauses are computed."""
    goals = '\n'.join(f'pub returns-clause-{n} : goal.returns-clause-{n}\nunfolding {" ".join(LAYERS)}\n'
                      f'returns-clause-{n} c = {proof}\n' for n, proof in names)
    layers = ''.join(f'use {m}.{{{", ".join(n.split())}}}\n' for m, n in LAYER_FILES.items())
    return ('-- the examples are computed\nuse Rattle.std.specs.Prelude.{refl}\n' + layers
            + f'use Rattle.sect_model.proofs.{module}.{function}.Goals as goal\n\n' + goals)


def ghost_use(module, names):
    """The names of a module for clauses, each on a line of its own where they would make one of more than 160 columns."""
    line = f"ghost use {module}.{{{', '.join(names)}}};"
    return line if len(line) <= 160 else f'ghost use {module}.{{\n' + ''.join(f'  {name},\n' for name in names) + '};'


def write(path, text):
    path = os.path.join(CRATE, path)
    os.makedirs(os.path.dirname(path), exist_ok=True)
    with open(path, 'w') as file:
        file.write(text)


def main():
    used, functions = [], []
    for topic, title, examples in topics():
        names, more, extra = [e[0] for e in examples], None, ''
        if topic in ('Views', 'Refutations'):
            text = '\n'.join(view(*e) for e in examples)
            extra = f'use {MODEL}.World.{{State}}\n'
        if topic == 'Refutations':
            extra += f'use {MODEL}.Step.{{enrol_move}}\n'
        elif topic == 'Views':
            text += ('\n-- the world after the chain is good\nabbrev pub GoodAfterAChain : Type 0\n'
                     'GoodAfterAChain = GoodWorld after_waiting_after_a_chain.world\n')
            names, more = names + ['GoodAfterAChain'], VIEW_NAMES
            extra += f'use {MODEL}.GoodWorld.{{GoodWorld}}\n'
        else:
            text = '\n'.join(statement(*e[:3]) for e in examples)
        write(f'specs/Examples{topic}.antt',
              f'-- Worked examples: {title[0].lower() + title[1:]}.\n{imports(text, more)}{extra}\n{text}')
        used.append(ghost_use(f'{MODEL}.Examples{topic}', names))
        clauses = '\n'.join(f'    ensures {snake(n)} {{ {n} }}' for n in names)
        functions.append(f'/// {title}.\npub fn {topic.lower()}()\n{clauses}\n{{}}\n')
        proofs = [(snake(n), GOOD if n == 'GoodAfterAChain' else 'refl') for n in names]
        write(f'proofs/examples/{topic.lower()}/Answers.antt', answers('examples', topic.lower(), proofs))
    write('src/examples.rt',
          '// Worked examples: scripts from the empty desk with what each line is answered. The functions do nothing: the\n'
          '// contract of each is its examples, which the check computes by the definitions.\n\n'
          + '\n'.join(used) + '\n\n' + '\n'.join(functions))
    subprocess.run(['rt', 'fmt'], cwd=CRATE, check=True)


def compare(folder):
    """Each example by the oracle: the lines that it answers otherwise are told."""
    sys.path.insert(0, folder)
    import app
    from journal import MemKeeper
    for _, _, examples in topics():
        for name, _, lines, _, _ in examples:
            keeper, text = MemKeeper(), ''
            for number, (line, _) in enumerate(lines):
                day, rest = line.split(' ', 1) if line[0] == '@' else ('@' + TODAY, line)
                who, command = rest.split(' ', 1)
                text += f'{day} {who} {number + 1} {command}\n'
            app.desk_main(['run'], lambda: text.encode(), lambda t: None, keeper)
            rows = [row.decode().split(' = ')[1] for row in keeper.rows]
            if len(rows) != len(lines):
                print(name, 'has a line that is none:', lines[len(rows)][0])
            for (line, answer), row in zip(lines, rows):
                if answer != row:
                    print(name, '|', line, '|', answer, '|', row)


if __name__ == '__main__':
    compare(sys.argv[2]) if sys.argv[1:2] == ['--oracle'] else main()
