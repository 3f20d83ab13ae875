"""Random scripts of the oracle's fuzzer, with the oracle's replies, computed by the definitions.

python3 tools/against_oracle.py ORACLE FIRST COUNT LINES [wrong]
With `wrong` the last reply is changed, and has to be refused.
"""
import re
import sys
import tempfile

from examples import statement
from trial import try_examples


def main():
    oracle, first, count, lines = sys.argv[1], int(sys.argv[2]), int(sys.argv[3]), int(sys.argv[4])
    sys.path.insert(0, oracle)
    sys.setrecursionlimit(100000)
    import app
    import fuzz
    from journal import MemKeeper
    kinds, texts, names, total = {}, [], [], 0
    for k in range(first, first + count):
        keeper = MemKeeper()
        app.desk_main(['run'], lambda: fuzz.script_bytes(k, lines, False), lambda t: None, keeper)
        rows = []
        for row in keeper.rows:
            left, right = re.sub('^2 ', '', row.decode()).split(' = ')
            day, who, _, command = left.split(' ', 3)
            rows.append((f'@{day} {who} {command}', right))
            words = right.split()
            kind = ' '.join(words[:3 if 'Row' in words else 2]) if words[0] == 'refused' else words[0]
            kinds[kind] = kinds.get(kind, 0) + 1
        if sys.argv[5:] == ['wrong'] and k == first + count - 1:
            rows[-1] = (rows[-1][0], 'dropped 4294967290')
        total += len(rows)
        names.append(f'Script{k}')
        texts.append(statement(f'Script{k}', f'script {k}', rows))
    refused, proved, said = try_examples(tempfile.mkdtemp(prefix='against_oracle_'), '\n'.join(texts), names)
    print(f'{count} scripts from {first}, {total} commands, proved {proved}, refused {refused}')
    print(' '.join(f'{kind}:{n}' for kind, n in sorted(kinds.items())))
    if not proved:
        print(said)


main()
