"""Prints the size of each crate, in lines without blank lines and comments: code, definitions, laws, proofs of functions, edits.

python3 tools/sizes.py [LOG], at the root of the repository. With what the gate printed (./test >LOG), the seconds of the
check from nothing stand in a last column.
"""
import os
import sys

import times

ROOT = os.path.join(os.path.dirname(os.path.abspath(__file__)), '..', 'crates')


def lines(path):
    """The lines of a file that are neither blank nor a comment alone."""
    with open(path, encoding='utf-8') as file:
        return sum(1 for line in file if line.strip() and not line.strip().startswith(('--', '//')))


def kind(parts):
    """What a file of a crate is, by its place."""
    if parts[0] == 'src' and parts[-1].endswith('.rt'):
        return 'code'
    if not parts[-1].endswith('.antt'):
        return None
    if parts[0] == 'specs':
        return 'definitions'
    return 'proofs' if parts[-1] in ('Invariants.antt', 'Answers.antt') else 'laws'


def sizes(crate):
    """Lines by kind, and the number of must-fail edits."""
    found = dict.fromkeys(('code', 'definitions', 'laws', 'proofs', 'edits'), 0)
    top = os.path.join(ROOT, crate)
    for folder, _, names in os.walk(top):
        for name in names:
            parts = os.path.relpath(os.path.join(folder, name), top).split(os.sep)
            if name.endswith('.edit'):
                found['edits'] += 1
            elif kind(parts):
                found[kind(parts)] += lines(os.path.join(folder, name))
    return found


def main():
    rows = {crate: sizes(crate) for crate in sorted(os.listdir(ROOT))}
    rows['all'] = {key: sum(row[key] for row in rows.values()) for key in ('code', 'definitions', 'laws', 'proofs', 'edits')}
    heads = ['crate', 'code', 'definitions', 'laws', 'proofs of functions', 'must-fail edits']
    if len(sys.argv) > 1:
        seconds = times.proved(times.read(sys.argv[1]))
        heads.append('check')
        seconds['all'] = sum(seconds.values())
        for crate, row in rows.items():
            row['check'] = f'{seconds[crate]} s' if crate in seconds else '-'
    print('| ' + ' | '.join(heads) + ' |')
    print('|' + '---|' * len(heads))
    for crate, row in rows.items():
        print('| ' + ' | '.join([crate] + [str(value) for value in row.values()]) + ' |')


if __name__ == '__main__':
    main()
