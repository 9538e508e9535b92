"""Sets right where each must-fail edit is refused, in the tables of docs/PROMISES.md: the last cell of a line that names an edit.

python3 tools/facts.py, at the root of the repository. It reads the line `refused:` of the edit's own file, to which the gate holds
the prover's log (tests/edits.py); the gate also holds the page to it (tests/pages.py).
"""
import os
import sys

ROOT = os.path.join(os.path.dirname(os.path.abspath(__file__)), '..')
PAGE = os.path.join(ROOT, 'docs', 'PROMISES.md')
sys.path.insert(0, os.path.join(ROOT, 'tests'))
import edits  # noqa: E402
import pages  # noqa: E402


def main():
    places = {name: edits.named(text) for name, text in edits.edits(ROOT)}
    with open(PAGE, encoding='utf-8') as file:
        lines = file.read().split('\n')
    for number, line in enumerate(lines):
        row = pages.EDIT_ROW.fullmatch(line)
        if row and places.get(row['edit']):
            lines[number] = f'{row["before"]}{edits.in_words(places[row["edit"]])} |'
    with open(PAGE, 'w', encoding='utf-8') as file:
        file.write('\n'.join(lines))


if __name__ == '__main__':
    main()
