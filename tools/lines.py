"""Sets the line numbers in docs/ARCHITECTURE.md right: of each `name` `path:line`, the line where the name is defined.

python3 tools/lines.py, at the root of the repository. The gate holds each such line to its name (tests/pages.py).
"""
import os
import re
import sys

ROOT = os.path.join(os.path.dirname(os.path.abspath(__file__)), '..')
PAGE = os.path.join(ROOT, 'docs', 'ARCHITECTURE.md')
sys.path.insert(0, os.path.join(ROOT, 'tests'))
import pages  # noqa: E402


def defined(path, name):
    """The first line of a file that defines the name."""
    pattern = pages.definition(name)
    with open(os.path.join(ROOT, path), encoding='utf-8') as file:
        for number, line in enumerate(file, 1):
            if pattern.search(line):
                return number
    raise SystemExit(f'{path} does not define {name}')


def main():
    with open(PAGE, encoding='utf-8') as file:
        text = file.read()
    text = re.sub(r'`([^`\s]+)` `([^`\s:]+):\d+`', lambda found: f'`{found[1]}` `{found[2]}:{defined(found[2], found[1])}`', text)
    with open(PAGE, 'w', encoding='utf-8') as file:
        file.write(text)


if __name__ == '__main__':
    main()
