"""What the pages name must be there: files, lines, must-fail edits, definitions, laws and functions.

Where a line of a table names a must-fail edit in its last cell but one, the last says where that edit is refused, as the edit's own file does.

A word in backquotes with a slash is a file, or CRATE/EDIT. Words in parentheses behind a file stand in that file. One that ends in a colon and a
number is a line, and that line defines the word in backquotes before it. Any other single word occurs in the repository's own files.
Commands, formulas and blocks of code are passed over, and so are names with a part in capitals, which stand for any; and
docs/CHANGES.md, which names what was there.
"""
import glob
import os
import re

import edits

WORD = re.compile(r"[\w'?!-]+")
QUOTED = re.compile(r'`([^`]+)`')
PATH = re.compile(r'[\w.+*-]+(?:/[\w.+*-]+)+/?')
LINE = re.compile(r'([\w./+-]+):(\d+)')
EDIT_ROW = re.compile(r'(?P<before>\|.*\| `(?P<edit>\w+/\w+)` \| )(?P<words>.*) \|')
HISTORY = 'docs/CHANGES.md'
FOLDERS = ('crates', 'rust', 'tests', 'tools', 'include', 'examples', '.ci')
SUFFIXES = ('.rt', '.antt', '.rs', '.py', '.h', '.c', '.sh', '.edit', '.toml', '')


def words(path):
    with open(path, encoding='utf-8', errors='replace') as file:
        return set(WORD.findall(file.read()))


def known_words(root):
    """Every word of the repository's files beside its pages, and of their paths."""
    found = set()
    for top in FOLDERS:
        for folder, folders, names in os.walk(os.path.join(root, top)):
            folders[:] = [name for name in folders if name != 'target']
            found.update(WORD.findall(os.path.relpath(folder, root)))
            for name in names:
                found.update(WORD.findall(os.path.splitext(name)[0]))
                if os.path.splitext(name)[1] in SUFFIXES:
                    found.update(words(os.path.join(folder, name)))
    return found


def place(root, name):
    """The file or folder that a name with a slash means, None where there is none."""
    crate, _, rest = name.partition('/')
    for path in (name, f'crates/{name}', f'crates/{name}.antt', f'crates/{crate}/must-fail/{rest}.edit'):
        found = glob.glob(os.path.join(root, path))
        if found:
            return found[0]
    return None


def stands_for_any(name):
    return name.startswith('target/') or any(part.isupper() for part in re.split(r'[/.]', name))


def definition(name):
    """What a line looks like that defines the name: its keyword, or its type."""
    word = re.escape(name)
    return re.compile(rf'\b(?:fn|struct|enum|const|record) {word}(?![\w-])|^\s*(?:(?:abbrev|unfoldable|pub) )*{word} :')


def line_defines(root, path, number, before):
    """Whether a line is there, and defines the word before it if there is one."""
    file = os.path.join(root, path)
    if not os.path.isfile(file):
        return False
    with open(file, encoding='utf-8') as text:
        lines = text.read().splitlines()
    return number <= len(lines) and (not WORD.fullmatch(before) or bool(definition(before).search(lines[number - 1])))


def missing(root, line, known):
    """What a line of a page names and is not there."""
    tokens = QUOTED.findall(line)
    for before, token in zip(['', *tokens], tokens):
        numbered = LINE.fullmatch(token)
        if numbered:
            right = line_defines(root, numbered.group(1), int(numbered.group(2)), before)
        elif PATH.fullmatch(token):
            right = stands_for_any(token) or place(root, token)
        else:
            right = not WORD.fullmatch(token) or len(token) == 1 or token in known
        if not right:
            yield token
    for path, inner in re.findall(r'`([^`]+/[^`]+)` \(([^)]*)\)', line):
        file = place(root, path)
        if file and os.path.isfile(file):
            yield from (name for name in QUOTED.findall(inner) if WORD.fullmatch(name) and name not in words(file))


def misplaced(line, places):
    """An edit that a line says to be refused elsewhere than its own file does."""
    row = EDIT_ROW.fullmatch(line)
    if row and places.get(row['edit']) and row['words'] != edits.in_words(places[row['edit']]):
        yield row['edit']


def faults(root):
    """Each fault of each page, in a line."""
    known = known_words(root)
    places = {name: edits.named(text) for name, text in edits.edits(root)}
    for page in ['README.md', *sorted(os.path.join('docs', name) for name in os.listdir(os.path.join(root, 'docs')) if name.endswith('.md'))]:
        if page == HISTORY or not os.path.isfile(os.path.join(root, page)):
            continue
        with open(os.path.join(root, page), encoding='utf-8') as text:
            for number, line in enumerate(text.read().splitlines(), 1):
                if not line.startswith('    '):
                    yield from (f'{page}:{number}: {name} is not there' for name in missing(root, line, known))
                    yield from (f'{page}:{number}: {name} is refused elsewhere (tools/facts.py)' for name in misplaced(line, places))
