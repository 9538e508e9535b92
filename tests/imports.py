"""Holds crates to what tests/layers.txt lets them import of those below them.

A line there is CRATE ..: OF ..: MODULE .. Each CRATE may import of each OF these modules, with all below them, and nothing
else of it. The word `functions` stands for the functions of OF: to call them, and to name their contracts. A module has the name
Rattle.OF.specs.NAME or Rattle.OF.proofs.NAME.
"""
import os
import re

LIST = 'tests/layers.txt'
CONTRACT = re.compile(r'proofs(\.[a-z_+][\w+]*)+(\.(Key|Symbol|Statement|Met|Kinds|Reads))?')


def read(path):
    with open(path, encoding='utf-8') as file:
        return file.read()


def allowed(root):
    """Each line of the list: the crates, the crates below them, and the modules."""
    lines = [line.split('#')[0].strip() for line in read(os.path.join(root, LIST)).splitlines()]
    return [[part.split() for part in line.split(':')] for line in lines if line]


def files(root, crate):
    """The files of a crate that can import: code, definitions and proofs."""
    for folder, _, names in sorted(os.walk(os.path.join(root, 'crates', crate))):
        yield from (os.path.join(folder, name) for name in sorted(names) if name.endswith(('.rt', '.antt')))


def imported(path, below):
    """The modules of a crate below that a file names; `functions` where its code names something of it."""
    text = read(path)
    names = re.findall(rf'Rattle\.{below}(?![\w])((?:\.[\w+-]+)*)', text)
    code = path.endswith('.rt') and re.search(rf'(?<![\w:]){below}::', re.sub(r'//[^\n]*', '', text))
    return [name.lstrip('.') or 'all' for name in names] + ['functions'] * bool(code)


def is_allowed(name, modules):
    return any(name == module or name.startswith(f'{module}.') for module in modules) or (
        'functions' in modules and CONTRACT.fullmatch(name) is not None)


def faults(root):
    """Each import that the list does not allow, and each crate of the list that is not there, in a line."""
    for crates, lower, modules in allowed(root):
        for crate in crates + lower:
            if not os.path.isdir(os.path.join(root, 'crates', crate)):
                yield f'{LIST} names the crate {crate}, which is not there'
        for path in (path for crate in crates for path in files(root, crate)):
            for below in lower:
                wrong = [name for name in imported(path, below) if not is_allowed(name, modules)]
                yield from (f'{os.path.relpath(path, root)} imports {name} of {below} past {LIST}' for name in wrong)
