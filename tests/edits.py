"""Holds each must-fail edit to the place at which its own file says that it must be refused.

An edit's file has one line `refused: FUNCTION: CLAUSE` or `refused: law NAME`. The clause is `ensures`, `invariant` (of the function's
loop) or `requires of CALLEE`; what the check says first must be there. Other facts, as that an index is within or a number
stays in its type, are no clause: a program without any contract would have to meet them. A law, of which an edit of a definition is
refused by several, must be among those that are. That a proof names what the edit took away is passed over: it says nothing of a contract.

python3 tests/edits.py LOG: what `rt ci` or `rt must-fail` said. It says the first line of what was found for each edit; where that does not
tell the place, the edit is checked again, in a copy of the crates. The last line is 'N passed, M failed'.
"""
import glob
import os
import re
import sys

import copies

ROOT = copies.ROOT
NAMED = re.compile(r'^refused: (?:law (?P<law>\S+)|(?P<function>\w+): (?P<clause>ensures|invariant|requires of \w+))$', re.M)
TRIED = re.compile(r'^rt: must-fail (\w+)/(\w+)\.edit: refused, as it must be(?: \([^)]*\))?: (.*)$', re.M)
ERROR = re.compile(r'^(?:\./)?(?P<path>(?:specs|proofs)/[^\s:]+):\d+:\d+: error: `(?P<fact>[^`]+)`: (?P<message>[^\n]*(?:\n  [^\n]*)*)', re.M)
NOTE = re.compile(r'^note: (?P<path>src/[^\s:]+):(?P<line>\d+):\d+: it is not proved that [^\n]*\(`(?P<fact>[^`]+)', re.M)
NAMES = re.compile(r'\A(?:record [^\n]*(?:\n  [^\n]*)?has no field|[^\n]*(?:is not in scope|has no `|was not admitted))')
CLAUSES = (
    (re.compile(r'returns(-.+)?'), 'ensures'),
    (re.compile(r'.+-(init|preserved)(-\d+)?'), 'invariant'),
    (re.compile(r'(?P<callee>[a-z]\w*)(-.+)?-requires(-.+)?'), 'requires of {callee}'),
)


def edits(root=ROOT):
    """Each edit: CRATE/EDIT and the text of its file."""
    for path in sorted(glob.glob(os.path.join(root, 'crates/*/must-fail/*.edit'))):
        parts = path.split(os.sep)
        yield f'{parts[-3]}/{parts[-1].removesuffix(".edit")}', copies.read(path)


def named(text):
    """Where an edit's file says that it must be refused, None where it does not say so in one line."""
    found = list(NAMED.finditer(text))
    return found[0] if len(found) == 1 else None


def in_words(place):
    """The same as a page says it."""
    if place['law']:
        return f'the law `{place["law"]}`'
    clause = place['clause']
    words = {'ensures': 'its ensures', 'invariant': "its loop's invariant"}.get(clause) or f'what `{clause.removeprefix("requires of ")}` requires'
    return f'`{place["function"]}`: {words}'


def pairs(text):
    """The (file, old text, new text) of an edit."""
    path = old = None
    for line in text.split('\n'):
        head, _, rest = line.partition(': ') if ': ' in line else (line.removesuffix(':'), '', '')
        if head == 'file':
            path = rest.strip()
        elif head == 'old':
            old = rest
        elif head == 'new':
            yield path, old, rest


def clause_of(fact):
    """The clause that a fact of a function's proof stands for, None for any other fact."""
    for pattern, clause in CLAUSES:
        found = pattern.fullmatch(fact)
        if found:
            return clause.format(**found.groupdict())
    return None


def functions(crate):
    """The functions of a crate."""
    return {name for path in glob.glob(os.path.join(ROOT, 'crates', crate, 'src', '**', '*.rt'), recursive=True)
            for name in re.findall(r'\bfn (\w+)', copies.read(path))}


def function_at(crate, path, line):
    """The function of the line: the last that begins at or before it, with its attributes. An edit is one line for one line."""
    lines = copies.read(os.path.join(ROOT, 'crates', crate, path)).split('\n')
    while lines[line - 1].lstrip().startswith('#['):
        line += 1
    return next((found.group(1) for found in (re.search(r'\bfn (\w+)', text) for text in reversed(lines[:line])) if found), '')


def place_of(crate, function, fact):
    """(function, clause). Of functions in a cycle, which share a folder, a fact begins with the function's name."""
    own = next((name for name in functions(crate) if fact.startswith(f'{name}-')), '') if function.startswith('+') else ''
    return own or function.lstrip('+'), clause_of(fact.removeprefix(f'{own}-') if own else fact)


def refused_at(crate, said):
    """The first place (function, clause), in the order of what was said, None where there is none; and the laws that do not hold."""
    first, laws = [], set()
    for found in ERROR.finditer(said):
        if NAMES.search(found['message']):
            continue
        if found['path'].endswith('/Answers.antt') or found['path'].endswith('/Invariants.antt'):
            first.append((found.start(), place_of(crate, found['path'].split('/')[-2], found['fact'])))
        else:
            laws.add(found['fact'])
    for found in NOTE.finditer(said):
        function = function_at(crate, found['path'], int(found['line']))
        first.append((found.start(), place_of(crate, function, found['fact'].removeprefix(f'{function}-'))))
    return min(first)[1] if first else None, laws


def fault(name, text, tried, copy):
    """What is wrong with an edit, None where it was refused as it says."""
    place = named(text)
    if place is None:
        return 'does not say in one line where it must be refused'
    if name not in tried:
        return 'was not tried, or not refused'
    crate = name.split('/')[0]
    wanted = place['law'] or (place['function'], place['clause'])

    def is_there(first, laws):
        return wanted in laws if place['law'] else first == wanted
    first, laws = refused_at(crate, tried[name])
    if is_there(first, laws):
        return None
    print(f'edits: {name}: checked again', flush=True)
    try:
        first, laws = refused_at(crate, copy.checked(crate, list(pairs(text))))
    except copies.Misfit as misfit:
        return str(misfit)
    return None if is_there(first, laws) else f'says {wanted}, and is refused at {first}, by the laws {sorted(laws)}'


def main():
    tried = {f'{crate}/{edit}': said for crate, edit, said in TRIED.findall(copies.read(sys.argv[1]))}
    passed = failed = 0
    with copies.Copy() as copy:
        for name, text in edits():
            wrong = fault(name, text, tried, copy)
            if wrong:
                print(f'{name} {wrong}')
            failed += bool(wrong)
            passed += not wrong
    print(f'{passed} passed, {failed} failed')
    sys.exit(failed > 0 or passed == 0)


if __name__ == '__main__':
    main()
