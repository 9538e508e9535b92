#!/usr/bin/env python3
"""Brings this repository's own definitions, fields and lemmas to today's spelling: python3 tools/respell.py, once, after port.py.

Types and modules are in upper camel case, everything else is in snake case, as `first_rows` for `firstRows` and `rows_flat` for `rows-flat`.
What the kit declares keeps its spelling, and so does all that stands in src/ besides clauses. A lemma that would then have the
name of a definition gets `_lem`. The names in must-fail/ and in the pages follow; an edit's clauses follow the spelling of clauses too.
"""
import glob
import os
import re

ROOT = os.path.dirname(os.path.dirname(os.path.abspath(__file__)))
NAME = re.compile(r"[^\s(){}\[\],;.:«»⌜⌝`|\"/]+")
DECLARED = re.compile(r"(?m)^\s*(?:(?:abbrev|unfoldable|pub|record|data)\s+)*([^\s(){}:.;,]+)(?:\s+\{[^}]*\}|\s+\([^)]*\))*\s*:(?!=)")
USED = re.compile(r"\buse ([\w.'+-]+)\.\{([^}]*)\}")
# Names that would fall together with a definition's: both are lemmas.
APART = {
    'complete-rows': 'complete_rows_lem', 'last-growing': 'last_growing_lem', 'share-size': 'share_size_lem', 'find-row': 'find_row_lem',
    'find-steps': 'find_steps_lem', 'inside-row': 'inside_row_lem', 'inside-out': 'inside_out_lem', 'table-text': 'table_text_lem',
    'row-at': 'row_at_lem', 'share-of': 'share_of_lem', 'first_rows': 'first_rows_lem', 'goes_on': 'goes_on_lem',
}


def read(path):
    with open(path, encoding='utf-8') as file:
        return file.read()


def write(path, text):
    if text != read(path):
        with open(path, 'w', encoding='utf-8') as file:
            file.write(text)


def snake(name):
    """A name in snake case."""
    name = re.sub(r'^([A-Z])-', lambda m: m.group(1).lower() + '-', name).replace('-', '_')
    name = re.sub(r'([a-z0-9])([A-Z])', lambda m: m.group(1) + '_' + m.group(2).lower(), name)
    return re.sub(r'_([A-Z])(?=_|$|\d)', lambda m: '_' + m.group(1).lower(), name)


def own_names():
    """From each name that specs/ and proofs/ declare in another spelling to its new one."""
    declared = set()
    for path in glob.glob('crates/*/specs/*.antt') + glob.glob('crates/*/proofs/*.antt'):
        lines = [line for line in read(path).split('\n') if not line.lstrip().startswith(('--', 'use ', 'pub use '))]
        declared |= set(DECLARED.findall('\n'.join(lines)))
    names = {name: APART.get(name, snake(name)) for name in declared if name[0].islower() or re.match(r'[A-Z]-', name)}
    return {old: new for old, new in names.items() if old != new}


def kit_names(text, crates):
    """The names that a file imports of the kit."""
    found = set()
    for module, words in USED.findall(text):
        if not (module.startswith('Rattle.') and module.split('.')[1] in crates):
            found |= {word.strip() for word in words.split(',')}
    return found


def respelled(text, names, kept):
    return NAME.sub(lambda m: names[m.group()] if m.group() in names and m.group() not in kept else m.group(), text)


def older(names):
    """The same for texts that port.py leaves, where names that it respelled still stand in their first spelling."""
    now = {name for path in glob.glob('crates/*/specs/*.antt') + glob.glob('crates/*/proofs/*.antt') for name in DECLARED.findall(read(path))}

    def word(m):
        name = m.group()
        return names.get(name) or (snake(name) if snake(name) in now else name)
    return lambda text: NAME.sub(word, text)


def in_comment(line, names):
    """A comment: words in camel case anywhere, others only between backquotes, since a dash also stands in plain English."""
    line = re.sub(r'`([^`]*)`', lambda m: '`' + respelled(m.group(1), names, ()) + '`', line)
    return respelled(line, {old: new for old, new in names.items() if re.search('[a-z][A-Z]', old)}, ())


def in_code(text, names, kept, mark):
    """A source text: each line is code, with a comment behind the mark."""
    lines = []
    for line in text.split('\n'):
        code, found, comment = line.partition(mark) if line.lstrip().startswith(mark) else (line, '', '')
        lines.append(respelled(code, names, kept) + (found + in_comment(comment, names) if found else ''))
    return '\n'.join(lines)


def clause_spelling(text):
    """The older marks of a clause, a path and a projection, as today's: for the lines of an edit."""
    text = re.sub(r'Rattle\u00b7(\w+)\u00b7(specs|proofs)\.\2\b|Rattle\u00b7(\w+)\.', lambda m: f'Rattle.{m[1]}.{m[2]}' if m[1] else f'Rattle.{m[3]}.', text)
    text = re.sub(r'\{ (?:λ [\w_]+\. )?⌜ (.*) ⌝ \}', r'{ \1 }', text)
    text = re.sub(r'\bnow \((\w+) \.entry\)', r'\1.old', text)
    text = re.sub(r'\bnow \((\w+) \.exit\)', r'\1.new', text)
    text = re.sub(r'\bnow \((\w+) \.(\w+)\)', r'\1.\2.now', text)
    text = re.sub(r'\(now (\w+)\)', r'\1.now', text)
    text = re.sub(r'(?<![.\w])now (\w+)', r'\1.now', text)
    text = re.sub(r"\(([\w']+(?: \.\w+)+)\)", lambda m: m.group(1).replace(' .', '.'), text)
    text = re.sub(r"(?<=[\w')]) \.(?=\w)", '.', text)
    return text.replace('getD', 'get_or')


def edit_lines(text, word):
    """An edit: the lines of specs/ and of proofs/, and the law that its `refused:` line names. Lines of code stay."""
    lines, antt = [], False
    for line in text.split('\n'):
        head, found, rest = line.partition(': ')
        antt = rest.endswith('.antt') if head == 'file' else antt
        if head in ('old', 'new') and found and antt:
            line = f'{head}: {word(clause_spelling(rest))}'
        elif line.startswith('refused: law '):
            line = 'refused: law ' + word(line.removeprefix('refused: law '))
        lines.append(line)
    return '\n'.join(lines)


def main():
    os.chdir(ROOT)
    crates = set(os.listdir('crates'))
    names = own_names()
    for path in sorted(glob.glob('crates/*/specs/**/*.antt', recursive=True) + glob.glob('crates/*/proofs/**/*.antt', recursive=True)):
        text = read(path)
        goals = DECLARED.findall(text) if path.endswith('/Proof.antt') else ()
        write(path, in_code(text, names, kit_names(text, crates) | set(goals), '--'))
    for path in sorted(glob.glob('crates/*/src/**/*.rt', recursive=True)):
        text = read(path)
        write(path, in_code(text, names, kit_names(text, crates), '//'))
    word = older(names)
    for path in sorted(glob.glob('crates/*/must-fail/*.edit')):
        write(path, edit_lines(read(path), word))
    for path in ['README.md'] + sorted(glob.glob('docs/*.md')):
        write(path, re.sub(r'`([^`\n]*)`', lambda m: '`' + word(m.group(1)) + '`', read(path)))


if __name__ == '__main__':
    main()
