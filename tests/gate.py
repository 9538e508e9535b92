"""The gate. Each step fails for a reason of its own; the last line is 'N passed, 0 failed' and nothing follows it.

N is the number of `rt ci`, the edits that were refused where they must be, the edits that the compiler must refuse, and each
comparison that was made.
"""
import os
import re
import subprocess
import sys
import time

import imports
import pages

ROOT = os.path.dirname(os.path.dirname(os.path.abspath(__file__)))
CLOSING = re.compile(r'(\d+) passed, 0 failed')
BAD_EDITS = re.compile(r'^rt: ok\b.*, (\d+) bad\b')
LOG = os.path.join(ROOT, 'target', 'rt-ci.log')


class Fault(Exception):
    """What the gate found wrong, in a line."""


def read(path):
    with open(os.path.join(ROOT, path), encoding='utf-8') as file:
        return file.read()


def rattle_files():
    """Each source file of Rattle below crates/."""
    for folder, _, names in sorted(os.walk(os.path.join(ROOT, 'crates'))):
        for name in sorted(names):
            if name.endswith('.rt'):
                yield os.path.relpath(os.path.join(folder, name), ROOT)


def functions(path):
    """The functions of a source file: (name, whether it is public, its clauses: what stands between its result and its body)."""
    text = re.sub(r'//[^\n]*', '', read(path))
    for found in re.finditer(r'^[ \t]*(pub )?(?:extern "C" )?fn (\w+)', text, re.M):
        depth, at = 0, text.index('(', found.end())
        while True:
            depth += {'(': 1, ')': -1}.get(text[at], 0)
            at += 1
            if depth == 0:
                break
        line = text[at:text.index('\n', at)]
        body = re.compile(r'^[ \t]*\{', re.M).search(text, at)
        yield found.group(2), bool(found.group(1)), '' if '{' in line or not body else text[at:body.start()]


def listed_crates():
    """Each crate under crates/ is listed, and each listed crate is there."""
    lines = [line.split('#')[0].strip() for line in read('crates.txt').splitlines()]
    listed = {line.split(':')[0].split()[0] for line in lines if line}
    present = {name for name in os.listdir(os.path.join(ROOT, 'crates')) if os.path.isdir(os.path.join(ROOT, 'crates', name))}
    if listed != present:
        raise Fault(f'crates.txt and crates/ differ: {sorted(listed ^ present)}')


def contracts():
    """Each public function says what it ensures."""
    for path in rattle_files():
        for name, public, clauses in functions(path):
            if public and 'ensures' not in clauses:
                raise Fault(f'{path}: pub fn {name} has no ensures')


def public_operations():
    """The operations that docs/PROMISES.md lists as public: lines `| name | file |` with both in backquotes."""
    return re.findall(r'^\| `(\w+)` \| `(crates/[\w/.]+\.rt)` \|', read('docs/PROMISES.md'), re.M)


def unconditional():
    """A public operation presumes nothing of its caller, and each exported function is listed as one."""
    listed = {name for name, _ in public_operations()}
    exported = {name for path in rattle_files() for name in re.findall(r'extern "C" fn (\w+)', read(path))}
    if not listed or exported - listed:
        raise Fault(f'docs/PROMISES.md lists {len(listed)} operations and lacks {sorted(exported - listed)}')
    for name, path in public_operations():
        there = os.path.isfile(os.path.join(ROOT, path))
        found = {function: clauses for function, _, clauses in functions(path)} if there else {}
        if name not in found:
            raise Fault(f'docs/PROMISES.md lists {name} of {path}, which is not there')
        if 'requires' in found[name]:
            raise Fault(f'{path}: the public operation {name} has a requires')


def layers():
    """No crate imports of those below it more than tests/layers.txt allows."""
    for fault in imports.faults(ROOT):
        raise Fault(fault)


def true_pages():
    """What the pages name is there."""
    for fault in pages.faults(ROOT):
        raise Fault(fault)


def closing_number(command, log=None):
    """Runs a command that ends in 'N passed, 0 failed', passes its lines on, and gives N. An edit that could not be tried is a fault.
    What it prints also goes into the log, if there is one."""
    run = subprocess.Popen(command, cwd=ROOT, stdout=subprocess.PIPE, stderr=subprocess.STDOUT, text=True)
    last, lines = '', []
    for line in run.stdout:
        last = line.rstrip('\n') or last
        lines.append(line)
        if not CLOSING.fullmatch(last):
            print(line, end='', flush=True)
    if log:
        os.makedirs(os.path.dirname(log), exist_ok=True)
        with open(log, 'w', encoding='utf-8') as file:
            file.writelines(lines)
    if run.wait():
        raise Fault(f'{" ".join(command)} ended with status {run.returncode}')
    for bad in filter(None, map(BAD_EDITS.match, lines)):
        raise Fault(f'{" ".join(command)}: {bad.group(1)} must-fail edits could not be tried')
    closing = CLOSING.fullmatch(last)
    if not closing or int(closing.group(1)) == 0:
        raise Fault(f'{" ".join(command)} closed with {last!r}')
    return int(closing.group(1))


STEPS = (listed_crates, contracts, unconditional, layers, true_pages)
PARTS = (
    ('rt ci', 'proves every crate, tries the edits that must fail, runs the programs', ['rt', 'ci'], LOG),
    ('edits', 'holds each edit that must fail to the place at which its file says so', [sys.executable, 'tests/edits.py', LOG], None),
    ('counters', 'tries edits that exchange one counter for another', [sys.executable, 'tests/counters.py'], None),
    ('comparisons', 'builds and compares with the second program, runs the examples', ['bash', 'tests/comparisons'], None),
)


def main():
    passed = 0
    try:
        for step in STEPS:
            step()
            print(f'gate: {step.__name__}: holds', flush=True)
        for name, what, command, log in PARTS:
            print(f'gate: {name} begins: {what}', flush=True)
            begun = time.monotonic()
            number = closing_number(command, log)
            print(f'gate: {name}: {number} passed ({time.monotonic() - begun:.0f} s)', flush=True)
            passed += number
    except (Fault, OSError) as fault:
        print(f'gate: {fault}')
        print(f'{passed} passed, 1 failed')
        sys.exit(1)
    print(f'{passed} passed, 0 failed')


if __name__ == '__main__':
    main()
