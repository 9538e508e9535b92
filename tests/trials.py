"""Tries the gate itself: a small copy of the repository passes it, and each of these faults makes it fail.

Run by hand after a change of the gate: python3 tests/trials.py (some minutes). It is no part of the gate.
"""
import os
import shutil
import subprocess
import sys
import tempfile

ROOT = os.path.dirname(os.path.dirname(os.path.abspath(__file__)))
SOURCE = 'crates/terms/src/lib.rt'
EDIT = 'crates/checks/must-fail/last_check_that_holds.edit'
CRATES = ('checks', 'terms', 'ordering', 'distinct', 'refusals')


def copy(folder):
    """The gate with a few crates alone, and of their must-fail edits one. In place of the comparisons, which need all crates,
    stands a line, and in place of the list of layers one for these crates."""
    for name in ('test', 'tests', '.ci', '.gitignore'):
        source = os.path.join(ROOT, name)
        (shutil.copytree if os.path.isdir(source) else shutil.copy2)(source, os.path.join(folder, name))
    for crate in CRATES:
        shutil.copytree(os.path.join(ROOT, 'crates', crate), os.path.join(folder, 'crates', crate), ignore=shutil.ignore_patterns('must-fail', 'out'))
    write(folder, EDIT, read(ROOT, EDIT))
    write(folder, 'crates.txt', ''.join(line for line in read(ROOT, 'crates.txt').splitlines(True) if line.split(':')[0] in CRATES))
    for edit in os.listdir(os.path.join(folder, 'tests', 'counters')):
        if not read(folder, f'tests/counters/{edit}').startswith('crate: terms'):
            os.remove(os.path.join(folder, 'tests', 'counters', edit))
    write(folder, 'docs/PROMISES.md', f'| `table_refusal` | `{SOURCE}` |\n')
    write(folder, 'tests/comparisons', 'echo 1 passed, 0 failed\n')
    write(folder, 'tests/layers.txt', 'terms: checks: specs proofs\n')


def read(folder, path):
    with open(os.path.join(folder, path), encoding='utf-8') as file:
        return file.read()


def write(folder, path, text):
    os.makedirs(os.path.dirname(os.path.join(folder, path)), exist_ok=True)
    with open(os.path.join(folder, path), 'w', encoding='utf-8') as file:
        file.write(text)


def edit(folder, path, old, new):
    text = read(folder, path)
    assert old in text, (path, old)
    write(folder, path, text.replace(old, new, 1))


FAULTS = {
    'an unlisted crate': lambda folder: write(folder, 'crates/other/src/lib.rt', '// Nothing.\n'),
    'a function that is not proved': lambda folder: edit(folder, SOURCE, 'return Variable(i + 1);', 'return Variable(i + 2);'),
    'a wrong expected output': lambda folder: edit(folder, 'crates/refusals/stdout', '1\n', '2\n'),
    'a surviving must-fail edit': lambda folder: write(
        folder, 'crates/terms/must-fail/comment.edit', 'file: src/lib.rt\nold: // A total degree.\nnew: // A degree.\n'),
    'an edit that cannot be tried': lambda folder: write(
        folder, 'crates/terms/must-fail/nowhere.edit', 'refused: divides: ensures\nfile: src/lib.rt\nold: what does not stand there\nnew: nothing\n'),
    'an edit that is refused elsewhere': lambda folder: edit(folder, EDIT, 'refused: law first_check', 'refused: law refusal_holds'),
    'an edit that names no place': lambda folder: edit(folder, EDIT, 'refused: law first_check', ''),
    'a page that names another place': lambda folder: write(
        folder, 'docs/GUIDE.md', '| an edit | `checks/last_check_that_holds` | the law `refusal_holds` |\n'),
    'a public function without ensures': lambda folder: edit(folder, SOURCE, '// A total degree.', 'pub fn one() -> u8 {\n    1\n}\n\n// A total degree.'),
    'a requires on a public operation': lambda folder: edit(
        folder, SOURCE, '    ensures { result ≡ refusal (table_checks', '    requires { n ≤ 6 }\n    ensures { result ≡ refusal (table_checks'),
    'a public operation that is not there': lambda folder: edit(folder, 'docs/PROMISES.md', 'lib.rt', 'other.rt'),
    'a page that names what is not there': lambda folder: write(folder, 'docs/GUIDE.md', 'Read `terms/specs/Nothing`.\n'),
    'a page that names a line of another thing': lambda folder: write(folder, 'docs/GUIDE.md', f'Read `table_refusal` `{SOURCE}:1`.\n'),
    'an import past the layers': lambda folder: write(folder, 'tests/layers.txt', 'terms: checks: specs\n'),
    'a layer that is not there': lambda folder: write(folder, 'tests/layers.txt', 'counting: division: proofs.Facade\n'),
    'comparisons that differ': lambda folder: write(folder, 'tests/comparisons', 'echo 1 passed, 1 failed\nexit 1\n'),
    'comparisons that compare nothing': lambda folder: write(folder, 'tests/comparisons', 'echo 0 passed, 0 failed\n'),
    'a counter that is exchanged': lambda folder: edit(folder, 'tests/counters/row_number_for_a_variable.edit', 'new:     RowNumber(0)', 'new:     Variable(0)'),
}


def last_line(folder):
    run = subprocess.run(['bash', '.ci/run'], cwd=folder, capture_output=True, text=True)
    return run.returncode, (run.stdout.strip().splitlines() or [''])[-1]


def main():
    wrong = 0
    for name, fault in [('no fault', None), *FAULTS.items()]:
        with tempfile.TemporaryDirectory() as folder:
            copy(folder)
            if fault:
                fault(folder)
            status, closing = last_line(folder)
        right = (status == 0) == (fault is None) and closing.endswith(', 0 failed') == (fault is None)
        wrong += not right
        print(f'{"right" if right else "WRONG"}: {name}: status {status}, {closing!r}', flush=True)
    sys.exit(wrong != 0)


if __name__ == '__main__':
    main()
