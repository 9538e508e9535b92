"""Row numbers, variables and degrees are counters of their own: the compiler refuses one where another is wanted.

Each edit of tests/counters is tried in a copy of the crates, and the compiler must refuse it for its types. (A must-fail edit has to
reach the prover, and these do not: so they are tried here.)
"""
import glob
import os
import re
import sys

import copies


def parts(edit):
    """The crate, the file, the old and the new text that an edit names."""
    text = copies.read(edit)
    return [re.search(rf'^{key}: (.*)$', text, re.M).group(1) for key in ('crate', 'file', 'old', 'new')]


def refused_for_types(edit, copy):
    """Tries the edit, and tells whether the compiler refuses it for a type."""
    crate, *pair = parts(edit)
    try:
        said = copy.checked(crate, [pair])
    except copies.Misfit as misfit:
        print(f'counters: {edit}: {misfit}')
        return False
    refused = 'error[mismatched-types]' in said
    first = next((line for line in said.splitlines() if 'error' in line), 'no error')
    print(f'counters: {os.path.basename(edit)}: {"refused" if refused else "NOT REFUSED"}: {first[:160]}')
    return refused


def main():
    edits = sorted(glob.glob(os.path.join(copies.ROOT, 'tests', 'counters', '*.edit')))
    with copies.Copy() as copy:
        refused = sum(refused_for_types(edit, copy) for edit in edits)
    print(f'{refused} passed, {len(edits) - refused} failed')
    sys.exit(refused != len(edits) or not edits)


if __name__ == '__main__':
    main()
