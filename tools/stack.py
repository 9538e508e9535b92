"""Finds the least stack with which janet writes the same listing as with the usual one, on the largest bundles.

python3 tools/stack.py, at the root of the repository, after `tools/build janet`. For each bundle the number of KiB is found by
bisection under a limit on the stack (as `ulimit -s` sets it). Linux moves the stack's start by some KiB at random, so a
size counts only if many runs with it are right. The environment and the arguments stand on the stack too, and are empty.
"""
import os
import random
import resource
import subprocess
import sys

ROOT = os.path.dirname(os.path.dirname(os.path.abspath(__file__)))
JANET = os.path.join(ROOT, 'target', 'bin', 'janet')
USUAL = 8192
RUNS = 40


def pack(n, tables):
    """The bundle of some tables, each a list of rows."""
    entries, bodies, offset = b'', b'', 2 + 4 * len(tables)
    for rows in tables:
        body = b''.join(map(bytes, rows))
        entries += len(rows).to_bytes(2, 'little') + offset.to_bytes(2, 'little')
        bodies, offset = bodies + body, offset + len(body)
    return bytes([n, len(tables)]) + entries + bodies


def full(n, largest):
    """16 tables of random rows, no two of a table equal: as many as 65,535 bytes hold, or as there are."""
    numbers = random.Random(n)
    base = largest + 1
    rows = (65535 - 2 - 4 * 16) // n
    sizes = [min(rows // 16 + (table < rows % 16), base**n) for table in range(16)]
    drawn = [numbers.sample(range(base**n), size) for size in sizes]
    return pack(n, [[[row // base**place % base for place in range(n)] for row in table] for table in drawn])


def powers(exponents):
    """A power of each variable alone."""
    return [[exponent if place == row else 0 for place in range(len(exponents))] for row, exponent in enumerate(exponents)]


def completed_powers(exponents):
    """The completed table of powers: below the first powers, a power of the next variable."""
    if not exponents:
        return []
    first, *others = exponents
    rest = completed_powers(others)
    return [[below, *row] for below in range(first) for row in rest] + [[first] + [0] * len(others)]


def of_degree(n, degree):
    """All rows of one degree."""
    if n == 1:
        return [[degree]]
    return [[first, *row] for first in range(degree + 1) for row in of_degree(n - 1, degree - first)]


def bundles():
    """The largest bundles: full ones, and tables whose completion has 4,096 rows, given in few rows and in many."""
    for n in (1, 3, 6):
        yield from (full(n, largest) for largest in (50, 5))
    for exponents in ([15, 16, 16, 50], [7, 8, 8, 8, 50], [3, 4, 4, 4, 20, 50]):
        rows = completed_powers(exponents)
        yield from (pack(len(exponents), [table] * 2) for table in (powers(exponents), rows, rows[::-1]))
    yield pack(6, [of_degree(6, 10)] * 3)


def listing(bundle, kib):
    """What janet writes with a stack of some KiB; None where it does not end well."""
    limit = (kib * 1024, kib * 1024)
    run = subprocess.run([JANET], input=bundle, env={}, capture_output=True,
                         preexec_fn=lambda: resource.setrlimit(resource.RLIMIT_STACK, limit))
    return run.stdout if run.returncode == 0 else None


def least(bundle, expected):
    """The least number of KiB with which every run gives the expected listing."""
    too_few, enough = 0, USUAL
    while enough - too_few > 1:
        kib = (too_few + enough) // 2
        if all(listing(bundle, kib) == expected for _ in range(RUNS)):
            enough = kib
        else:
            too_few = kib
    return enough


def main():
    if not os.path.exists(JANET):
        sys.exit('stack: target/bin/janet is missing: run tools/build janet')
    print('| n | tables | bytes | table 0 | least stack |\n|---|---|---|---|---|')
    most = 0
    for bundle in bundles():
        expected = listing(bundle, USUAL)
        head = expected.decode().split('\n', 1)[0].removeprefix('T 0 ')
        rows = 'refused by 8' if head == 'R 8' else '{} to {} rows'.format(*head.split())
        kib = least(bundle, expected)
        most = max(most, kib)
        print(f'| {bundle[0]} | {bundle[1]} | {len(bundle):,} | {rows} | {kib} KiB |', flush=True)
    print(f'janet runs within {most} KiB; the usual stack of {USUAL} KiB is {USUAL / most:.0f} times that')


if __name__ == '__main__':
    main()
