"""Measures two inner functions without the checks of the operations that call them, beside plain Rust: the descent of
`find`, and the sum of `count`. Prints their two tables of docs/BENCHMARKS.md.

python3 tools/inner.py, at the root of the repository. The library exports neither function. So the crates are copied to
target/inner, and a crate `inner` that exports them is proved there; the program rust/inner links its archive. What is
proved already at the root is taken over.
"""
import os
import shutil
import subprocess

ROOT = os.path.dirname(os.path.dirname(os.path.abspath(__file__)))
COPY = os.path.join(ROOT, 'target', 'inner')
LISTED = 'inner staticlib: binomial checks counts division finding summing terms\n'
SOURCE = '''\
// Inner functions as they are, without the checks of the operations that call them: to be timed.
#![tactic(auto)]

ghost use Rattle.std.specs.Prelude.{◌≡◌, ◌≤◌, length};
ghost use Rattle.terms.specs.Rows.{rows};
ghost use Rattle.division.specs.Checks.{Ready};
ghost use Rattle.summing.specs.Sums.{Checked, Marked};

use finding::descend_table;
use summing::count_sum;
use terms::{Degree, FlatTable};

// What stands for 'no row'.
pub const NO_ROW: usize = 65535;

// The descent for a query: the row, and the number of exponents stepped on.
#[unsafe(no_mangle)]
pub extern "C" fn inner_descend(n: usize, table: &[u8], query: &[u8], steps: &mut usize) -> usize
    requires { Ready n (rows n table.now) × (length query.now ≡ n) }
{
    let descent = descend_table(FlatTable { n, bytes: table }, query);
    *steps = descent.steps;
    match descent.found {
        Ok(row) => row.0,
        Err(_) => NO_ROW,
    }
}

// The count at a degree of a table that was checked and marked.
#[unsafe(no_mangle)]
pub extern "C" fn inner_count_sum(n: usize, table: &[u8], marks: &[u8], degree: usize) -> u64
    requires { Checked n table.now × Marked n table.now marks.now × (degree ≤ 300) }
{
    count_sum(FlatTable { n, bytes: table }, marks, Degree(degree))
}
'''


def make_copy():
    """The crates with the crate `inner` beside them, and what was proved of them before."""
    shutil.rmtree(COPY, ignore_errors=True)
    shutil.copytree(os.path.join(ROOT, 'crates'), os.path.join(COPY, 'crates'), ignore=shutil.ignore_patterns('must-fail', 'out'))
    with open(os.path.join(ROOT, 'crates.txt'), encoding='utf-8') as file:
        listed = file.read()
    with open(os.path.join(COPY, 'crates.txt'), 'w', encoding='utf-8') as file:
        file.write(listed + LISTED)
    os.makedirs(os.path.join(COPY, 'crates', 'inner', 'src'))
    with open(os.path.join(COPY, 'crates', 'inner', 'src', 'lib.rt'), 'w', encoding='utf-8') as file:
        file.write(SOURCE)


def main():
    make_copy()
    crate, folder = os.path.join(COPY, 'crates', 'inner'), os.path.join(COPY, 'target', 'staticlib')
    proved = subprocess.run(['rt', 'lib'], cwd=crate, capture_output=True, text=True)
    if proved.returncode:
        raise SystemExit(proved.stdout + proved.stderr)
    os.makedirs(folder)
    shutil.copy2(os.path.join(crate, 'out', 'libinner.a'), folder)
    words = ['--release', '--offline', '--quiet', '--target-dir', os.path.join(COPY, 'rust')]
    subprocess.run(['cargo', 'run', '--manifest-path', os.path.join(ROOT, 'rust', 'inner', 'Cargo.toml'), *words], check=True)


if __name__ == '__main__':
    main()
