#!/usr/bin/env python3
"""Writes the constant table of binomials (rule 10) twice from one list: the table of crates/binomial/src/table.rt, and the list
`numbers` of crates/binomial/proofs/Numbers.antt, which the proofs speak of. Entry top * 7 + bottom, tops 0 to 306, bottoms 0 to 6.
Nothing trusts this script: the check proves Pascal's rule of `numbers`, and that the table is that list. Run it at the root."""

TOPS, BOTTOMS = 307, 7

above = [1] + [0] * (BOTTOMS - 1)
rows = [above]
for top in range(1, TOPS):
    above = [1] + [above[bottom - 1] + above[bottom] for bottom in range(1, BOTTOMS)]
    rows.append(above)
entries = [entry for row in rows for entry in row]

with open('crates/binomial/src/table.rt', 'w', encoding='utf-8') as out:
    out.write('// The binomials of rule 10: entry top * 7 + bottom, tops 0 to 306, bottoms 0 to 6. Written by tools/binomials.py.\n')
    out.write('pub const BINOMIALS: [u64; %d] = [\n' % len(entries))
    out.write(''.join('    %d,\n' % entry for entry in entries))
    out.write('];\n')

with open('crates/binomial/proofs/Numbers.antt', 'w', encoding='utf-8') as out:
    out.write('-- The binomials of rule 10 as a list: entry top * 7 + bottom, tops 0 to 306, bottoms 0 to 6. Written by tools/binomials.py.\n')
    out.write('--\n--   numbers          the entries of the constant table, in order\n')
    out.write('use mathlib.Core.List.{List, [], ◌∷◌}\nuse Prim.Native.Nat.{ℕ}\n\n')
    out.write('unfoldable pub numbers : List ℕ\nnumbers =\n')
    out.write(''.join('    %s\n' % ' '.join('%d ∷' % entry for entry in row) for row in rows))
    out.write('    []\n')
