"""Draws the cones of a two-variable table: reads what janet writes on standard input, writes a picture (SVG) on standard output.

target/bin/janet <crates/janet/stdin | python3 tools/cones.py >docs/cones.svg
"""
import sys

CELL = 44
EDGE = 40
COLOURS = ('#4477aa', '#66aa55', '#cc6677', '#aa7744', '#7755aa', '#338899')


def completed_rows(lines):
    """The rows of the first table, each with its exponents and the variables that are marked."""
    rows = []
    for line in lines:
        if line.startswith('T ') and rows or line.startswith('S '):
            break
        if ' : ' in line:
            exponents, marks = line.split(' : ')
            rows.append((tuple(map(int, exponents.split())), [bool(int(marks) >> bit & 1) for bit in range(2)]))
    return rows


def holds(row, monomial):
    """Whether the monomial is in the row's cone."""
    exponents, marked = row
    return all(m == e or (m > e and free) for e, m, free in zip(exponents, monomial, marked))


def place(x, y, size):
    return EDGE + x * CELL + CELL // 2, EDGE + (size - 1 - y) * CELL + CELL // 2


def drawing(rows):
    size = max(max(exponents) for exponents, _ in rows) + 4
    width = 2 * EDGE + size * CELL
    yield f'<svg xmlns="http://www.w3.org/2000/svg" width="{width}" height="{width}" font-family="sans-serif" font-size="14">'
    yield f'<rect width="{width}" height="{width}" fill="white"/>'
    for x in range(size):
        for y in range(size):
            cx, cy = place(x, y, size)
            owners = [number for number, row in enumerate(rows) if holds(row, (x, y))]
            if owners:
                colour = COLOURS[owners[0] % len(COLOURS)]
                yield f'<rect x="{cx - CELL // 2 + 2}" y="{cy - CELL // 2 + 2}" width="{CELL - 4}" height="{CELL - 4}" rx="6" fill="{colour}" opacity="0.35"/>'
            if (x, y) in [exponents for exponents, _ in rows]:
                yield f'<circle cx="{cx}" cy="{cy}" r="9" fill="{COLOURS[owners[0] % len(COLOURS)]}"/>'
            elif not owners:
                yield f'<circle cx="{cx}" cy="{cy}" r="6" fill="none" stroke="black"/>'
    for k in range(size):
        x, y = place(k, 0, size)
        yield f'<text x="{x}" y="{y + CELL - 4}" text-anchor="middle">{k}</text>'
        x, y = place(0, k, size)
        yield f'<text x="{x - CELL + 6}" y="{y + 5}" text-anchor="middle">{k}</text>'
    yield f'<text x="{width // 2}" y="{width - 4}" text-anchor="middle">exponent of variable 1</text>'
    yield f'<text x="14" y="{width // 2}" text-anchor="middle" transform="rotate(-90 14 {width // 2})">exponent of variable 2</text>'
    yield '</svg>'


def main():
    rows = completed_rows(sys.stdin.read().splitlines())
    if not rows or any(len(exponents) != 2 for exponents, _ in rows):
        sys.exit('cones: the first table has no rows of two variables')
    print('\n'.join(drawing(rows)))


if __name__ == '__main__':
    main()
