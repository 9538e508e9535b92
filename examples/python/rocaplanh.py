"""Janet division of monomials: the archive's functions through ctypes.

The shared object is made of the archive:
    gcc -shared -o librocaplanh.so -Wl,--whole-archive libinterface.a -Wl,--no-whole-archive
The environment variable ROCAPLANH_LIBRARY names it; include/rocaplanh.h says what each function does.
A table is a list of rows, no two of them equal; a row is a sequence of n exponents.
"""

import ctypes
import functools
import os

NO_ROW = 65535
MOST_VARIABLES = 6
MOST_ROWS = 4096
LARGEST_ENTRY = 50
MOST_TABLES = 16
MOST_BUNDLE_BYTES = 65535

# The largest numbers of 16 and of 32 bits. ctypes wraps a larger one without a word.
_LARGEST_16, _LARGEST_32 = 2**16 - 1, 2**32 - 1

# The declarations, in the header's order. A slice is its bytes, or its numbers of 16 bits, and then its length.
_bytes, _size = ctypes.c_char_p, ctypes.c_size_t
_buffer, _u32 = ctypes.POINTER(ctypes.c_uint8), ctypes.c_uint32
_number, _numbers = ctypes.POINTER(ctypes.c_uint32), ctypes.POINTER(ctypes.c_uint16)
_DECLARATIONS = {
    "rocaplanh_marks": [_size, _bytes, _size, _buffer, _size],
    "rocaplanh_inside": [_size, _bytes, _size, _bytes, _size, _number],
    "rocaplanh_complete": [_size, _bytes, _size, _buffer, _size, _number],
    "rocaplanh_find": [_size, _bytes, _size, _bytes, _size, _number, _number],
    "rocaplanh_count": [_size, _bytes, _size, _u32, ctypes.POINTER(ctypes.c_uint64)],
    "rocaplanh_polynomial": [_size, _bytes, _size, _u32, ctypes.POINTER(ctypes.c_int64)],
    "rocaplanh_steady": [_size, _bytes, _size, _number],
    "rocaplanh_open": [_bytes, _size, _size, _number, _number, _number],
    "rocaplanh_write": [_size, _numbers, _size, _bytes, _size, _buffer, _size, _number],
}

# Why there is no answer, by number; and where the writer means something narrower by it.
REASONS = {
    1: "the number of variables is not 1 to 6",
    2: "a row's length is not the number of variables",
    3: "a table has more than 4,096 rows",
    4: "an entry is above 50",
    5: "the query's length, the degree or the table number is wrong",
    6: "the rows do not ascend strictly",
    7: "the table is not complete",
    8: "the completed table has more than 4,096 rows",
    9: "the bundle's size, its number of tables or its header is wrong",
    10: "an offset is not the place where that table must begin",
    11: "a body passes the bundle's end, or bytes remain after the last",
    12: "a table has two equal rows",
}
WRITER_REASONS = REASONS | {
    8: "the bundle is longer than 65,535 bytes",
    9: "the number of tables is not 1 to 16",
}


class Refusal(Exception):
    """A call that was refused; `number` is the paper's number, and `reason` says it in words."""

    def __init__(self, number, reasons=REASONS):
        self.number, self.reason = number, reasons[number]
        super().__init__(f"refused by {number}: {self.reason}")


@functools.lru_cache(maxsize=None)
def load():
    """The shared object with each function's types set; it is loaded once, at the first call of a function."""
    library = ctypes.CDLL(os.environ.get("ROCAPLANH_LIBRARY", "librocaplanh.so"))
    for name, types in _DECLARATIONS.items():
        function = getattr(library, name)
        function.argtypes, function.restype = types, ctypes.c_uint32
    return library


def _call(name, *arguments):
    """Calls a function; a number other than 0 is a refusal."""
    number = getattr(load(), name)(*arguments)
    if number:
        raise Refusal(number, WRITER_REASONS if name == "rocaplanh_write" else REASONS)


def _limited(number):
    """A number as ctypes takes it; one that would be wrapped becomes the largest, which is above every bound too."""
    return number if 0 <= number <= _LARGEST_32 else _LARGEST_32


def _flat(n, table):
    """A table's bytes, with n and the length around them as the functions take them.

    Every row has n exponents, or the table is refused by 2. The length alone would not show it: the rows (1,) and
    (2, 3, 4) have as many bytes as two rows of two. Where n itself is refused by 1, the library does that first.
    An exponent above 255 is no byte. It becomes 255, which is above 50 as well.
    """
    if 1 <= n <= MOST_VARIABLES and any(len(row) != n for row in table):
        raise Refusal(2)
    flat = bytes(min(exponent, 255) for row in table for exponent in row)
    return _limited(n), flat, len(flat)


def _row(number):
    """A row number, or None."""
    return None if number == NO_ROW else number


def marks(n, table):
    """The marks of each row."""
    buffer = (ctypes.c_uint8 * len(table))()
    _call("rocaplanh_marks", *_flat(n, table), buffer, len(table))
    return list(buffer)


def inside(n, table, query):
    """The first row that divides the query, or None."""
    row = ctypes.c_uint32()
    _call("rocaplanh_inside", *_flat(n, table), bytes(query), len(query), row)
    return _row(row.value)


def complete(n, table):
    """The rows of the completed table, ascending."""
    buffer = (ctypes.c_uint8 * (MOST_ROWS * MOST_VARIABLES))()
    count = ctypes.c_uint32()
    _call("rocaplanh_complete", *_flat(n, table), buffer, len(buffer), count)
    return [tuple(buffer[n * row : n * row + n]) for row in range(count.value)]


def find(n, table, query):
    """The Janet divisor's row, or None, and the steps of the descent."""
    row, steps = ctypes.c_uint32(), ctypes.c_uint32()
    _call("rocaplanh_find", *_flat(n, table), bytes(query), len(query), row, steps)
    return _row(row.value), steps.value


def count(n, table, degree):
    """The number of monomials of degree at most `degree` that no row divides."""
    value = ctypes.c_uint64()
    _call("rocaplanh_count", *_flat(n, table), _limited(degree), value)
    return value.value


def polynomial(n, table, degree):
    """The polynomial at `degree`."""
    value = ctypes.c_int64()
    _call("rocaplanh_polynomial", *_flat(n, table), _limited(degree), value)
    return value.value


def steady(n, table):
    """The steady degree."""
    degree = ctypes.c_uint32()
    _call("rocaplanh_steady", *_flat(n, table), degree)
    return degree.value


def open_table(bundle, table):
    """The number of variables and the rows of a table of a bundle, counted from 0."""
    n, rows, offset = ctypes.c_uint32(), ctypes.c_uint32(), ctypes.c_uint32()
    _call("rocaplanh_open", bytes(bundle), len(bundle), _limited(table), n, rows, offset)
    starts = range(offset.value, offset.value + n.value * rows.value, n.value)
    return n.value, [tuple(bundle[start : start + n.value]) for start in starts]


def open_tables(bundle):
    """The number of variables and all tables of a bundle, whose byte 1 says how many they are once it is accepted."""
    n, first = open_table(bundle, 0)
    return n, [first] + [open_table(bundle, table)[1] for table in range(1, bundle[1])]


def write_bundle(n, tables):
    """The bytes of the bundle of some tables.

    A row count is handed over in 16 bits: of a table with more than 65,535 rows only so many go, and it is refused by 3
    all the same. Where the number of tables is refused by 9 no rows go: a wrong row would be refused by 2 before that.
    """
    counts = [min(len(table), _LARGEST_16) for table in tables]
    flat = b""
    if 1 <= len(tables) <= MOST_TABLES:
        flat = b"".join(_flat(n, table)[1][: n * _LARGEST_16] for table in tables)
    buffer, length = (ctypes.c_uint8 * MOST_BUNDLE_BYTES)(), ctypes.c_uint32()
    numbers = (ctypes.c_uint16 * len(counts))(*counts)
    _call("rocaplanh_write", _limited(n), numbers, len(counts), flat, len(flat), buffer, len(buffer), length)
    return bytes(buffer[: length.value])
