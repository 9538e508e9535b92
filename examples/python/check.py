"""Each function of rocaplanh.py, on the paper's examples; the writer's refusals, equal rows, rows of a wrong length."""

import itertools

import rocaplanh

LISTED = [(2, 1), (0, 2)]
COMPLETED = [(0, 2), (1, 2), (2, 1)]
E = [(1, 0), (1, 0)]
F = [(0, 0, 2), (0, 1, 1), (0, 2, 0), (1, 0, 1), (3, 1, 0)]
BUNDLE = bytes([2, 1, 2, 0, 6, 0, 2, 1, 0, 2])
TWO_TABLES = bytes([2, 2, 2, 0, 10, 0, 1, 0, 14, 0, 2, 1, 0, 2, 50, 0])
RAGGED = [(1,), (2, 3, 4)]

# All 2,601 rows of two exponents, and 4,096 rows of three.
PAIRS = list(itertools.product(range(51), repeat=2))
TRIPLES = list(itertools.product(range(35, 51), repeat=3))


def refusal(function, *arguments):
    """The number by which a call is refused, 0 if it is answered."""
    try:
        function(*arguments)
    except rocaplanh.Refusal as refused:
        assert str(refused) == f"refused by {refused.number}: {refused.reason}"
        return refused.number
    return 0


def reason(function, *arguments):
    """The reason why a call is refused."""
    try:
        function(*arguments)
    except rocaplanh.Refusal as refused:
        return refused.reason
    return None


def check_tables():
    """The functions of one table."""
    assert rocaplanh.complete(2, LISTED) == COMPLETED
    assert rocaplanh.marks(3, F) == [4, 4, 6, 6, 7]
    assert rocaplanh.inside(2, LISTED, (1, 2)) == 1
    assert rocaplanh.inside(2, LISTED, (1, 1)) is None
    assert rocaplanh.find(3, F, (1, 2, 5)) == (3, 4)
    assert rocaplanh.find(3, F, (2, 0, 1)) == (None, 2)
    assert rocaplanh.count(2, COMPLETED, 3) == 6
    assert rocaplanh.polynomial(2, COMPLETED, 0) == 3
    assert rocaplanh.steady(2, COMPLETED) == 3
    assert refusal(rocaplanh.steady, 3, F) == 7
    assert refusal(rocaplanh.complete, 7, []) == 1


def check_opening():
    """A bundle's tables, one and all."""
    assert rocaplanh.open_table(BUNDLE, 0) == (2, LISTED)
    assert rocaplanh.open_tables(BUNDLE) == (2, [LISTED])
    assert rocaplanh.open_tables(TWO_TABLES) == (2, [LISTED, [(50, 0)]])
    assert refusal(rocaplanh.open_table, BUNDLE, 1) == 5
    assert refusal(rocaplanh.open_tables, BUNDLE[:-1]) == 11
    assert refusal(rocaplanh.open_tables, b"") == 9


def check_writing():
    """Bundles that are written, and read again: both ways round."""
    assert rocaplanh.write_bundle(2, [LISTED]) == BUNDLE
    assert rocaplanh.write_bundle(2, [LISTED, [(50, 0)]]) == TWO_TABLES
    assert rocaplanh.write_bundle(6, [[]]) == bytes([6, 1, 0, 0, 6, 0])
    for bundle in (BUNDLE, TWO_TABLES, bytes([6, 1, 0, 0, 6, 0])):
        assert rocaplanh.write_bundle(*rocaplanh.open_tables(bundle)) == bundle
    for n, tables in ((3, [F]), (3, [[], F, [], F]), (1, [[]] * 16), (2, [PAIRS]), (3, [TRIPLES] * 5)):
        assert rocaplanh.open_tables(rocaplanh.write_bundle(n, tables)) == (n, tables)


def check_refused_writing():
    """Each refusal of the writer, at its limit and before those that come after it."""
    full = [[]] * 3 + [PAIRS] * 12
    long_table = [(0, 51)] * 4097
    assert len(rocaplanh.write_bundle(3, [[]] * 10 + [TRIPLES] * 5 + [TRIPLES[:1343]])) == 65535
    assert len(rocaplanh.write_bundle(2, full + [PAIRS[:1522]])) == 65534
    assert refusal(rocaplanh.write_bundle, 2, full + [PAIRS[:1523]]) == 8
    assert refusal(rocaplanh.write_bundle, 2, full + [PAIRS[:1523] + PAIRS[:1]]) == 12
    assert refusal(rocaplanh.write_bundle, 2, full + [PAIRS + E + [(51, 0)]]) == 4
    assert refusal(rocaplanh.write_bundle, 2, [LISTED, [(0, 256)]]) == 4
    assert refusal(rocaplanh.write_bundle, 2, [LISTED, long_table]) == 3
    assert refusal(rocaplanh.write_bundle, 2, [[(0, 0)] * (65536 + 2)]) == 3
    assert refusal(rocaplanh.write_bundle, 2, [[(0, 0)] * (65536 + 2) + [(0,)]]) == 2
    assert refusal(rocaplanh.write_bundle, 2, [long_table, RAGGED]) == 2
    assert refusal(rocaplanh.write_bundle, 2, [RAGGED] * 17) == 9
    assert refusal(rocaplanh.write_bundle, 2, []) == 9
    for n in (-1, 0, 7, 2**64 + 2):
        assert refusal(rocaplanh.write_bundle, n, []) == 1
        assert refusal(rocaplanh.write_bundle, n, [LISTED]) == 1


def check_equal_rows():
    """Equal rows in a table are refused by 12, be they neighbours or not; where rows must ascend, by 6."""
    for n, table in ((2, E), (2, [(2, 0), (1, 2), (2, 0)]), (3, TRIPLES[1:] + TRIPLES[1:2])):
        for query in ((50,) * n, (50,) * (n + 1)):
            assert refusal(rocaplanh.inside, n, table, query) == 12
        assert refusal(rocaplanh.marks, n, table) == refusal(rocaplanh.complete, n, table) == 12
        assert refusal(rocaplanh.find, n, table, (50,) * n) == refusal(rocaplanh.steady, n, table) == 6
        assert refusal(rocaplanh.count, n, table, 0) == refusal(rocaplanh.polynomial, n, table, 0) == 6
        assert refusal(rocaplanh.write_bundle, n, [table]) == refusal(rocaplanh.write_bundle, n, [[], table, []]) == 12
    powers = [(50, 0, 0, 0), (0, 50, 0, 0), (0, 0, 50, 0), (0, 0, 0, 50)]
    assert refusal(rocaplanh.complete, 4, powers) == 8
    assert refusal(rocaplanh.complete, 4, powers + powers[:1]) == 12


def check_before_equal_rows():
    """What is tried before 12."""
    first = [(1, 7, E), (2, 2, E + [(0,)]), (3, 2, E * 2049), (4, 2, E + [(0, 51)]), (4, 1, [(51,), (51,)])]
    for number, n, table in first:
        assert refusal(rocaplanh.marks, n, table) == refusal(rocaplanh.complete, n, table) == number
        assert refusal(rocaplanh.inside, n, table, ()) == refusal(rocaplanh.write_bundle, n, [table]) == number


def check_equal_rows_in_bundles():
    """Equal rows of any one table refuse a bundle, whichever table is asked for. Two tables may have the same row."""
    last = bytes([2, 2, 2, 0, 10, 0, 2, 0, 14, 0, 2, 1, 0, 2, 1, 0, 1, 0])
    for table in range(3):
        assert refusal(rocaplanh.open_table, last, table) == 12
    assert refusal(rocaplanh.open_table, last[:10] + bytes([51]) + last[11:], 2) == 4
    assert refusal(rocaplanh.open_table, last + bytes(1), 2) == 11
    same_row = bytes([2, 2, 1, 0, 10, 0, 1, 0, 12, 0, 1, 0, 1, 0])
    assert rocaplanh.write_bundle(2, [E[:1], E[:1]]) == same_row
    assert rocaplanh.open_tables(same_row) == (2, [E[:1], E[:1]])


def check_wrong_lengths():
    """Rows that have as many bytes as the right ones when they stand end to end are refused by every function."""
    assert refusal(rocaplanh.write_bundle, 2, [RAGGED]) == 2
    assert refusal(rocaplanh.write_bundle, 2, [[(1,)], [(2, 3, 4)]]) == 2
    for n, table in ((2, RAGGED), (1, [(1, 2)]), (1, [()]), (6, [(0,) * 12])):
        for function in (rocaplanh.marks, rocaplanh.complete, rocaplanh.steady):
            assert refusal(function, n, table) == 2
            assert refusal(function, 7, table) == 1
        for function in (rocaplanh.inside, rocaplanh.find):
            assert refusal(function, n, table, (0,) * n) == 2
        for function in (rocaplanh.count, rocaplanh.polynomial):
            assert refusal(function, n, table, 0) == 2


def check_wrapped_numbers():
    """Numbers that ctypes would wrap into their bounds are refused."""
    assert refusal(rocaplanh.complete, 2**64 + 2, LISTED) == 1
    assert refusal(rocaplanh.count, 2, COMPLETED, 2**32) == 5
    assert refusal(rocaplanh.polynomial, 2, COMPLETED, 2**32) == 5
    assert refusal(rocaplanh.open_table, BUNDLE, 2**64) == 5


def check_reasons():
    """A reason for each number, and the writer's own."""
    assert list(rocaplanh.REASONS) == list(rocaplanh.WRITER_REASONS) == list(range(1, 13))
    assert str(rocaplanh.Refusal(4)) == "refused by 4: an entry is above 50"
    assert reason(rocaplanh.marks, 2, [(0, 51)]) == "an entry is above 50"
    assert reason(rocaplanh.write_bundle, 2, []) == "the number of tables is not 1 to 16"
    assert reason(rocaplanh.marks, 2, E) == reason(rocaplanh.write_bundle, 2, [E]) == "a table has two equal rows"
    assert reason(rocaplanh.write_bundle, 3, [TRIPLES] * 6) == "the bundle is longer than 65,535 bytes"
    assert reason(rocaplanh.write_bundle, 2, [RAGGED]) == "a row's length is not the number of variables"


if __name__ == "__main__":
    check_tables()
    check_opening()
    check_writing()
    check_refused_writing()
    check_equal_rows()
    check_before_equal_rows()
    check_equal_rows_in_bundles()
    check_wrong_lengths()
    check_wrapped_numbers()
    check_reasons()
