"""Tables as text: what tools/pack and tools/unpack share.

A row is a line of exponents, parted by spaces. A blank line parts two tables, and several are as one. `#` begins a
remark up to the line's end; a line that is only a remark is passed over and parts nothing. A table without rows is a
line of dashes, one for each variable. The library decides what is refused; here is only found on which line.
"""
import argparse
import contextlib
import os
import re
import struct
import subprocess
import sys
from typing import NamedTuple

ROOT = os.path.dirname(os.path.dirname(os.path.abspath(__file__)))
sys.path.insert(0, os.path.join(ROOT, 'examples', 'python'))
import rocaplanh  # noqa: E402


class Fault(Exception):
    """What is told instead of an output. The status is 1 where the input is refused, 2 where something else fails."""

    def __init__(self, message, status=1):
        super().__init__(message)
        self.status = status


class Row(NamedTuple):
    """A line of a table: its number, counted from 1, and its words, which are exponents.

    A table without rows has one line too, whose words are dashes.
    """

    line: int
    words: list


# Reading text.


def decoded(content):
    """The text of some bytes, without a byte order mark, and each line ended by a line feed however it was ended."""
    try:
        return content.replace(b'\r\n', b'\n').replace(b'\r', b'\n').decode('utf-8-sig')
    except UnicodeDecodeError as error:
        line = error.object.count(b'\n', 0, error.start) + 1
        raise Fault(f'line {line}: the text is not UTF-8') from None


def parsed(text):
    """The tables of a text, each a list of rows. Only words that are no exponents are a fault here."""
    tables, parted = [], True
    for number, line in enumerate(text.split('\n'), 1):
        before, remark, _ = line.partition('#')
        words = re.findall('[^ \t]+', before)
        if words and parted:
            tables.append([])
        if words:
            tables[-1].append(Row(number, words))
        if words or not remark:
            parted = not words
    for table in tables:
        for row in table:
            check_words(row, len(table) == 1)
    return tables


def check_words(row, alone):
    """Each word of a row must be an exponent; but a row that is alone in its table may be dashes."""
    if has_dashes(row):
        if not alone:
            raise Fault(f'line {row.line}: dashes are a table without rows, and blank lines part it from others')
        return
    for word in row.words:
        if not re.fullmatch('[0-9]+', word):
            raise Fault(f'line {row.line}: no exponent: {ascii(shortened(word))}')


def has_dashes(row):
    """Whether a row stands for a table without rows."""
    return set(row.words) == {'-'}


def shortened(word):
    """A word as a message shows it."""
    return word if len(word) <= 20 else word[:20] + '..'


def exponent(word):
    """The number that a word is, 0 for a dash. Of a long number four digits are enough: they are above 50 as well."""
    return int(word.lstrip('0')[:4] or '0') if word != '-' else 0


# From text to a bundle.


def pack(content):
    """The bundle of a text, from bytes to bytes."""
    tables = parsed(decoded(content))
    n = len(tables[0][0].words) if tables else 1
    try:
        return rocaplanh.write_bundle(n, [handed_over(n, table) for table in tables])
    except rocaplanh.Refusal as refused:
        line, found = PLACES[refused.number](n, tables)
        place = f'line {line}: ' if line else ''
        raise Fault(f'{place}{refused.reason}: {found} (refusal {refused.number})') from None


def handed_over(n, table):
    """The rows of a table as the library takes them. n dashes are no row.

    Another number of dashes goes as a row of so many zeros: the library refuses it by 2, as any row of that length.
    """
    return [tuple(map(exponent, row.words)) for row in table if not has_dashes(row) or len(row.words) != n]


def rows_of(tables):
    """All rows in the text's order, with the dashes."""
    return [row for table in tables for row in table]


def variables_place(n, tables):
    """1: the first row, which says how many variables there are."""
    return tables[0][0].line, f'the first row has {n}'


def tables_place(_, tables):
    """9: the first table that is too many."""
    if not tables:
        return None, 'the text has no table'
    return tables[rocaplanh.MOST_TABLES][0].line, f'the {rocaplanh.MOST_TABLES + 1}th table begins here'


def length_place(n, tables):
    """2: the first row of another length than the first."""
    row = next(row for row in rows_of(tables) if len(row.words) != n)
    return row.line, f'it is {len(row.words)}, and the first row has {n}'


def rows_place(_, tables):
    """3: the first row that is too many in its table."""
    table = next(table for table in tables if len(table) > rocaplanh.MOST_ROWS)
    return table[rocaplanh.MOST_ROWS].line, f'the {rocaplanh.MOST_ROWS + 1:,}th row stands here'


def entry_place(_, tables):
    """4: the first entry that is too large."""
    entries = ((row.line, word) for row in rows_of(tables) for word in row.words)
    return next((line, shortened(word)) for line, word in entries if exponent(word) > rocaplanh.LARGEST_ENTRY)


def equal_place(_, tables):
    """12: the first row that stands in its table already."""
    return next((row.line, f'as on line {line}') for row, line in repeated(tables))


def repeated(tables):
    """Each row that stands in its table already, and the line that has it first. Exponents are compared as numbers."""
    for table in tables:
        first_lines = {}
        for row in table:
            line = first_lines.setdefault(tuple(map(exponent, row.words)), row.line)
            if line != row.line:
                yield row, line


def room_place(n, tables):
    """8: the first row that passes the longest bundle. Before the rows stand two bytes, and four for each table."""
    rows = [row for row in rows_of(tables) if not has_dashes(row)]
    room = (rocaplanh.MOST_BUNDLE_BYTES - 2 - 4 * len(tables)) // n
    return rows[room].line, 'this row no longer fits'


# For each number by which the library refuses tables: the first line to which it belongs, and what is found there.
PLACES = {
    1: variables_place,
    9: tables_place,
    2: length_place,
    3: rows_place,
    4: entry_place,
    12: equal_place,
    8: room_place,
}


# From a bundle to text.


def unpack(bundle):
    """The text of a bundle, from bytes to bytes."""
    try:
        return text_of(*rocaplanh.open_tables(bundle)).encode()
    except rocaplanh.Refusal as refused:
        found = found_in(bundle, refused.number)
        raise Fault(f'no bundle: {refused.reason}{found} (refusal {refused.number})') from None


def text_of(n, tables):
    """The text of some tables: for each a remark, then its rows, or dashes where it has none."""
    texts = []
    for number, rows in enumerate(tables):
        lines = [' '.join(map(str, row)) for row in rows] or [' '.join('-' * n)]
        texts.append('\n'.join([f'# table {number}: {counted(len(rows), "row")}', *lines, '']))
    return '\n'.join(texts)


def counted(number, thing):
    """A number of things in words."""
    return f'{number} {thing}' if number == 1 else f'{number} {thing}s'


def found_in(bundle, number):
    """The table to which a refusal of a bundle belongs, or what remains behind the last; nothing for other refusals."""
    if number not in (3, 4, 10, 11, 12):
        return ''
    place = 2 + 4 * bundle[1]
    for table in range(bundle[1]):
        end, at_fault = table_faults(bundle, table, place)
        if at_fault[number]:
            return f': table {table}'
        place = end
    return f': {counted(len(bundle) - place, "byte")} more'


def table_faults(bundle, table, place):
    """Where a table's body ends that must begin at a place; and for each number, whether it refuses this table."""
    n = bundle[0]
    rows, offset = struct.unpack_from('<HH', bundle, 2 + 4 * table)
    end = place + n * rows
    body = bundle[place:end]
    return end, {
        3: rows > rocaplanh.MOST_ROWS,
        10: offset != place,
        11: end > len(bundle),
        4: max(body, default=0) > rocaplanh.LARGEST_ENTRY,
        12: len({body[start:start + n] for start in range(0, len(body), n)}) < rows,
    }


# The library and the streams.


def shared_object(root):
    """The shared object below the repository's root. It is made of the archive where it is missing or older."""
    archive = os.path.join(root, 'target', 'staticlib', 'libinterface.a')
    shared = os.path.join(root, 'target', 'librocaplanh.so')
    if not os.path.isfile(archive):
        raise Fault(f'{archive} is missing: run tools/build archive', 2)
    if not os.path.isfile(shared) or os.path.getmtime(shared) < os.path.getmtime(archive):
        make_shared(archive, shared)
    return shared


def make_shared(archive, shared):
    """Makes the shared object under another name and then renames it, so that no one ever loads a part of it.

    ROCAPLANH_LINK holds further options for the linker, if an archive needs any.
    """
    made = f'{shared}.{os.getpid()}'
    try:
        link = ['gcc', '-shared', '-o', made, '-Wl,--whole-archive', archive, '-Wl,--no-whole-archive']
        link += os.environ.get('ROCAPLANH_LINK', '').split()
        subprocess.run(link, check=True, capture_output=True, text=True)
        os.replace(made, shared)
    except OSError as error:
        raise Fault(f'{shared} could not be made: {error}', 2) from None
    except subprocess.CalledProcessError as error:
        raise Fault(f'{shared} could not be made: {error.stderr.strip()}', 2) from None


def load_library():
    """Loads the library that ROCAPLANH_LIBRARY names, else the one below this repository's root."""
    if not os.environ.get('ROCAPLANH_LIBRARY'):
        os.environ['ROCAPLANH_LIBRARY'] = shared_object(ROOT)
    try:
        rocaplanh.load()
    except (OSError, AttributeError) as error:
        raise Fault(f'the library could not be loaded: {error}', 2) from None


def taken(path, most):
    """The bytes of a file, or of standard input where none is named; no more than `most`, unless that is -1."""
    try:
        if path is not None:
            with open(path, 'rb') as file:
                return file.read(most)
        if sys.stdin is None:
            raise Fault('standard input is closed', 2)
        return sys.stdin.buffer.read(most)
    except OSError as error:
        raise Fault(f'{"standard input" if path is None else path}: {error.strerror}', 2) from None


def put(content):
    """Writes bytes to standard output."""
    if sys.stdout is None:
        raise Fault('standard output is closed', 2)
    try:
        with open(sys.stdout.fileno(), 'wb', closefd=False) as out:
            out.write(content)
    except OSError as error:
        raise Fault(f'standard output: {error.strerror}', 2) from None


def tell(line):
    """Writes a line to standard error. Where that fails too, the status alone tells the fault."""
    if sys.stderr is not None:
        with contextlib.suppress(OSError):
            print(line, file=sys.stderr, flush=True)


def run(work, description, most=-1):
    """Runs a program that makes its output of its input by `work`, and gives its status.

    A fault is told on standard error, and then nothing stands on standard output.
    """
    layout = argparse.RawDescriptionHelpFormatter
    parser = argparse.ArgumentParser(prog=work.__name__, description=description, formatter_class=layout)
    parser.add_argument('file', nargs='?', metavar='FILE', help='what is read; standard input where no file is named')
    path = parser.parse_args().file
    try:
        load_library()
        put(work(taken(path, most)))
    except Fault as fault:
        tell(f'{work.__name__}: {fault}')
        return fault.status
    except KeyboardInterrupt:
        return 130
    return 0
