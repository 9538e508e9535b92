"""The programs tools/pack and tools/unpack: what they write, and what they say of a text or a bundle that is refused.

Bytes, lines and messages are worked out by hand. examples/run starts this: ROCAPLANH_LIBRARY names the shared object,
and ROCAPLANH_ARCHIVE the archive's folder.
"""

import itertools
import os
import random
import shutil
import struct
import subprocess
import sys
import tempfile

ROOT = os.path.dirname(os.path.dirname(os.path.dirname(os.path.abspath(__file__))))
sys.path.insert(0, os.path.join(ROOT, "tools"))
import tabletext  # noqa: E402


def packed(n, tables):
    """The bundle of some tables, worked out apart from the library."""
    entries, bodies, offset = b"", b"", 2 + 4 * len(tables)
    for rows in tables:
        entries += struct.pack("<HH", len(rows), offset + len(bodies))
        bodies += b"".join(map(bytes, rows))
    return bytes([n, len(tables)]) + entries + bodies


VARIABLES = "the number of variables is not 1 to 6: the first row has"
LENGTH = "a row's length is not the number of variables:"
TABLES = "the number of tables is not 1 to 16:"
ROWS = "a table has more than 4,096 rows: the 4,097th row stands here"
TOO_LONG = "the bundle is longer than 65,535 bytes: this row no longer fits"
EQUAL = "a table has two equal rows:"
DASHES = "dashes are a table without rows, and blank lines part it from others"

# 4,096 rows of three exponents, and 4,000 rows of six as text, which begin with six zeros.
TRIPLES = list(itertools.product(range(35, 51), repeat=3))
SIXES = "".join("%d %d %d %d %d %d\n" % row for row in itertools.islice(itertools.product(range(5), repeat=6), 4000))

# Three tables of 4,000 rows in six variables, of which 10,920 rows fit: the third begins on line 8,003.
LONG = "\n".join([SIXES] * 3)

# Texts that are refused, and how. Where several faults stand in one text, the first in the library's order is told.
REFUSED_TEXTS = [
    ("# seven\n1 2 3 4 5 6 7\n", f"line 2: {VARIABLES} 7 (refusal 1)"),
    ("- - - - - - -\n", f"line 1: {VARIABLES} 7 (refusal 1)"),
    ("1 2 3 4 5 6 7\n\n" * 17, f"line 1: {VARIABLES} 7 (refusal 1)"),
    ("", f"{TABLES} the text has no table (refusal 9)"),
    ("# nothing\n\n", f"{TABLES} the text has no table (refusal 9)"),
    ("1\n\n" * 17, f"line 33: {TABLES} the 17th table begins here (refusal 9)"),
    ("1\n1 2\n\n" * 17, f"line 49: {TABLES} the 17th table begins here (refusal 9)"),
    ("2 1\n0\n", f"line 2: {LENGTH} it is 1, and the first row has 2 (refusal 2)"),
    ("1 2\n\n3\n4 5 6\n", f"line 3: {LENGTH} it is 1, and the first row has 2 (refusal 2)"),
    ("1 2\n\n- - -\n", f"line 3: {LENGTH} it is 3, and the first row has 2 (refusal 2)"),
    ("- -\n\n1\n", f"line 3: {LENGTH} it is 1, and the first row has 2 (refusal 2)"),
    ("0\n" * 5000 + "1 51\n", f"line 5001: {LENGTH} it is 2, and the first row has 1 (refusal 2)"),
    ("51\n\n" + "0\n" * 4097, f"line 4099: {ROWS} (refusal 3)"),
    ("0\n" * (65536 + 2), f"line 4097: {ROWS} (refusal 3)"),
    ("2 1\n0 2\n\n3 51\n", "line 4: an entry is above 50: 51 (refusal 4)"),
    ("2 1\n0 256\n0 51\n", "line 2: an entry is above 50: 256 (refusal 4)"),
    ("050\n00000051\n", "line 2: an entry is above 50: 00000051 (refusal 4)"),
    ("1" * 5000 + "\n", "line 1: an entry is above 50: 11111111111111111111.. (refusal 4)"),
    (LONG + "0 0 0 0 0 51\n", "line 12003: an entry is above 50: 51 (refusal 4)"),
    ("1 0\n1 0\n", f"line 2: {EQUAL} as on line 1 (refusal 12)"),
    ("# a remark\n2 1\n0 2\n# another\n2 1  # again\n", f"line 5: {EQUAL} as on line 2 (refusal 12)"),
    ("3 2\n1 1\n03 002\n", f"line 3: {EQUAL} as on line 1 (refusal 12)"),
    ("1\n2\n3\n2\n1\n2\n", f"line 4: {EQUAL} as on line 2 (refusal 12)"),
    ("4\n4\n4\n\n5\n5\n", f"line 2: {EQUAL} as on line 1 (refusal 12)"),
    ("1 2\n\n- -\n\n1 2\n2 1\n1 2\n\n1 2\n", f"line 7: {EQUAL} as on line 5 (refusal 12)"),
    ("1 2\n\n" * 15 + "1 2\n2 2\n2 2\n", f"line 33: {EQUAL} as on line 32 (refusal 12)"),
    (SIXES + "0 0 0 0 0 0\n", f"line 4001: {EQUAL} as on line 1 (refusal 12)"),
    (LONG + "0 0 0 0 0 0\n", f"line 12003: {EQUAL} as on line 8003 (refusal 12)"),
    ("1 0\n1 0\n\n0 51\n", "line 4: an entry is above 50: 51 (refusal 4)"),
    ("51\n51\n", "line 1: an entry is above 50: 51 (refusal 4)"),
    (LONG, f"line 10923: {TOO_LONG} (refusal 8)"),
    ("- - - - - -\n\n" + LONG, f"line 10924: {TOO_LONG} (refusal 8)"),
]

# Words that are no exponents come first of all: such a text is no tables.
WRONG_TEXTS = [
    ("2 1\n0 x\n", "line 2: no exponent: 'x'"),
    ("2 -1\n", "line 1: no exponent: '-1'"),
    ("2 1.5\n", "line 1: no exponent: '1.5'"),
    ("2 +1\n", "line 1: no exponent: '+1'"),
    ("2 1_0\n", "line 1: no exponent: '1_0'"),
    ("2,1\n", "line 1: no exponent: '2,1'"),
    ("2\N{NO-BREAK SPACE}1\n", "line 1: no exponent: '2\\xa01'"),
    ("2 \N{SUPERSCRIPT TWO}\n", "line 1: no exponent: '\\xb2'"),
    ("2 1\f0 2\n", "line 1: no exponent: '1\\x0c0'"),
    ("2 -\n", "line 1: no exponent: '-'"),
    ("--\n", "line 1: no exponent: '--'"),
    ("1 2 3 4 5 6 7\n51\n" + "y" * 30, "line 3: no exponent: 'yyyyyyyyyyyyyyyyyyyy..'"),
    ("2 1\n- -\n", f"line 2: {DASHES}"),
    ("- -\n# a remark parts nothing\n- -\n", f"line 1: {DASHES}"),
]

FRAME = "the bundle's size, its number of tables or its header is wrong"
OFFSET = "an offset is not the place where that table must begin"
BODY = "a body passes the bundle's end, or bytes remain after the last"

# The longest bundle: 66 bytes of a header, and 21,823 rows of three bytes.
FULL = packed(3, [TRIPLES] * 5 + [[]] * 10 + [TRIPLES[:1343]])

# Bundles that are refused, and how.
REFUSED_BUNDLES = [
    ([2], f"{FRAME} (refusal 9)"),
    (FULL + b"\0", f"{FRAME} (refusal 9)"),
    ([7, 1, 0, 0, 6, 0], "the number of variables is not 1 to 6 (refusal 1)"),
    ([1, 2, 0, 0, 10, 0, 1, 16, 10, 0], "a table has more than 4,096 rows: table 1 (refusal 3)"),
    ([2, 1, 1, 0, 7, 0, 0, 0], f"{OFFSET}: table 0 (refusal 10)"),
    ([2, 2, 1, 0, 10, 0, 1, 0, 12, 0, 0, 0, 0], f"{BODY}: table 1 (refusal 11)"),
    ([2, 1, 1, 0, 6, 0, 0, 0, 0], f"{BODY}: 1 byte more (refusal 11)"),
    ([2, 1, 1, 0, 6, 0, 0, 0, 0, 51], f"{BODY}: 2 bytes more (refusal 11)"),
    ([2, 2, 1, 0, 10, 0, 1, 0, 12, 0, 0, 50, 0, 51], "an entry is above 50: table 1 (refusal 4)"),
    ([2, 2, 2, 0, 10, 0, 1, 0, 14, 0, 1, 0, 1, 0, 0, 51], "an entry is above 50: table 1 (refusal 4)"),
    ([2, 1, 2, 0, 6, 0, 1, 0, 1, 0], f"{EQUAL} table 0 (refusal 12)"),
    ([1, 3, 1, 0, 14, 0, 3, 0, 15, 0, 2, 0, 18, 0, 5, 6, 5, 6, 7, 7], f"{EQUAL} table 1 (refusal 12)"),
    (FULL[:-3] + FULL[-6:-3], f"{EQUAL} table 15 (refusal 12)"),
]


def run(tool, content=b"", *words, root=ROOT, **options):
    """What a program does with an input: its status, standard output and standard error."""
    command = [os.path.join(root, "tools", tool), *words]
    ran = subprocess.run(command, input=content, stdout=subprocess.PIPE, stderr=subprocess.PIPE, **options)
    return ran.returncode, ran.stdout, ran.stderr.decode()


def expect(found, *expected):
    """What a program did must be what is expected."""
    assert found == expected, f"{found} and not {expected}"


def check_parsing():
    """Tables with the numbers of their lines."""
    row = tabletext.Row
    text = "\n# a remark\n2 1 # behind a row\n# between rows\n\t0  2\n \n\n# before a table\n- -\n\n007 0"
    assert tabletext.parsed(text) == [
        [row(3, ["2", "1"]), row(5, ["0", "2"])],
        [row(9, ["-", "-"])],
        [row(11, ["007", "0"])],
    ]
    assert tabletext.parsed("") == tabletext.parsed("# a remark\n\n") == []
    assert tabletext.pack(text.encode()) == bytes([2, 3, 2, 0, 14, 0, 0, 0, 18, 0, 1, 0, 18, 0, 2, 1, 0, 2, 7, 0])


def check_outputs():
    """Bytes and text that are written; however lines end, the text is the same."""
    bundle = bytes([2, 1, 2, 0, 6, 0, 2, 1, 0, 2])
    for text in (b"2 1\n0 2\n", b"\xef\xbb\xbf2 1\n0 2", b"2 1\r\n0 2\r\n", b"2 1\r0 2\r"):
        expect(run("pack", text), 0, bundle, "")
    expect(run("unpack", bundle), 0, b"# table 0: 2 rows\n2 1\n0 2\n", "")
    expect(run("pack", b"-\n\n50\n"), 0, bytes([1, 2, 0, 0, 10, 0, 1, 0, 10, 0, 50]), "")
    text = b"# table 0: 0 rows\n-\n\n# table 1: 1 row\n50\n"
    expect(run("unpack", bytes([1, 2, 0, 0, 10, 0, 1, 0, 10, 0, 50])), 0, text, "")
    expect(run("pack", b"1 0\n\n1 0\n"), 0, bytes([2, 2, 1, 0, 10, 0, 1, 0, 12, 0, 1, 0, 1, 0]), "")


def check_refusals():
    """Each refusal by its line or table, its reason and its number; nothing stands on standard output."""
    for text, message in REFUSED_TEXTS + WRONG_TEXTS:
        expect(run("pack", text.encode()), 1, b"", f"pack: {message}\n")
    for bundle, message in REFUSED_BUNDLES:
        expect(run("unpack", bytes(bundle)), 1, b"", f"unpack: no bundle: {message}\n")


def check_streams():
    """Files and streams that fail: a short message, and no traceback."""
    expect(run("pack", b"1 2\n# \xff\n"), 1, b"", "pack: line 2: the text is not UTF-8\n")
    for tool, content in (("pack", b"1\n"), ("unpack", bytes([1, 1, 0, 0, 6, 0]))):
        expect(run(tool, b"", "/no/file"), 2, b"", f"{tool}: /no/file: No such file or directory\n")
        expect(run(tool, b"", ROOT), 2, b"", f"{tool}: {ROOT}: Is a directory\n")
        path = os.path.join(ROOT, "tools", tool)
        for redirected, message in (
            ("<&-", "standard input is closed"),
            (">&-", "standard output is closed"),
            (">/dev/full", "standard output: No space left on device"),
        ):
            ran = subprocess.run(["sh", "-c", f'"$0" {redirected}', path], input=content, capture_output=True)
            expect((ran.returncode, ran.stdout, ran.stderr.decode()), 2, b"", f"{tool}: {message}\n")


def check_library():
    """The shared object is made of the archive where it is missing or older; a missing archive is told."""
    environment = {name: value for name, value in os.environ.items() if name != "ROCAPLANH_LIBRARY"}
    with tempfile.TemporaryDirectory() as root:
        for folder in ("tools", "examples/python"):
            shutil.copytree(os.path.join(ROOT, folder), os.path.join(root, folder))
        archive = os.path.join(root, "target", "staticlib", "libinterface.a")
        shared = os.path.join(root, "target", "librocaplanh.so")
        message = f"pack: {archive} is missing: run tools/build archive\n"
        expect(run("pack", b"0\n", root=root, env=environment), 2, b"", message)
        os.makedirs(os.path.dirname(archive))
        shutil.copy(os.path.join(os.environ["ROCAPLANH_ARCHIVE"], "libinterface.a"), archive)
        os.utime(archive, (1000, 1000))
        for time, made_again in ((None, True), (1000, False), (999, True)):
            if time:
                os.utime(shared, (time, time))
            expect(run("pack", b"0\n", root=root, env=environment), 0, bytes([1, 1, 1, 0, 6, 0, 0]), "")
            assert (os.path.getmtime(shared) > 1000) == made_again
        assert sorted(os.listdir(os.path.join(root, "target"))) == ["librocaplanh.so", "staticlib"]
    wrong = {**environment, "ROCAPLANH_LIBRARY": "/no/library"}
    status, output, message = run("pack", b"0\n", env=wrong)
    assert (status, output) == (2, b"") and message.startswith("pack: the library could not be loaded: /no/library: ")


def random_text(numbers, n, tables):
    """A text of some tables, with spaces, blank lines and remarks at random."""

    def some(*parts):
        """One of the parts."""
        return numbers.choice(parts)

    texts = []
    for rows in tables:
        words = [["0" * some(0, 0, 5) + str(exponent) for exponent in row] for row in rows] or [["-"] * n]
        lines = [some("", " ") + some(" ", "\t", "   ").join(row) + some("", " ", "# 51", " #x") for row in words]
        texts.append("".join(some("", "", "# 1 2\n", " #\n") + line + "\n" for line in lines))
    return some("", "\n", "#\n\n") + some("\n", "\n\n \t\n", "\n# - -\n").join(texts) + some("", "\n", "# end")


def random_tables(numbers, n):
    """Some tables, none of which has two equal rows."""
    sizes = [numbers.choice((0, 1, numbers.randint(0, 20))) for _ in range(numbers.randint(1, 16))]
    rows = [[tuple(numbers.randint(0, 50) for _ in range(n)) for _ in range(size)] for size in sizes]
    return [list(dict.fromkeys(table)) for table in rows]


def check_random_texts():
    """A random text gives its tables' bytes; unpacked and packed again, they and the longest bundle are the same."""
    numbers = random.Random(1)
    for _ in range(400):
        n = numbers.randint(1, 6)
        tables = random_tables(numbers, n)
        text = random_text(numbers, n, tables)
        bundle = packed(n, tables)
        assert tabletext.pack(text.encode()) == bundle, text
        assert tabletext.pack(tabletext.unpack(bundle)) == bundle, text
    assert len(FULL) == 65535 and tabletext.pack(tabletext.unpack(FULL)) == FULL


def with_repeats(numbers, tables):
    """The same tables; up to three rows stand in theirs once more, anywhere."""
    tables = [list(rows) for rows in tables]
    for rows in numbers.choices(tables, k=3):
        if rows:
            rows.insert(numbers.randint(0, len(rows)), numbers.choice(rows))
    return tables


def repeat_messages(text, tables):
    """What is told of a text and of its bundle, where a row stands in its table already; None where no row does.

    Each row is looked for among those above it.
    """
    lines = [number for number, line in enumerate(text.split("\n"), 1) if line.partition("#")[0].strip()]
    for table, rows in enumerate(tables):
        for place, row in enumerate(rows):
            if row in rows[:place]:
                told = f"line {lines[place]}: {EQUAL} as on line {lines[rows.index(row)]} (refusal 12)"
                return told, f"no bundle: {EQUAL} table {table} (refusal 12)"
        lines = lines[max(len(rows), 1) :]
    return None


def fault(work, content):
    """The message of a fault, None where there is none."""
    try:
        work(content)
    except tabletext.Fault as found:
        return str(found)
    return None


def check_random_repeats():
    """Of random tables with equal rows the line and the table are told."""
    numbers, refused = random.Random(2), 0
    for _ in range(400):
        n = numbers.randint(1, 6)
        tables = with_repeats(numbers, random_tables(numbers, n))
        text = random_text(numbers, n, tables)
        of_text, of_bundle = repeat_messages(text, tables) or (None, None)
        assert fault(tabletext.pack, text.encode()) == of_text, text
        assert fault(tabletext.unpack, packed(n, tables)) == of_bundle, text
        refused += of_text is not None
    assert refused > 300


if __name__ == "__main__":
    check_parsing()
    check_outputs()
    check_refusals()
    check_streams()
    check_library()
    check_random_texts()
    check_random_repeats()
