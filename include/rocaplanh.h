/* Rocaplanh: Janet division of monomials, for C programs.
 *
 * Link with the archive libinterface.a (`tools/build archive` writes it to target/staticlib).
 *
 * A monomial in n variables is n bytes, one exponent each, first variable first. A table is rows of n bytes end to end:
 * n is 1 to 6, a table has 0 to 4096 rows, no two of them equal, and an entry is 0 to 50. A query is one monomial whose
 * bytes may be 0 to 255. Rows count from 0.
 *
 * Who owns what. All memory is the caller's: the library keeps no pointer, allocates nothing and has no state, so calls
 * may run at the same time on different memory. `const` memory is only read. Each length counts elements: bytes, or
 * 16-bit numbers for `counts`. A buffer that is lent for writing (`marks`, `rows` of rocaplanh_complete, `buffer`)
 * changes at its front only, as far as the function says; bytes behind that stay, and after a refusal all of them stay.
 * A number behind a pointer (`row`, `count`, `steps`, `value`, `degree`, `n`, `rows` of rocaplanh_open, `offset`,
 * `length`) is an answer: it is always written, and is 0 after a refusal.
 *
 * What is presumed. Pointers are valid for their length and do not overlap where one of them is written through. A pointer
 * whose length is 0 may be NULL or any other value: nothing is read or written through it. A pointer to a number must not
 * be NULL. On these points the library trusts its caller.
 *
 * What is returned. Each function returns 0 for an answer, or else the number of its refusal: the first that applies,
 * in the order of the function's comment.
 */
#ifndef ROCAPLANH_H
#define ROCAPLANH_H

#include <stddef.h>
#include <stdint.h>

#ifdef __cplusplus
extern "C" {
#endif

/* The row number that stands for "no row". */
#define ROCAPLANH_NONE 65535u

/* Bounds. Room for this many rows is enough for every table that rocaplanh_complete accepts. */
#define ROCAPLANH_MOST_VARIABLES 6
#define ROCAPLANH_MOST_ROWS 4096
#define ROCAPLANH_LARGEST_ENTRY 50
#define ROCAPLANH_LARGEST_DEGREE 300
#define ROCAPLANH_MOST_BUNDLE_BYTES 65535
#define ROCAPLANH_MOST_TABLES 16

/* What a function returns. */
enum rocaplanh_refusal {
    ROCAPLANH_ANSWERED = 0,        /* no refusal */
    ROCAPLANH_VARIABLES = 1,       /* n is not 1 to 6 */
    ROCAPLANH_TABLE_LENGTH = 2,    /* a length that is no multiple of n, or not what n and the row counts demand (write) */
    ROCAPLANH_TOO_MANY_ROWS = 3,   /* more than 4096 rows */
    ROCAPLANH_ENTRY = 4,           /* an entry above 50 */
    ROCAPLANH_QUESTION = 5,        /* query length not n; degree above 300; table number not in the bundle */
    ROCAPLANH_ORDER = 6,           /* rows not strictly ascending (find, count, polynomial, steady) */
    ROCAPLANH_NOT_COMPLETE = 7,    /* table not complete (count, polynomial, steady) */
    ROCAPLANH_ROOM = 8,            /* more completed rows than room (complete); fewer bytes than rows (marks);
                                      a bundle longer than the buffer, or than 65535 bytes (write) */
    ROCAPLANH_BUNDLE = 9,          /* bundle below 2 or above 65535 bytes, not 1 to 16 tables, or shorter than its header */
    ROCAPLANH_OFFSET = 10,         /* an offset in a bundle is not the place where that table must begin */
    ROCAPLANH_BODY = 11,           /* a table's body passes the bundle's end, or bytes remain after the last */
    ROCAPLANH_EQUAL_ROWS = 12      /* two equal rows in one table (marks, inside, complete, open, write) */
};

/* Writes the marks of each row to the front of `marks`, one byte a row in the order of the rows. Variable i is marked when
 * the row's exponent there is the largest among the rows that equal it in variables 1 to i - 1; variable 1 adds 1 to the
 * byte, variable 2 adds 2, then 4, 8, 16, 32. Rows may come in any order.
 * Refuses by 1, 2, 3, 4, 12, and 8 when `marks` has fewer bytes than the table has rows. */
uint32_t rocaplanh_marks(size_t n, const uint8_t *table, size_t table_length, uint8_t *marks, size_t marks_length);

/* Sets `*row` to the first row that divides the query (no exponent of the row exceeds the query's), ROCAPLANH_NONE if
 * there is none. Rows may come in any order.
 * Refuses by 1, 2, 3, 4, 12, 5. */
uint32_t rocaplanh_inside(size_t n, const uint8_t *table, size_t table_length, const uint8_t *query, size_t query_length,
                          uint32_t *row);

/* Writes the completed table, the smallest Janet-complete table with the same ideal, to the front of `rows` in ascending
 * order (the first variable decides, then the next), and sets `*count` to its number of rows. Given rows may come in any
 * order. The room is rows_length / n rows, rounded down, and never more than 4096.
 * Refuses by 1, 2, 3, 4, 12, and 8 when the completed table has more rows than the room. */
uint32_t rocaplanh_complete(size_t n, const uint8_t *table, size_t table_length, uint8_t *rows, size_t rows_length,
                            uint32_t *count);

/* Sets `*row` to the Janet divisor of the query: the row that divides it and that it exceeds only in variables marked for
 * that row; ROCAPLANH_NONE if there is none. Sets `*steps` to the number of exponents that the descent stepped on. Rows
 * must ascend strictly, as rocaplanh_complete writes them; they need not be complete.
 * Refuses by 1, 2, 3, 4, 5, 6. */
uint32_t rocaplanh_find(size_t n, const uint8_t *table, size_t table_length, const uint8_t *query, size_t query_length,
                        uint32_t *row, uint32_t *steps);

/* Sets `*value` to the number of monomials of total degree at most `degree` that no row divides. The table must be one
 * that rocaplanh_complete writes, or another complete and strictly ascending one.
 * Refuses by 1, 2, 3, 4, 5 (degree above 300), 6, 7. */
uint32_t rocaplanh_count(size_t n, const uint8_t *table, size_t table_length, uint32_t degree, uint64_t *value);

/* Sets `*value` to the polynomial at `degree`: it equals the count from the steady degree on, and may be negative below.
 * Refuses as rocaplanh_count does. */
uint32_t rocaplanh_polynomial(size_t n, const uint8_t *table, size_t table_length, uint32_t degree, int64_t *value);

/* Sets `*degree` to the steady degree, the largest total degree of a row, 0 for no rows.
 * Refuses by 1, 2, 3, 4, 6, 7. */
uint32_t rocaplanh_steady(size_t n, const uint8_t *table, size_t table_length, uint32_t *degree);

/* Opens table `table` of a bundle, counted from 0: its number of variables, its number of rows, and where its body begins.
 * The body is the (*n) * (*rows) bytes from bundle + *offset on; it stays the caller's, as part of the bundle.
 *
 * A bundle is n, the number of tables (a byte each); for each table its row count and the offset of its body from the
 * bundle's start (16 bits each, low byte first); then the bodies in order without gaps.
 * Refuses by 9; then 1; then for each table in order 3, 10, 11; then 11 for bytes that remain; then 4 for an entry of any
 * table; then 12 for two equal rows of any one table; then 5. A fault in any table refuses the whole bundle, whichever
 * table is asked for. */
uint32_t rocaplanh_open(const uint8_t *bundle, size_t bundle_length, size_t table, uint32_t *n, uint32_t *rows,
                        uint32_t *offset);

/* Writes a bundle to the front of `buffer`, in the format that rocaplanh_open reads, and sets `*length` to its number of
 * bytes. `counts` has the row count of each table, `tables` the rows of all tables end to end: n bytes a row. What is
 * written, rocaplanh_open opens: table j is the j-th table given. A bundle that it opens, taken apart and written again,
 * is the same bytes. A buffer of ROCAPLANH_MOST_BUNDLE_BYTES holds every bundle.
 * Refuses by 1; then 9 when counts_length is not 1 to 16; then 2 when tables_length is not n times the sum of the counts;
 * then 3 when a count is above 4096; then 4; then 12 for two equal rows of one table; then 8 when the bundle is longer
 * than `buffer`, or than 65535 bytes. */
uint32_t rocaplanh_write(size_t n, const uint16_t *counts, size_t counts_length, const uint8_t *tables, size_t tables_length,
                         uint8_t *buffer, size_t buffer_length, uint32_t *length);

#ifdef __cplusplus
}
#endif

#endif
