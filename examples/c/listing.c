/* Completes the paper's table 2 1, 0 2 and prints the completed rows; writes its bundle, opens it and prints both. */
#include <stdio.h>
#include <stdlib.h>

#include "rocaplanh.h"

/* Ends the program where a call was refused. */
static void expect_answer(uint32_t refusal)
{
    if (refusal != ROCAPLANH_ANSWERED) {
        fprintf(stderr, "refused by %u\n", (unsigned)refusal);
        exit(1);
    }
}

/* Prints rows of n bytes that stand end to end, a line each. */
static void print_rows(size_t n, const uint8_t *rows, size_t count)
{
    for (size_t at = 0; at < n * count; at++) {
        printf("%u%c", (unsigned)rows[at], (at + 1) % n == 0 ? '\n' : ' ');
    }
}

int main(void)
{
    const uint8_t table[] = {2, 1, 0, 2};
    uint8_t rows[2 * ROCAPLANH_MOST_ROWS];
    uint32_t count;
    expect_answer(rocaplanh_complete(2, table, sizeof table, rows, sizeof rows, &count));
    print_rows(2, rows, count);

    const uint16_t counts[] = {2};
    uint8_t bundle[ROCAPLANH_MOST_BUNDLE_BYTES];
    uint32_t length;
    expect_answer(rocaplanh_write(2, counts, 1, table, sizeof table, bundle, sizeof bundle, &length));
    print_rows(length, bundle, 1);

    uint32_t n, opened, offset;
    expect_answer(rocaplanh_open(bundle, length, 0, &n, &opened, &offset));
    print_rows(n, bundle + offset, opened);
    return 0;
}
