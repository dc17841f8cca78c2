#include "telvrang.h"

#include <inttypes.h>
#include <stdio.h>

static uint32_t book[TELVRANG_BOOK];
static int64_t sums[TELVRANG_SUMS];
static uint32_t finishes[TELVRANG_FINISHES];

int main(void)
{
    const uint32_t key = 7;
    const int64_t value = 500;
    if (telvrang_open(2, 0, 0, book, TELVRANG_BOOK, sums, TELVRANG_SUMS) != 0)
        return 1;
    telvrang_delivered d = telvrang_deliver(10, 3, 0, &key, 1, &key, 1, &value, 1, book, TELVRANG_BOOK, sums,
                                            TELVRANG_SUMS, finishes, TELVRANG_FINISHES);
    if (d.refusal != 0 || d.reason != 0)
        return 1;
    printf("10 waits at place %" PRIu32 ", DC is %" PRIu32 "\n", d.place, d.dc);
    telvrang_settled s =
        telvrang_vote(10, 1, 1, book, TELVRANG_BOOK, sums, TELVRANG_SUMS, finishes, TELVRANG_FINISHES);
    for (uint32_t i = 0; i < s.finishes; i++)
        printf("%" PRIu32 " commits as version %" PRIu32 "\n", finishes[2 * i], finishes[2 * i + 1]);
    telvrang_reading r = telvrang_read_newest(7, book, TELVRANG_BOOK, sums, TELVRANG_SUMS);
    printf("key 7 holds %" PRId64 " at version %" PRIu32 "\n", r.value, r.version);
    return 0;
}
