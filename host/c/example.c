// A host in C: the scope document's whole run by calls, tables that hold garbage, and the same run's beginning as a log
// of text.
#include "telvrang.h"

#include <inttypes.h>
#include <stdio.h>
#include <string.h>

static uint32_t book[TELVRANG_BOOK];
static int64_t sums[TELVRANG_SUMS];
static uint32_t finishes[TELVRANG_FINISHES];

static void print_finishes(uint32_t count)
{
    for (uint32_t i = 0; i < count; i++) {
        uint32_t identity = finishes[2 * i];
        uint32_t version = finishes[2 * i + 1];
        if (version != 0)
            printf("    %" PRIu32 " commits as version %" PRIu32 "\n", identity, version);
        else
            printf("    %" PRIu32 " aborts\n", identity);
    }
}

// A transaction that reads one key and writes an amount to it.
static void deliver(uint32_t identity, uint32_t set, uint32_t st, uint32_t key, int64_t amount)
{
    static const char *const send[] = {"no vote", "a yes", "a no"};
    telvrang_delivered d = telvrang_deliver(identity, set, st, &key, 1, &key, 1, &amount, 1, book, TELVRANG_BOOK, sums,
                                            TELVRANG_SUMS, finishes, TELVRANG_FINISHES);
    printf("delivery of %" PRIu32 ": ", identity);
    if (d.refusal != 0)
        printf("refused by %" PRIu32 "\n", d.refusal);
    else if (d.reason != 0)
        printf("aborted at DC %" PRIu32 ", reason %" PRIu32 ", send %s\n", d.dc, d.reason, send[d.send]);
    else
        printf("waits at DC %" PRIu32 ", place %" PRIu32 ", send %s\n", d.dc, d.place, send[d.send]);
    print_finishes(d.finishes);
}

static void vote(uint32_t identity, uint32_t partition, uint32_t yes)
{
    telvrang_settled s =
        telvrang_vote(identity, partition, yes, book, TELVRANG_BOOK, sums, TELVRANG_SUMS, finishes, TELVRANG_FINISHES);
    printf("vote of partition %" PRIu32 " on %" PRIu32 ": ", partition, identity);
    if (s.refusal != 0)
        printf("refused by %" PRIu32 "\n", s.refusal);
    else
        printf("stored\n");
    print_finishes(s.finishes);
}

static void print_reading(uint32_t key, telvrang_reading r)
{
    if (r.refusal != 0)
        printf("key %" PRIu32 ": refused by %" PRIu32 "\n", key, r.refusal);
    else
        printf("key %" PRIu32 " at version %" PRIu32 ": %" PRId64 "\n", key, r.version, r.value);
}

// A log that comes in two pieces, cut inside a line.
static void feed_log(void)
{
    static const char *const pieces[] = {"O\t2\t0\t1\nD\t10\t3\t0\t7\t7=500\nD\t11\t1\t", "0\t8\t8=-40\nR\t8\t-\n"};
    uint8_t input[1024];
    uint8_t out[4096];
    size_t held = 0;
    telvrang_fed fed = {0, 0, 0, 0, 0};
    for (size_t i = 0; i < 2; i++) {
        size_t more = strlen(pieces[i]);
        memcpy(input + held, pieces[i], more);
        held += more;
        do {
            fed = telvrang_feed(input, held, i == 1, fed.opened, fed.skipping, book, TELVRANG_BOOK, sums, TELVRANG_SUMS,
                                out, sizeof out);
            fwrite(out, 1, fed.wrote, stdout);
            held -= fed.taken;
            memmove(input, input + fed.taken, held);
        } while (fed.full);
    }
}

int main(void)
{
    printf("opening: %" PRIu32 "\n", telvrang_open(2, 0, 1, book, TELVRANG_BOOK, sums, TELVRANG_SUMS));
    deliver(10, 3, 0, 7, 500);
    deliver(11, 1, 0, 8, -40);
    vote(10, 1, 1);
    print_reading(8, telvrang_read_newest(8, book, TELVRANG_BOOK, sums, TELVRANG_SUMS));
    print_reading(7, telvrang_read(7, 1, book, TELVRANG_BOOK, sums, TELVRANG_SUMS));
    deliver(12, 1, 1, 7, 600);

    printf("\ntables of garbage\n");
    memset(book, 0xa5, sizeof book);
    memset(sums, 0xa5, sizeof sums);
    deliver(13, 1, 0, 7, 700);
    print_reading(7, telvrang_read_newest(7, book, TELVRANG_BOOK, sums, TELVRANG_SUMS));

    printf("\nas text\n");
    feed_log();
    return 0;
}
