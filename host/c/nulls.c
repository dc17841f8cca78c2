// Null pointers, for the functions that take them: a null pointer is a list of no entries, whatever its length says.
#include "checks.h"

#include <string.h>

#define TABLES lent.book, TELVRANG_BOOK, lent.sums, TELVRANG_SUMS
#define NO_BOOK NULL, TELVRANG_BOOK, lent.sums, TELVRANG_SUMS
#define NO_SUMS lent.book, TELVRANG_BOOK, NULL, TELVRANG_SUMS
#define NEITHER NULL, TELVRANG_BOOK, NULL, TELVRANG_SUMS
#define FINISHES lent.finishes, TELVRANG_FINISHES
#define NO_FINISHES NULL, TELVRANG_FINISHES

static const uint32_t keys[] = {7, 8};
static const int64_t amounts[] = {500, -40};

// One way to lend the tables.
#define TABLES_REFUSED(tables)                                                                                         \
    do {                                                                                                               \
        CHECK(telvrang_open(2, 0, 1, tables) == 13);                                                                   \
        CHECK(refused(telvrang_deliver(11, 1, 0, keys, 2, keys, 2, amounts, 2, tables, FINISHES), 13));                \
        CHECK(settled(telvrang_vote(10, 1, 1, tables, FINISHES), 13, 0));                                              \
        CHECK(settled(telvrang_change(0, tables, FINISHES), 13, 0));                                                   \
        CHECK(unread(telvrang_read(7, 0, tables), 13));                                                                \
        CHECK(unread(telvrang_read_newest(7, tables), 13));                                                            \
        CHECK(refused(telvrang_deliver(11, 1, 0, keys, 2, keys, 2, amounts, 2, tables, NULL, 64), 15));                \
        CHECK(settled(telvrang_vote(10, 1, 1, tables, NO_FINISHES), 15, 0));                                           \
        CHECK(settled(telvrang_change(0, tables, NO_FINISHES), 15, 0));                                                \
    } while (0)

static void null_tables(void)
{
    keep();
    TABLES_REFUSED(NO_BOOK);
    TABLES_REFUSED(NO_SUMS);
    TABLES_REFUSED(NEITHER);
    CHECK(refused(telvrang_deliver(11, 1, 0, keys, 2, keys, 2, amounts, 2, TABLES, NO_FINISHES), 15));
    CHECK(settled(telvrang_vote(10, 1, 1, TABLES, NO_FINISHES), 15, 0));
    CHECK(settled(telvrang_change(0, TABLES, NO_FINISHES), 15, 0));
    CHECK(is_kept());
}

// Lists that say that they have entries are a table too short, whichever of the three they are.
static void null_lists(void)
{
    keep();
    CHECK(refused(telvrang_deliver(11, 1, 0, NULL, 2, keys, 2, amounts, 2, TABLES, FINISHES), 13));
    CHECK(refused(telvrang_deliver(11, 1, 0, keys, 2, NULL, 2, amounts, 2, TABLES, FINISHES), 13));
    CHECK(refused(telvrang_deliver(11, 1, 0, keys, 2, keys, 2, NULL, 2, TABLES, FINISHES), 13));
    CHECK(refused(telvrang_deliver(11, 1, 0, keys, 2, NULL, 2, NULL, 2, TABLES, FINISHES), 13));
    CHECK(refused(telvrang_deliver(11, 1, 0, keys, 2, NULL, 2, amounts, 0, TABLES, FINISHES), 13));
    CHECK(refused(telvrang_deliver(11, 1, 0, keys, 2, keys, 0, NULL, 2, TABLES, FINISHES), 13));
    CHECK(refused(telvrang_deliver(11, 1, 0, NULL, SIZE_MAX, NULL, SIZE_MAX, NULL, SIZE_MAX, TABLES, FINISHES), 13));
    CHECK(refused(telvrang_deliver(11, 1, 0, NULL, 2, keys, 2, amounts, 2, TABLES, NO_FINISHES), 15));
    CHECK(refused(telvrang_deliver(0, 0, 9, NULL, 9, NULL, 9, NULL, 9, NEITHER, NO_FINISHES), 15));
    CHECK(is_kept());
    // Of no entries they are no keys read, no keys written.
    CHECK(waits(telvrang_deliver(11, 1, 0, NULL, 0, NULL, 0, NULL, 0, TABLES, FINISHES), 2, 0, 0, 1));
    CHECK(finish(0, 11, 1));
    CHECK(waits(telvrang_deliver(12, 1, 0, NULL, 0, keys + 1, 1, amounts + 1, 1, TABLES, FINISHES), 3, 1, 0, 0));
}

static bool fed_is(telvrang_fed fed, size_t taken, size_t wrote, uint32_t full, uint32_t opened)
{
    return fed.taken == taken && fed.wrote == wrote && fed.full == full && fed.opened == opened && fed.skipping == 0;
}

static void null_feed(void)
{
    static const uint8_t line[] = "R\t7\t-\n";
    uint8_t out[TELVRANG_ANSWERS];
    keep();
    CHECK(fed_is(telvrang_feed(NULL, 9, 1, 0, 0, NULL, 9, NULL, 9, NULL, 9), 0, 0, 0, 0));
    CHECK(fed_is(telvrang_feed(NULL, 0, 0, 1, 0, TABLES, out, sizeof out), 0, 0, 0, 1));
    CHECK(fed_is(telvrang_feed(line, 6, 0, 1, 0, TABLES, NULL, sizeof out), 0, 0, 1, 1));
    CHECK(fed_is(telvrang_feed(line, 6, 0, 1, 0, NO_BOOK, out, sizeof out), 6, 5, 0, 1)
          && memcmp(out, "X\t13\n", 5) == 0);
    CHECK(fed_is(telvrang_feed(line, 6, 0, 1, 0, NO_SUMS, out, sizeof out), 6, 5, 0, 1)
          && memcmp(out, "X\t13\n", 5) == 0);
    CHECK(is_kept());
}

void test_nulls(void)
{
    const struct transaction ten = {10, 3, 0, {8}, 1, {7}, 1, 500};
    fill(13);
    CHECK(open_engine(2, 0, 1) == 0);
    CHECK(waits(deliver(&ten), 1, 0, 1, 0));
    null_feed();
    null_tables();
    null_lists();
}
