// Every number that refuses a call, each with its condition: the number alone is answered, and every lent byte stays as
// it was.
#include "checks.h"

static void refuses(const struct transaction *t, uint32_t number)
{
    keep();
    CHECK(refused(deliver(t), number));
    CHECK(is_kept());
}

static void vote_refused(uint32_t identity, uint32_t partition, uint32_t number)
{
    for (uint32_t yes = 0; yes < 3; yes++) {
        keep();
        CHECK(settled(vote(identity, partition, yes), number, 0));
        CHECK(is_kept());
    }
}

static void read_refused(uint32_t key, uint32_t st, uint32_t number)
{
    keep();
    CHECK(unread(read_at(key, st), number));
    CHECK(is_kept());
}

static const struct transaction ten = {10, 3, 0, {7}, 1, {7}, 1, 500};

// 1 to 5, of an engine with 3 partitions and one that waits.
static void deliveries(void)
{
    struct transaction t = {11, 1, 0, {1, 2}, 2, {3}, 1, 9};
    fill(17);
    CHECK(open_engine(3, 0, 1) == 0);
    CHECK(waits(deliver(&ten), 1, 0, 1, 0));
    const uint32_t sets[] = {0, 2, 6, 8, 9, 0x80000001, UINT32_MAX};
    for (size_t i = 0; i < sizeof sets / sizeof *sets; i++) {
        t.set = sets[i];
        refuses(&t, 1);
    }
    const struct transaction many_read = {11, 1, 0, {0, 1, 2, 3, 4, 5, 6, 7, 8}, 9, {3}, 1, 9};
    const struct transaction many_written = {11, 1, 0, {0}, 0, {0, 1, 2, 3, 4, 5, 6, 7, 2000}, 9, 9};
    const struct transaction far_read = {11, 1, 0, {1024}, 1, {3}, 1, 9};
    const struct transaction far_written = {11, 1, 0, {1}, 1, {3, UINT32_MAX}, 2, 9};
    const struct transaction equal_read = {11, 1, 0, {5, 5}, 2, {3}, 1, 9};
    const struct transaction falling_written = {11, 1, 0, {1}, 1, {4, 3}, 2, 9};
    const struct transaction nobody = {0, 1, 0, {1}, 1, {3}, 1, 9};
    const struct transaction ahead = {11, 1, 1, {1}, 1, {3}, 1, 9};
    const struct transaction far_ahead = {11, 3, UINT32_MAX, {1}, 1, {3}, 1, 9};
    refuses(&many_read, 2);
    refuses(&many_written, 2);
    refuses(&far_read, 3);
    refuses(&far_written, 3);
    refuses(&equal_read, 3);
    refuses(&falling_written, 3);
    refuses(&nobody, 4);
    refuses(&ten, 4);
    refuses(&ahead, 5);
    refuses(&far_ahead, 5);
    read_refused(1024, 0, 3);
    read_refused(UINT32_MAX, UINT32_MAX, 3);
    read_refused(1023, 1, 5);
    keep();
    CHECK(unread(read_newest(1024), 3));
    CHECK(reads(read_newest(1023), 0, 0));
    CHECK(is_kept());
}

// 6: once 65 commits came, version 0 is below the floor.
static void below_floor(void)
{
    fill(19);
    CHECK(open_engine(1, 0, 0) == 0);
    for (uint32_t i = 0; i < 65; i++) {
        const struct transaction t = {1 + i, 1, i, {0}, 0, {i}, 1, 100 + i};
        CHECK(waits(deliver(&t), 1 + i, 0, 0, 1));
    }
    const struct transaction folded = {1, 1, 0, {1}, 1, {3}, 1, 9};
    const struct transaction kept = {1, 1, 1, {70}, 1, {3}, 1, 9};
    refuses(&folded, 6);
    read_refused(5, 0, 6);
    CHECK(reads(read_at(0, 1), 1, 100));
    CHECK(reads(read_at(1, 1), 1, 0));
    CHECK(reads(read_newest(64), 65, 164));
    CHECK(waits(deliver(&kept), 66, 0, 0, 1));
}

// 7: 32 wait, each for its vote.
static void full_list(void)
{
    fill(23);
    CHECK(open_engine(2, 1, 31) == 0);
    for (uint32_t i = 0; i < 32; i++) {
        const struct transaction t = {100 + i, 3, 0, {0}, 0, {0}, 0, 0};
        CHECK(waits(deliver(&t), 1 + i, i, 1, 0));
    }
    const struct transaction local = {1, 2, 0, {1}, 1, {3}, 1, 9};
    const struct transaction global = {1, 3, 0, {1}, 1, {3}, 1, 9};
    refuses(&local, 7);
    refuses(&global, 7);
    CHECK(settled(vote(100, 0, 1), 0, 1));
    CHECK(finish(0, 100, 1));
    // The others are heard before their threshold, and the last delivery finishes as many as are ready.
    for (uint32_t i = 1; i < 32; i++)
        CHECK(settled(vote(100 + i, 0, i % 2), 0, 0));
    CHECK(waits(deliver(&local), 33, 0, 0, 2));
    CHECK(finish(0, 1, 2));
    CHECK(finish(1, 101, 3));
}

// 32 finishes of one event: the whole finish list.
static void whole_list(void)
{
    fill(29);
    CHECK(open_engine(2, 1, 0) == 0);
    for (uint32_t i = 0; i < 32; i++) {
        const struct transaction t = {100 + i, 3, 0, {0}, 0, {0}, 0, 0};
        CHECK(waits(deliver(&t), 1 + i, i, 1, 0));
    }
    for (uint32_t i = 31; i > 0; i--)
        CHECK(settled(vote(100 + i, 0, i % 2), 0, 0));
    CHECK(settled(vote(100, 0, 0), 0, 32));
    for (uint32_t i = 0; i < 32; i++)
        CHECK(finish(i, 100 + i, i % 2 == 0 ? 0 : (i + 1) / 2));
    CHECK(is_excess(29, 32));
}

// 8: DC is a word of the book.
static void last_delivery(void)
{
    const struct transaction eleven = {11, 1, 0, {8}, 1, {8}, 1, -40};
    fill(31);
    CHECK(open_engine(1, 0, 0) == 0);
    lent.book[3] = 3999999999;
    CHECK(waits(deliver(&eleven), 4000000000, 0, 0, 1));
    refuses(&eleven, 8);
}

// 9 to 12.
static void votes_and_changes(void)
{
    fill(37);
    CHECK(open_engine(3, 0, 1) == 0);
    CHECK(waits(deliver(&ten), 1, 0, 1, 0));
    vote_refused(11, 1, 9);
    vote_refused(0, 1, 9);
    vote_refused(10, 0, 10);
    vote_refused(10, 2, 10);
    vote_refused(10, 8, 10);
    vote_refused(10, UINT32_MAX, 10);
    CHECK(settled(vote(10, 1, 0), 0, 0));
    vote_refused(10, 1, 11);
    keep();
    CHECK(settled(change(32), 12, 0));
    CHECK(settled(change(UINT32_MAX), 12, 0));
    CHECK(is_kept());
}

// 13: of an opening, sizes; of an event, a state that isn't sound; of a delivery, amounts not as many as its keys.
static void unusable(void)
{
    const uint32_t sizes[][3] = {{0, 0, 0},  {9, 0, 0},  {2, 2, 0},
                                 {8, 8, 31}, {2, 0, 32}, {UINT32_MAX, UINT32_MAX, UINT32_MAX}};
    const struct transaction eleven = {11, 1, 0, {8}, 1, {8}, 1, -40};
    const uint32_t key = 8;
    const int64_t amounts[2] = {1, 2};
    fill(0x5a5a5a5a);
    keep();
    for (size_t i = 0; i < sizeof sizes / sizeof *sizes; i++)
        CHECK(open_engine(sizes[i][0], sizes[i][1], sizes[i][2]) == 13);
    CHECK(is_kept());
    const uint32_t garbage[] = {0, 1, 0x5a5a5a5a, UINT32_MAX};
    for (size_t i = 0; i < sizeof garbage / sizeof *garbage; i++) {
        fill(garbage[i]);
        refuses(&eleven, 13);
        vote_refused(10, 1, 13);
        read_refused(7, 0, 13);
        CHECK(unread(read_newest(7), 13));
        CHECK(settled(change(1), 13, 0));
        CHECK(is_kept());
    }
    CHECK(open_engine(2, 0, 1) == 0);
    keep();
    for (size_t keys = 0; keys < 2; keys++)
        CHECK(refused(telvrang_deliver_lent(11, 1, 0, &key, 1, &key, keys, amounts, keys + 1, lent.book, TELVRANG_BOOK,
                                            lent.sums, TELVRANG_SUMS, lent.finishes, TELVRANG_FINISHES),
                      13));
    CHECK(refused(telvrang_deliver_lent(11, 1, 0, &key, 1, &key, 1, amounts, 0, lent.book, TELVRANG_BOOK, lent.sums,
                                        TELVRANG_SUMS, lent.finishes, TELVRANG_FINISHES),
                  13));
    CHECK(is_kept());
    lent.book[5] = 33; // so many wait: no sound state has more than 32
    refuses(&eleven, 13);
    keep();
    CHECK(refused(telvrang_deliver_lent(0, 0, 9, &key, 1, &key, 1, amounts, 2, lent.book, TELVRANG_BOOK, lent.sums,
                                        TELVRANG_SUMS, lent.finishes, 63),
                  15)); // 15 comes before 13
    CHECK(is_kept());
}

void test_refusals(void)
{
    deliveries();
    below_floor();
    full_list();
    whole_list();
    last_delivery();
    votes_and_changes();
    unusable();
}
