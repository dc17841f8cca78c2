// Events that are taken: the scope document's whole run, every kind of answer, flags, and numbers at their ends. What
// must come is worked out by hand from the rules.
#include "checks.h"

// 10 and 11 of the whole run: 10 is global and reads and writes key 7, 11 is local, with key 8.
static const struct transaction ten = {10, 3, 0, {7}, 1, {7}, 1, 500};
static const struct transaction eleven = {11, 1, 0, {8}, 1, {8}, 1, -40};
static const struct transaction twelve = {12, 1, 1, {7}, 1, {7}, 1, 600};

static void whole_run(void)
{
    fill(0xdeadbeef);
    CHECK(open_engine(2, 0, 1) == 0);
    CHECK(waits(deliver(&ten), 1, 0, 1, 0));
    CHECK(is_excess(0xdeadbeef, 0));
    CHECK(waits(deliver(&eleven), 2, 0, 0, 1));
    CHECK(finish(0, 11, 1));
    CHECK(is_excess(0xdeadbeef, 1));
    CHECK(settled(vote(10, 1, 1), 0, 1));
    CHECK(finish(0, 10, 2));
    CHECK(is_excess(0xdeadbeef, 1));
    keep();
    CHECK(reads(read_newest(8), 2, -40));
    CHECK(reads(read_at(7, 1), 1, 0));
    CHECK(reads(read_at(8, 0), 0, 0));
    CHECK(reads(read_at(7, 2), 2, 500));
    CHECK(is_kept());
    CHECK(aborted(deliver(&twelve), 3, 1, 0, 0));
    CHECK(is_excess(0xdeadbeef, 1));
}

// A no: the head aborts once DC reaches its threshold, and writes nothing. One event can finish several.
static void no_vote(void)
{
    const struct transaction twenty = {20, 3, 0, {1}, 1, {1}, 1, 5};
    const struct transaction clashing = {21, 3, 0, {1}, 1, {2}, 1, 5};
    const struct transaction behind = {22, 1, 0, {0}, 0, {1}, 1, 9};
    fill(7);
    CHECK(open_engine(2, 0, 2) == 0);
    CHECK(waits(deliver(&twenty), 1, 0, 1, 0));
    CHECK(aborted(deliver(&clashing), 2, 2, 2, 0)); // it reads key 1, which 20 writes: reason 2, and a no is to be sent
    CHECK(settled(vote(20, 1, 0), 0, 0));           // DC is 2, the threshold of 20 is 3
    CHECK(waits(deliver(&behind), 3, 1, 0, 2));     // it writes what 20 has read, so it stands behind it; DC is 3 now
    CHECK(finish(0, 20, 0));
    CHECK(finish(1, 22, 1));
    CHECK(is_excess(7, 2));
    CHECK(reads(read_newest(1), 1, 9));
}

// Reason 3: a local one that reads what 30 writes, and writes what 30 has read. And threshold changes, which hold for
// later deliveries only.
static void no_place(void)
{
    const struct transaction thirty = {30, 3, 0, {7}, 1, {7}, 1, 1};
    const struct transaction placeless = {31, 1, 0, {7}, 1, {7}, 1, 2};
    fill(0);
    CHECK(open_engine(2, 0, 5) == 0);
    CHECK(waits(deliver(&thirty), 1, 0, 1, 0));
    CHECK(aborted(deliver(&placeless), 2, 3, 0, 0));
    CHECK(settled(change(31), 0, 0));
    CHECK(lent.book[4] == 31);
    CHECK(settled(vote(30, 1, 1), 0, 0)); // its threshold is still 6, and DC is 2
    CHECK(settled(change(0), 0, 0));
    CHECK(waits(deliver(&eleven), 3, 0, 0, 1)); // so it may pass
    CHECK(finish(0, 11, 1));
}

// A vote is yes for any flag but 0.
static void flags(void)
{
    static struct lent one;
    const uint32_t yes[] = {1, 2, 0x80000000, UINT32_MAX};
    for (size_t i = 0; i < sizeof yes / sizeof *yes; i++) {
        fill(3);
        CHECK(open_engine(2, 0, 0) == 0);
        CHECK(waits(deliver(&ten), 1, 0, 1, 0));
        CHECK(settled(vote(10, 1, yes[i]), 0, 1));
        CHECK(finish(0, 10, 1));
        CHECK(reads(read_newest(7), 1, 500));
        if (i == 0)
            one = lent;
        CHECK(is_state_kept(&one));
    }
    fill(3);
    CHECK(open_engine(2, 0, 0) == 0);
    CHECK(waits(deliver(&ten), 1, 0, 1, 0));
    CHECK(settled(vote(10, 1, 0), 0, 1));
    CHECK(finish(0, 10, 0));
    CHECK(reads(read_newest(7), 0, 0));
}

// The greatest and least numbers that are taken.
static void ends(void)
{
    const struct transaction greatest = {UINT32_MAX, 255, 0, {0, 1023}, 2, {0, 1, 2, 3, 4, 5, 6, 1023}, 8, INT64_MAX};
    const struct transaction least = {1, 128, 0, {0}, 0, {1022}, 1, INT64_MIN};
    const struct transaction nothing = {2, 128, 1, {0}, 0, {0}, 0, 0};
    fill(UINT32_MAX);
    CHECK(open_engine(8, 7, 31) == 0);
    CHECK(waits(deliver(&least), 1, 0, 0, 1));
    CHECK(finish(0, 1, 1));
    CHECK(reads(read_newest(1022), 1, INT64_MIN));
    CHECK(waits(deliver(&greatest), 2, 0, 1, 0));
    for (uint32_t partition = 0; partition < 7; partition++)
        CHECK(settled(vote(UINT32_MAX, partition, 1), 0, 0));
    for (uint32_t dc = 3; dc < 33; dc++)
        CHECK(waits(deliver(&nothing), dc, 0, 0, 1));
    CHECK(waits(deliver(&nothing), 33, 0, 0, 2)); // DC reaches 2 + 31: the head is ready behind the newcomer
    CHECK(finish(0, 2, 32));
    CHECK(finish(1, UINT32_MAX, 33));
    CHECK(reads(read_newest(1023), 33, INT64_MAX));
    CHECK(reads(read_newest(6), 33, INT64_MAX));
    CHECK(reads(read_newest(7), 33, 0));
}

// A copy of the tables is a copy of the engine.
static void copies(void)
{
    static struct lent copy, first;
    fill(9);
    CHECK(open_engine(2, 0, 1) == 0);
    CHECK(waits(deliver(&ten), 1, 0, 1, 0));
    copy = lent;
    CHECK(waits(deliver(&eleven), 2, 0, 0, 1));
    CHECK(settled(vote(10, 1, 1), 0, 1));
    first = lent;
    lent = copy;
    CHECK(!is_state_kept(&first));
    CHECK(waits(deliver(&eleven), 2, 0, 0, 1));
    CHECK(settled(vote(10, 1, 1), 0, 1));
    CHECK(is_state_kept(&first));
}

void test_runs(void)
{
    whole_run();
    no_vote();
    no_place();
    flags();
    ends();
    copies();
}
