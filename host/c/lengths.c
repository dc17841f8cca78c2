// Tables and lists of every length: too short, of no entries, and with memory behind them that can't be touched.
#define _DEFAULT_SOURCE
#include "checks.h"

#include <string.h>
#include <sys/mman.h>
#include <unistd.h>

// What takes a finish list is refused by one number, and all else by 13 where the two tables are too short. Nothing is
// changed.
static void all_refused(size_t book_words, size_t sum_amounts, size_t finish_words, uint32_t number)
{
    const uint32_t key = 1;
    const int64_t amount = 1;
    uint8_t out[TELVRANG_ANSWERS];
    bool is_short = book_words < TELVRANG_BOOK || sum_amounts < TELVRANG_SUMS;
    keep();
    CHECK(refused(telvrang_deliver_lent(40, 1, 0, &key, 1, &key, 1, &amount, 1, lent.book, book_words, lent.sums,
                                        sum_amounts, lent.finishes, finish_words),
                  number));
    CHECK(settled(telvrang_vote_lent(10, 1, 1, lent.book, book_words, lent.sums, sum_amounts, lent.finishes,
                                     finish_words),
                  number, 0));
    CHECK(settled(telvrang_change_lent(3, lent.book, book_words, lent.sums, sum_amounts, lent.finishes, finish_words),
                  number, 0));
    if (is_short) {
        CHECK(telvrang_open_lent(2, 0, 1, lent.book, book_words, lent.sums, sum_amounts) == 13);
        CHECK(unread(telvrang_read_lent(1, 0, lent.book, book_words, lent.sums, sum_amounts), 13));
        CHECK(unread(telvrang_read_newest_lent(1, lent.book, book_words, lent.sums, sum_amounts), 13));
        telvrang_fed fed = telvrang_feed_lent((const uint8_t *)"R\t1\t-\n", 6, 0, 1, 0, lent.book, book_words,
                                              lent.sums, sum_amounts, out, sizeof out);
        CHECK(fed.taken == 6 && fed.wrote == 5 && memcmp(out, "X\t13\n", 5) == 0);
        CHECK(fed.full == 0 && fed.opened == 1 && fed.skipping == 0);
    }
    CHECK(is_kept());
}

static void short_tables(void)
{
    const struct transaction ten = {10, 3, 0, {7}, 1, {7}, 1, 500};
    const size_t books[] = {0, 1, 6, TELVRANG_BOOK - 1};
    const size_t sums[] = {0, 1, 1024, TELVRANG_SUMS - 1};
    const size_t finishes[] = {0, 1, 62, TELVRANG_FINISHES - 1};
    fill(11);
    CHECK(open_engine(2, 0, 1) == 0);
    CHECK(waits(deliver(&ten), 1, 0, 1, 0));
    for (size_t i = 0; i < 4; i++) {
        all_refused(books[i], TELVRANG_SUMS, TELVRANG_FINISHES, 13);
        all_refused(TELVRANG_BOOK, sums[i], TELVRANG_FINISHES, 13);
        all_refused(TELVRANG_BOOK, TELVRANG_SUMS, finishes[i], 15);
        all_refused(books[i], sums[3 - i], finishes[i], 15);
    }
}

// A place for so many bytes, with a page right behind it that nobody may read or write.
static void *guarded(size_t bytes)
{
    size_t page = (size_t)sysconf(_SC_PAGESIZE);
    size_t room = (bytes + page - 1) / page * page;
    uint8_t *start = mmap(NULL, room + page, PROT_READ | PROT_WRITE, MAP_PRIVATE | MAP_ANONYMOUS, -1, 0);
    if (start == MAP_FAILED || mprotect(start + room, page, PROT_NONE) != 0)
        return NULL;
    return start + room - bytes;
}

// The whole run, with everything that is lent right in front of such a page; a list of no entries points at the page.
static void guarded_run(void)
{
    uint32_t *book = guarded(TELVRANG_BOOK * sizeof *book);
    int64_t *sums = guarded(TELVRANG_SUMS * sizeof *sums);
    uint32_t *finishes = guarded(TELVRANG_FINISHES * sizeof *finishes);
    uint32_t *key = guarded(sizeof *key);
    int64_t *amount = guarded(sizeof *amount);
    uint8_t *input = guarded(6);
    uint8_t *out = guarded(TELVRANG_ANSWERS);
    CHECK(book != NULL && sums != NULL && finishes != NULL && key != NULL && amount != NULL && input != NULL
          && out != NULL);
    if (book == NULL || sums == NULL || finishes == NULL || key == NULL || amount == NULL || input == NULL
        || out == NULL)
        return;
    CHECK(telvrang_open_lent(2, 0, 1, book, TELVRANG_BOOK, sums, TELVRANG_SUMS) == 0);
    *key = 7;
    *amount = 500;
    CHECK(waits(telvrang_deliver_lent(10, 3, 0, key, 1, key, 1, amount, 1, book, TELVRANG_BOOK, sums, TELVRANG_SUMS,
                                      finishes, TELVRANG_FINISHES),
                1, 0, 1, 0));
    CHECK(waits(telvrang_deliver_lent(11, 1, 0, key + 1, 0, key + 1, 0, amount + 1, 0, book, TELVRANG_BOOK, sums,
                                      TELVRANG_SUMS, finishes, TELVRANG_FINISHES),
                2, 0, 0, 1));
    CHECK(finishes[0] == 11 && finishes[1] == 1);
    CHECK(settled(telvrang_vote_lent(10, 1, 1, book, TELVRANG_BOOK, sums, TELVRANG_SUMS, finishes, TELVRANG_FINISHES),
                  0, 1));
    CHECK(finishes[0] == 10 && finishes[1] == 2);
    CHECK(
        settled(telvrang_change_lent(0, book, TELVRANG_BOOK, sums, TELVRANG_SUMS, finishes, TELVRANG_FINISHES), 0, 0));
    CHECK(reads(telvrang_read_lent(7, 1, book, TELVRANG_BOOK, sums, TELVRANG_SUMS), 1, 0));
    CHECK(reads(telvrang_read_newest_lent(7, book, TELVRANG_BOOK, sums, TELVRANG_SUMS), 2, 500));
    memcpy(input, "R\t7\t-\n", 6);
    telvrang_fed fed =
        telvrang_feed_lent(input, 6, 1, 1, 0, book, TELVRANG_BOOK, sums, TELVRANG_SUMS, out, TELVRANG_ANSWERS);
    CHECK(fed.taken == 6 && fed.wrote == 10 && memcmp(out, "R\t7\t2\t500\n", 10) == 0);
    fed =
        telvrang_feed_lent(input + 6, 0, 1, 1, 0, book, TELVRANG_BOOK, sums, TELVRANG_SUMS, out + TELVRANG_ANSWERS, 0);
    CHECK(fed.taken == 0 && fed.wrote == 0 && fed.full == 0 && fed.opened == 1 && fed.skipping == 0);
    CHECK(telvrang_open_lent(2, 0, 1, book + TELVRANG_BOOK, 0, sums + TELVRANG_SUMS, 0) == 13);
    CHECK(settled(telvrang_change_lent(0, book, TELVRANG_BOOK, sums, TELVRANG_SUMS, finishes + TELVRANG_FINISHES, 0),
                  15, 0));
}

void test_lengths(void)
{
    short_tables();
    guarded_run();
}
