// A log as text, in one piece and in any others, with buffers of every size. What must come is worked out by hand from
// the rules.
#include "checks.h"

#include <stdio.h>
#include <string.h>

#define MOST 8192

static char log_text[MOST], answers_text[MOST]; // a log, and the answers to it
static size_t log_bytes, answers_bytes;

static void put_both(const char *lines, const char *answers)
{
    strcat(log_text, lines);
    strcat(answers_text, answers);
}

// The whole run, among lines that are refused or can't be read: an empty one, and one too long. The last line lacks its
// newline.
static void make_log(void)
{
    char too_long[600];
    memset(too_long, 'R', sizeof too_long);
    too_long[sizeof too_long - 2] = '\n';
    too_long[sizeof too_long - 1] = 0;
    log_text[0] = answers_text[0] = 0;
    put_both("R\t7\t-\n", "X\t13\n");
    put_both("O\t2\t0\t1\n", "O\t2\t0\t1\n");
    put_both("D\t10\t3\t0\t7\t7=500\n", "W\t10\t1\t0\n");
    put_both("D\t11\t1\t0\t8\t8=-40\n", "W\t11\t2\t0\nC\t11\t1\n");
    put_both(too_long, "X\t14\n");
    put_both("V\t10\t1\tY\n", "V\t10\t1\nC\t10\t2\n");
    put_both("\n", "X\t14\n");
    put_both("R\t8\t-\n", "R\t8\t2\t-40\n");
    put_both("R\t7\t1\n", "R\t7\t1\t0\n");
    put_both("V\t10\t1\tY\n", "X\t9\n");
    put_both("O\t2\t0\t1\n", "X\t13\n");
    put_both("D\t12\t1\t1\t7\t7=600\n", "A\t12\t3\t1\n");
    put_both("K\t32\n", "X\t12\n");
    put_both(too_long, "X\t14\n");
    put_both("K\t0\n", "K\t0\n");
    put_both("R\t7\t2", "R\t7\t2\t500\n");
    log_bytes = strlen(log_text);
    answers_bytes = strlen(answers_text);
}

// What calls gave together.
struct given {
    uint8_t text[MOST];
    size_t bytes;
    uint32_t opened, skipping;
};

// The log in pieces of so many bytes, each with a buffer of so many, and yes said by so great a flag.
static void feed_pieces(struct given *g, size_t piece, size_t out_bytes, uint32_t yes)
{
    uint8_t held[MOST], out[MOST];
    size_t kept = 0, next = 0;
    bool all = false;
    memset(g, 0, sizeof *g);
    fill(41);
    while (!all) {
        size_t more = log_bytes - next < piece ? log_bytes - next : piece;
        memcpy(held + kept, log_text + next, more);
        kept += more;
        next += more;
        all = next == log_bytes && more == 0;
        uint32_t full = 1;
        while (full) {
            memset(out, 0xee, sizeof out);
            telvrang_fed fed = telvrang_feed(held, kept, all ? yes : 0, g->opened ? yes : 0, g->skipping ? yes : 0,
                                             lent.book, TELVRANG_BOOK, lent.sums, TELVRANG_SUMS, out, out_bytes);
            bool fits = fed.taken <= kept && fed.wrote <= out_bytes && g->bytes + fed.wrote <= sizeof g->text;
            bool goes_on = fed.full == 0 || fed.taken > 0;
            bool is_flag = fed.full <= 1 && fed.opened <= 1 && fed.skipping <= 1;
            bool untouched = true;
            for (size_t i = fed.wrote; i < sizeof out; i++)
                untouched = untouched && out[i] == 0xee;
            if (!fits || !goes_on || !is_flag || !untouched) {
                CHECK(fits);
                CHECK(goes_on);
                CHECK(is_flag);
                CHECK(untouched);
                return;
            }
            memcpy(g->text + g->bytes, out, fed.wrote);
            g->bytes += fed.wrote;
            kept -= fed.taken;
            memmove(held, held + fed.taken, kept);
            g->opened = fed.opened;
            g->skipping = fed.skipping;
            full = fed.full;
        }
        if (kept > 512) {
            CHECK(kept <= 512);
            return;
        }
    }
    CHECK(kept == 0);
}

static bool is_answered(const struct given *g)
{
    return g->bytes == answers_bytes && memcmp(g->text, answers_text, answers_bytes) == 0 && g->opened == 1
           && g->skipping == 0;
}

static void any_pieces(void)
{
    static struct lent one;
    struct given g;
    const size_t pieces[] = {MOST, 1, 2, 3, 7, 64, 511, 512, 513, 514};
    const size_t buffers[] = {MOST, TELVRANG_ANSWERS, TELVRANG_ANSWERS + 1};
    const uint32_t yes[] = {1, 2, UINT32_MAX};
    make_log();
    for (size_t i = 0; i < sizeof pieces / sizeof *pieces; i++)
        for (size_t j = 0; j < sizeof buffers / sizeof *buffers; j++)
            for (size_t k = 0; k < sizeof yes / sizeof *yes; k++) {
                feed_pieces(&g, pieces[i], buffers[j], yes[k]);
                CHECK(is_answered(&g));
                if (i == 0 && j == 0 && k == 0)
                    one = lent;
                CHECK(is_state_kept(&one));
                CHECK(is_excess(41, 0)); // the finish list isn't lent
            }
}

static bool fed_is(telvrang_fed fed, size_t taken, size_t wrote, uint32_t full, uint32_t opened, uint32_t skipping)
{
    return fed.taken == taken && fed.wrote == wrote && fed.full == full && fed.opened == opened
           && fed.skipping == skipping;
}

static telvrang_fed feed(const char *text, uint32_t at_end, uint32_t opened, uint32_t skipping, uint8_t *out,
                         size_t out_bytes)
{
    return telvrang_feed((const uint8_t *)text, strlen(text), at_end, opened, skipping, lent.book, TELVRANG_BOOK,
                         lent.sums, TELVRANG_SUMS, out, out_bytes);
}

// With a buffer one byte short of the least nothing is taken and nothing written; with the least one line is, since
// then too little is free behind its answer.
static void little_room(void)
{
    uint8_t out[2048];
    bool untouched = true;
    memset(out, 0xee, sizeof out);
    fill(43);
    keep();
    for (uint32_t at_end = 0; at_end < 2; at_end++) {
        CHECK(fed_is(feed("O\t2\t0\t1\nK\t5\n", at_end, 0, 0, out, TELVRANG_ANSWERS - 1), 0, 0, 1, 0, 0));
        CHECK(fed_is(feed("O\t2\t0\t1\nK\t5\n", at_end, 0, 0, out, 0), 0, 0, 1, 0, 0));
    }
    CHECK(fed_is(feed("O\t2\t0\t1", 0, 0, 0, out, 0), 0, 0, 0, 0, 0)); // no line to answer, so no room is needed
    CHECK(fed_is(feed("O\t2\t0\t1", 1, 0, 0, out, TELVRANG_ANSWERS - 1), 0, 0, 1, 0, 0));
    CHECK(fed_is(feed("", 1, 1, 0, out, 0), 0, 0, 0, 1, 0));
    CHECK(fed_is(feed("rest of it\n", 0, 1, 1, out, 0), 11, 0, 0, 1, 0)); // a line that is skipped has no answer
    CHECK(fed_is(feed("rest of it", 0, 1, 1, out, 0), 10, 0, 0, 1, 1));
    for (size_t i = 0; i < sizeof out; i++)
        untouched = untouched && out[i] == 0xee;
    CHECK(untouched);
    CHECK(is_kept());
    CHECK(fed_is(feed("O\t2\t0\t1\nK\t5\n", 1, 0, 0, out, TELVRANG_ANSWERS), 8, 8, 1, 1, 0));
    CHECK(memcmp(out, "O\t2\t0\t1\n\xee", 9) == 0);
    CHECK(fed_is(feed("K\t5\n", 1, 1, 0, out, TELVRANG_ANSWERS), 4, 4, 0, 1, 0));
    CHECK(memcmp(out, "K\t5\n0\t1\n\xee", 9) == 0);
    CHECK(lent.book[4] == 5);
}

// Whether an engine is opened is the caller's to say; where it says so of garbage, each event is refused.
static void standings(void)
{
    uint8_t out[2048];
    fill(47);
    keep();
    CHECK(fed_is(feed("R\t7\t-\nK\t1\n", 1, 1, 0, out, sizeof out), 10, 10, 0, 1, 0));
    CHECK(memcmp(out, "X\t13\nX\t13\n", 10) == 0);
    CHECK(fed_is(feed("O\t9\t0\t1\n", 0, 0, 0, out, sizeof out), 8, 5, 0, 0, 0));
    CHECK(memcmp(out, "X\t13\n", 5) == 0);
    CHECK(is_kept());
    CHECK(open_engine(2, 0, 1) == 0);
    keep();
    CHECK(fed_is(feed("R\t7\t-\nO\t2\t0\t1", 0, 0, 0, out, sizeof out), 6, 5, 0, 0, 0));
    CHECK(memcmp(out, "X\t13\n", 5) == 0);
    CHECK(is_kept());
    CHECK(fed_is(feed("R\t7\t-\n", 0, 1, 0, out, sizeof out), 6, 8, 0, 1, 0));
    CHECK(memcmp(out, "R\t7\t0\t0\n", 8) == 0);
    CHECK(is_kept());
}

void test_pieces(void)
{
    any_pieces();
    little_room();
    standings();
}
