// The count of checks, the memory that is lent, and short calls.
#include "checks.h"

#include <stdio.h>
#include <string.h>

static unsigned passed, failed;

void check(bool holds, const char *what, const char *file, int line)
{
    if (holds) {
        passed++;
    } else {
        failed++;
        printf("%s:%d: not so: %s\n", file, line, what);
    }
}

int checks_ended(void)
{
    printf("%u checks passed, %u failed\n", passed, failed);
    return failed == 0 && passed > 0 ? 0 : 1;
}

struct lent lent;
uint32_t lent_excess;
static struct lent kept;

void fill(uint32_t pattern)
{
    for (size_t i = 0; i < TELVRANG_BOOK + EXCESS; i++)
        lent.book[i] = pattern;
    for (size_t i = 0; i < TELVRANG_SUMS + EXCESS; i++)
        lent.sums[i] = pattern;
    for (size_t i = 0; i < TELVRANG_FINISHES + EXCESS; i++)
        lent.finishes[i] = pattern;
}

void keep(void)
{
    kept = lent;
}

bool is_kept(void)
{
    return memcmp(lent.book, kept.book, sizeof lent.book) == 0 && memcmp(lent.sums, kept.sums, sizeof lent.sums) == 0
           && memcmp(lent.finishes, kept.finishes, sizeof lent.finishes) == 0;
}

bool is_state_kept(const struct lent *other)
{
    return memcmp(lent.book, other->book, TELVRANG_BOOK * sizeof *lent.book) == 0
           && memcmp(lent.sums, other->sums, TELVRANG_SUMS * sizeof *lent.sums) == 0;
}

bool is_excess(uint32_t pattern, uint32_t finishes)
{
    bool all = true;
    for (size_t i = TELVRANG_BOOK; i < TELVRANG_BOOK + EXCESS; i++)
        all = all && lent.book[i] == pattern;
    for (size_t i = TELVRANG_SUMS; i < TELVRANG_SUMS + EXCESS; i++)
        all = all && lent.sums[i] == (int64_t)pattern;
    for (size_t i = 2 * (size_t)finishes; i < TELVRANG_FINISHES + EXCESS; i++)
        all = all && lent.finishes[i] == pattern;
    return all;
}

uint32_t open_engine(uint32_t partitions, uint32_t own, uint32_t k)
{
    return telvrang_open(partitions, own, k, lent.book, TELVRANG_BOOK + lent_excess, lent.sums,
                         TELVRANG_SUMS + lent_excess);
}

telvrang_delivered deliver(const struct transaction *t)
{
    int64_t amounts[16];
    for (size_t i = 0; i < 16; i++)
        amounts[i] = t->amount;
    return telvrang_deliver(t->identity, t->set, t->st, t->reads, t->read_count, t->keys, t->key_count, amounts,
                            t->key_count, lent.book, TELVRANG_BOOK + lent_excess, lent.sums,
                            TELVRANG_SUMS + lent_excess, lent.finishes, TELVRANG_FINISHES + lent_excess);
}

telvrang_settled vote(uint32_t identity, uint32_t partition, uint32_t yes)
{
    return telvrang_vote(identity, partition, yes, lent.book, TELVRANG_BOOK + lent_excess, lent.sums,
                         TELVRANG_SUMS + lent_excess, lent.finishes, TELVRANG_FINISHES + lent_excess);
}

telvrang_settled change(uint32_t k)
{
    return telvrang_change(k, lent.book, TELVRANG_BOOK + lent_excess, lent.sums, TELVRANG_SUMS + lent_excess,
                           lent.finishes, TELVRANG_FINISHES + lent_excess);
}

telvrang_reading read_at(uint32_t key, uint32_t st)
{
    return telvrang_read(key, st, lent.book, TELVRANG_BOOK + lent_excess, lent.sums, TELVRANG_SUMS + lent_excess);
}

telvrang_reading read_newest(uint32_t key)
{
    return telvrang_read_newest(key, lent.book, TELVRANG_BOOK + lent_excess, lent.sums, TELVRANG_SUMS + lent_excess);
}

bool waits(telvrang_delivered d, uint32_t dc, uint32_t place, uint32_t send, uint32_t finishes)
{
    return d.refusal == 0 && d.dc == dc && d.reason == 0 && d.place == place && d.send == send
           && d.finishes == finishes;
}

bool aborted(telvrang_delivered d, uint32_t dc, uint32_t reason, uint32_t send, uint32_t finishes)
{
    return d.refusal == 0 && d.dc == dc && d.reason == reason && d.place == 0 && d.send == send
           && d.finishes == finishes;
}

bool refused(telvrang_delivered d, uint32_t number)
{
    return d.refusal == number && d.dc == 0 && d.reason == 0 && d.place == 0 && d.send == 0 && d.finishes == 0;
}

bool settled(telvrang_settled s, uint32_t refusal, uint32_t finishes)
{
    return s.refusal == refusal && s.finishes == finishes;
}

bool reads(telvrang_reading r, uint32_t version, int64_t value)
{
    return r.refusal == 0 && r.version == version && r.value == value;
}

bool unread(telvrang_reading r, uint32_t number)
{
    return r.refusal == number && r.version == 0 && r.value == 0;
}

bool finish(uint32_t entry, uint32_t identity, uint32_t version)
{
    return lent.finishes[2 * entry] == identity && lent.finishes[2 * entry + 1] == version;
}
