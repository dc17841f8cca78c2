// What the tests of the interface share: checks that are counted, memory to lend, and short calls.
#ifndef CHECKS_H
#define CHECKS_H

#include "telvrang.h"

#include <stdbool.h>

// Counts a check, and tells one that fails. No assert.h: NDEBUG can't take it out.
#define CHECK(what) check((what), #what, __FILE__, __LINE__)
void check(bool holds, const char *what, const char *file, int line);
int checks_ended(void); // prints the count; the status to end with

#define EXCESS 5 // entries behind each table

struct lent {
    uint32_t book[TELVRANG_BOOK + EXCESS];
    int64_t sums[TELVRANG_SUMS + EXCESS];
    uint32_t finishes[TELVRANG_FINISHES + EXCESS];
};

extern struct lent lent;     // what the calls below are lent
extern uint32_t lent_excess; // entries that each table is lent longer than it needs

void fill(uint32_t pattern);                  // all memory holds a pattern, whatever it was
void keep(void);                              // keeps a copy of all memory
bool is_kept(void);                           // nothing has changed since
bool is_state_kept(const struct lent *other); // both tables are the other's, up to their excess

// Behind the tables, and behind so many finishes, the pattern still stands.
bool is_excess(uint32_t pattern, uint32_t finishes);

uint32_t open_engine(uint32_t partitions, uint32_t own, uint32_t k);

// A transaction with as many amounts as keys written, all of them `amount`.
struct transaction {
    uint32_t identity, set, st;
    uint32_t reads[16];
    size_t read_count;
    uint32_t keys[16];
    size_t key_count;
    int64_t amount;
};

telvrang_delivered deliver(const struct transaction *t);
telvrang_settled vote(uint32_t identity, uint32_t partition, uint32_t yes);
telvrang_settled change(uint32_t k);
telvrang_reading read_at(uint32_t key, uint32_t st);
telvrang_reading read_newest(uint32_t key);

// What an answer is.
bool waits(telvrang_delivered d, uint32_t dc, uint32_t place, uint32_t send, uint32_t finishes);
bool aborted(telvrang_delivered d, uint32_t dc, uint32_t reason, uint32_t send, uint32_t finishes);
bool refused(telvrang_delivered d, uint32_t number);
bool settled(telvrang_settled s, uint32_t refusal, uint32_t finishes);
bool reads(telvrang_reading r, uint32_t version, int64_t value);
bool unread(telvrang_reading r, uint32_t number);
bool finish(uint32_t entry, uint32_t identity, uint32_t version);

// The parts of the test.
void test_runs(void);
void test_lengths(void);
void test_nulls(void);
void test_refusals(void);
void test_pieces(void);

#endif
