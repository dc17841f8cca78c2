// The engine of a billing ledger for pilot stations, one partition of it, for C (C11) and C++ (C++17). What is declared
// here stands in the static library crates/host/out/libhost.a. Each of its functions is proved to answer what the rules
// say; crates/host/specs/Faces.antt has what C gets of each answer.
//
// WHAT IS LENT. The library keeps no state of its own and allocates nothing. The whole state of an engine stands in two
// tables, its book and its sums, which the caller lends to each call:
//
//     uint32_t book[TELVRANG_BOOK];
//     int64_t sums[TELVRANG_SUMS];
//     uint32_t finishes[TELVRANG_FINISHES];
//
// - All that is lent is lent for the call alone: no pointer is kept. What is lent by a pointer to const is only read.
// - A copy of both tables is a copy of the engine, also one that was stored, on a machine of the same order of bytes.
// - Tables of any content may be lent. An engine is opened in them whatever they hold; where they hold no sound state,
//   an event is refused by 13.
// - A longer table is taken, and its excess is never touched. A shorter one is refused by 13, a shorter finish list
//   by 15.
// - The finish list is only written. "Finishes fill the finish list from its start; entries past their number keep what
//   they held." Entry i is finishes[2 * i], the identity, and finishes[2 * i + 1], the version that it commits as, or 0
//   where it aborts.
//
// What the caller owes, since the library can't check it:
//
// - Each length is true: so many entries stand at the pointer, which is aligned for them.
// - No two of the memories lent to one call overlap.
// - While a call runs, no other thread writes to what it is lent, nor reads what it is lent without const. On different
//   tables calls may run at the same time, and so may reads of the same ones.
// - No null pointer goes to a function whose name ends in `_lent`, not even beside a length of 0. The functions without
//   that ending take null pointers too: a null pointer is a list of no entries, whatever its length says; but reads,
//   keys or amounts of a delivery that are null beside a length above 0 are refused by 13.
//
// WHAT IS ANSWERED. `refusal`, or of an opening the answer itself, is 0 or the number that refuses the call. "Every
// refusal returns its number alone, finishes nothing, leaves DC and all lent memory untouched, and is given only when
// its condition holds and no earlier check applies." So the rest of the answer is 0 then. 15 is looked at first, then
// 13, then the event's own numbers in rising order:
//
//      1  delivery: partition set lacks our own, or names one beyond the number opened
//      2  delivery: more than 8 keys read or more than 8 written
//      3  delivery or read: a key over 1,023; delivery: keys not strictly ascending
//      4  delivery: identity 0, or an identity now waiting
//      5  delivery or read: st > SC
//      6  delivery or read: st < floor, which is SC - 64, or 0 if SC is smaller
//      7  delivery: 32 already waiting
//      8  delivery: DC is 4,000,000,000
//      9  vote: identity not waiting
//     10  vote: from our own partition, or one not involved
//     11  vote: that partition has voted on it
//     12  change: k over 31
//     13  opening: sizes outside the table (1 to 8 partitions, our own one of them, k 0 to 31); any event: state not
//         sound; either: a lent table too short; delivery: not as many amounts as keys written, or a null list beside a
//         length above 0
//     14  a line that can't be read: told in the text of `telvrang_feed` alone
//     15  delivery, vote, change: the lent finish list holds fewer than 32 entries
//
// SC is the version of the newest commit; DC counts the deliveries taken, also those aborted. Words 0 to 5 of a book are
// the partitions, our own one, SC, DC, k and how many wait: they may be read, and are written by the library alone.
// docs/NUMBERS.md says what to do about each number.
#ifndef TELVRANG_H
#define TELVRANG_H

#include <stddef.h>
#include <stdint.h>

#ifdef __cplusplus
extern "C" {
#endif

#define TELVRANG_BOOK 2310    // words of a book
#define TELVRANG_SUMS 1792    // amounts of its sums
#define TELVRANG_FINISHES 64  // words of a finish list: 32 entries of two words
#define TELVRANG_ANSWERS 1024 // bytes: room for the answers of one event, the least buffer with which a feed goes on

// Of a delivery.
typedef struct telvrang_delivered {
    uint32_t refusal;  // 0, or the number that refuses it
    uint32_t dc;       // DC after it: "An aborted delivery still counts in DC."
    uint32_t reason;   // 0: it waits. Or it is aborted: 1, it clashes with a commit of version st+1 to SC; 2, a global
                       // one clashes with a waiting entry; 3, a local one finds no place
    uint32_t place;    // where it waits, "the one before closing"; 0 where it is aborted
    uint32_t send;     // "which vote to send": 0 none, since it is local; 1 yes; 2 no
    uint32_t finishes; // so many entries were written to the finish list
} telvrang_delivered;

// Of a vote, and of a threshold change.
typedef struct telvrang_settled {
    uint32_t refusal;  // 0, or the number that refuses it
    uint32_t finishes; // so many entries were written to the finish list
} telvrang_settled;

// Of a read.
typedef struct telvrang_reading {
    int64_t value;    // of the newest version of the key that is at most the version read at
    uint32_t version; // the version read at: st, or SC where none is given
    uint32_t refusal; // 0, or the number that refuses it
} telvrang_reading;

// Of a piece of a log.
typedef struct telvrang_fed {
    size_t taken;      // so many bytes of the input: give the others again, in front of what comes next
    size_t wrote;      // so many bytes of answers, at the start of `out`; what stands behind them is untouched
    uint32_t full;     // 1: it stopped for want of room, and fewer than TELVRANG_ANSWERS bytes are free in `out`.
                       // 0: at most the beginning of one line is left, up to 512 bytes, and nothing at the end
    uint32_t opened;   // 1 where an engine is opened, else 0: give it to the next call
    uint32_t skipping; // 1 where the text stands inside a line that is too long, else 0: give it to the next call
} telvrang_fed;

// Opens an engine: so many partitions, 1 to 8, numbered from 0; `own`, our own one of them; the threshold k, 0 to 31.
// Then every key holds 0, at version 0. Answers 0 or 13.
uint32_t telvrang_open_lent(uint32_t partitions, uint32_t own, uint32_t k, uint32_t *book, size_t book_words,
                            int64_t *sums, size_t sum_amounts);

// Delivers a transaction, in the order of the log.
//   identity            1 to 4,294,967,295, and of none that waits
//   set                 its partitions, one bit each: bit p is partition p. "It is local when its only partition is the
//                       engine's own, otherwise global."
//   st                  its snapshot, the version at which it has read
//   reads, read_count   the keys read: up to 8, 0 to 1,023, strictly ascending
//   keys, key_count     the keys written, likewise
//   amounts             the value written to each of them, in the same order; amount_count is key_count
telvrang_delivered telvrang_deliver_lent(uint32_t identity, uint32_t set, uint32_t st, const uint32_t *reads,
                                         size_t read_count, const uint32_t *keys, size_t key_count,
                                         const int64_t *amounts, size_t amount_count, uint32_t *book, size_t book_words,
                                         int64_t *sums, size_t sum_amounts, uint32_t *finishes, size_t finish_words);

// Stores the vote of another partition on a waiting global transaction: no where `yes` is 0, else yes.
telvrang_settled telvrang_vote_lent(uint32_t identity, uint32_t partition, uint32_t yes, uint32_t *book,
                                    size_t book_words, int64_t *sums, size_t sum_amounts, uint32_t *finishes,
                                    size_t finish_words);

// Changes the threshold: "The new k holds for later deliveries only."
telvrang_settled telvrang_change_lent(uint32_t k, uint32_t *book, size_t book_words, int64_t *sums, size_t sum_amounts,
                                      uint32_t *finishes, size_t finish_words);

// Reads a key at version st.
telvrang_reading telvrang_read_lent(uint32_t key, uint32_t st, const uint32_t *book, size_t book_words,
                                    const int64_t *sums, size_t sum_amounts);

// Reads a key at SC.
telvrang_reading telvrang_read_newest_lent(uint32_t key, const uint32_t *book, size_t book_words, const int64_t *sums,
                                           size_t sum_amounts);

// Answers the next lines of a log as text, which may be cut anywhere (README.md shows its form). It holds a finish list
// of its own, so 15 is never given.
//   input              what the call before left of its input, and what is new behind it; a buffer of 513 bytes or more
//                      always goes on
//   at_end             0 while more may come, else the log ends with this input: its last line then needs no newline
//   opened, skipping   0 and 0 for the first piece of a log (1 and 0 on tables in which a call has opened an engine),
//                      then what the call before answered; all but 0 is yes. The tables are those that it left
//   out                takes the answers: a line is answered where TELVRANG_ANSWERS bytes are free. With fewer bytes in
//                      all no line is ever answered, and `full` stays 1
telvrang_fed telvrang_feed_lent(const uint8_t *input, size_t input_bytes, uint32_t at_end, uint32_t opened,
                                uint32_t skipping, uint32_t *book, size_t book_words, int64_t *sums, size_t sum_amounts,
                                uint8_t *out, size_t out_bytes);

// The same functions with null pointers allowed. A list of no entries is neither read nor written, so that any place
// stands for it.

// How many entries are lent.
static inline size_t telvrang_entries(const void *list, size_t entries)
{
    return list != NULL ? entries : 0;
}

static inline uint32_t telvrang_open(uint32_t partitions, uint32_t own, uint32_t k, uint32_t *book, size_t book_words,
                                     int64_t *sums, size_t sum_amounts)
{
    uint32_t word = 0;
    int64_t amount = 0;
    return telvrang_open_lent(partitions, own, k, book != NULL ? book : &word, telvrang_entries(book, book_words),
                              sums != NULL ? sums : &amount, telvrang_entries(sums, sum_amounts));
}

// Keys or amounts that are null beside a length above 0 would make it another transaction. They are a lent table too
// short: no book is lent then.
static inline telvrang_delivered telvrang_deliver(uint32_t identity, uint32_t set, uint32_t st, const uint32_t *reads,
                                                  size_t read_count, const uint32_t *keys, size_t key_count,
                                                  const int64_t *amounts, size_t amount_count, uint32_t *book,
                                                  size_t book_words, int64_t *sums, size_t sum_amounts,
                                                  uint32_t *finishes, size_t finish_words)
{
    uint32_t word = 0;
    int64_t amount = 0;
    size_t reads_lent = telvrang_entries(reads, read_count);
    size_t keys_lent = telvrang_entries(keys, key_count);
    size_t amounts_lent = telvrang_entries(amounts, amount_count);
    int whole = reads_lent == read_count && keys_lent == key_count && amounts_lent == amount_count;
    return telvrang_deliver_lent(identity, set, st, reads != NULL ? reads : &word, reads_lent,
                                 keys != NULL ? keys : &word, keys_lent, amounts != NULL ? amounts : &amount,
                                 amounts_lent, book != NULL ? book : &word,
                                 whole ? telvrang_entries(book, book_words) : 0, sums != NULL ? sums : &amount,
                                 telvrang_entries(sums, sum_amounts), finishes != NULL ? finishes : &word,
                                 telvrang_entries(finishes, finish_words));
}

static inline telvrang_settled telvrang_vote(uint32_t identity, uint32_t partition, uint32_t yes, uint32_t *book,
                                             size_t book_words, int64_t *sums, size_t sum_amounts, uint32_t *finishes,
                                             size_t finish_words)
{
    uint32_t word = 0;
    int64_t amount = 0;
    return telvrang_vote_lent(identity, partition, yes, book != NULL ? book : &word, telvrang_entries(book, book_words),
                              sums != NULL ? sums : &amount, telvrang_entries(sums, sum_amounts),
                              finishes != NULL ? finishes : &word, telvrang_entries(finishes, finish_words));
}

static inline telvrang_settled telvrang_change(uint32_t k, uint32_t *book, size_t book_words, int64_t *sums,
                                               size_t sum_amounts, uint32_t *finishes, size_t finish_words)
{
    uint32_t word = 0;
    int64_t amount = 0;
    return telvrang_change_lent(k, book != NULL ? book : &word, telvrang_entries(book, book_words),
                                sums != NULL ? sums : &amount, telvrang_entries(sums, sum_amounts),
                                finishes != NULL ? finishes : &word, telvrang_entries(finishes, finish_words));
}

static inline telvrang_reading telvrang_read(uint32_t key, uint32_t st, const uint32_t *book, size_t book_words,
                                             const int64_t *sums, size_t sum_amounts)
{
    uint32_t word = 0;
    int64_t amount = 0;
    return telvrang_read_lent(key, st, book != NULL ? book : &word, telvrang_entries(book, book_words),
                              sums != NULL ? sums : &amount, telvrang_entries(sums, sum_amounts));
}

static inline telvrang_reading telvrang_read_newest(uint32_t key, const uint32_t *book, size_t book_words,
                                                    const int64_t *sums, size_t sum_amounts)
{
    uint32_t word = 0;
    int64_t amount = 0;
    return telvrang_read_newest_lent(key, book != NULL ? book : &word, telvrang_entries(book, book_words),
                                     sums != NULL ? sums : &amount, telvrang_entries(sums, sum_amounts));
}

static inline telvrang_fed telvrang_feed(const uint8_t *input, size_t input_bytes, uint32_t at_end, uint32_t opened,
                                         uint32_t skipping, uint32_t *book, size_t book_words, int64_t *sums,
                                         size_t sum_amounts, uint8_t *out, size_t out_bytes)
{
    uint8_t byte = 0;
    uint32_t word = 0;
    int64_t amount = 0;
    return telvrang_feed_lent(input != NULL ? input : &byte, telvrang_entries(input, input_bytes), at_end, opened,
                              skipping, book != NULL ? book : &word, telvrang_entries(book, book_words),
                              sums != NULL ? sums : &amount, telvrang_entries(sums, sum_amounts),
                              out != NULL ? out : &byte, telvrang_entries(out, out_bytes));
}

#ifdef __cplusplus
}
#endif

#endif
