/* The switch's journal: debits, top-ups and closes of cards, one after another, read, summed and appended to.
 *
 * The functions are those of the static library slatedb_journal. They are proved for all arguments that these declarations
 * allow: pointers to as many elements as the length beside them says, and to one word where there is none (`records`,
 * `balance`, `place`). No pointer may be NULL, even where its length is 0, and nothing that a call may write may be lent to
 * it twice. Nothing here allocates, keeps a pointer or has a state of its own.
 *
 * Every function answers a code: 0 for good, the number of a refusal, 253 and 255 where no whole record stands. Beside each
 * stand the numbers that it can answer, in the order of its tests. A call that does not answer 0 has changed no memory that
 * was lent to it, but for one word: where it answers 31, `place` is the position of the unknown kind.
 *
 * A record is one byte of kind and a body: kind 1, a debit, and 2, a top-up, have a card (8 bytes), a retry number (8) and an
 * amount (4), high byte first; kind 3, a close, has a card. So a record has 21 bytes, or 9.
 */
#ifndef SLATEDB_JOURNAL_H
#define SLATEDB_JOURNAL_H

#include <stddef.h>
#include <stdint.h>

#ifdef __cplusplus
#define SLATEDB_JOURNAL_STATIC_ASSERT static_assert
extern "C" {
#else
#define SLATEDB_JOURNAL_STATIC_ASSERT _Static_assert
#endif

/* A refusal is not to be overlooked. */
#ifdef __GNUC__
#define SLATEDB_JOURNAL_MUST_USE __attribute__((warn_unused_result))
#else
#define SLATEDB_JOURNAL_MUST_USE
#endif

#define SLATEDB_JOURNAL_GOOD 0
#define SLATEDB_JOURNAL_TOO_LONG 30          /* the journal, or the used part, has over 65,536 bytes */
#define SLATEDB_JOURNAL_UNKNOWN_KIND 31      /* a kind that is none of 1, 2 and 3; its position is told */
#define SLATEDB_JOURNAL_USED_PAST_BUFFER 32  /* the used length is past the buffer */
#define SLATEDB_JOURNAL_ENDS_INSIDE 33       /* the used part ends inside a record */
#define SLATEDB_JOURNAL_NO_ROOM 34           /* the record doesn't fit the buffer, or 65,536 bytes */
#define SLATEDB_JOURNAL_INCOMPLETE 253       /* the journal ends inside the record at this place */
#define SLATEDB_JOURNAL_BAD_WORDS 254        /* a record's words are not as many as they must be, or the kind offered is none of 1, 2 and 3: tested first */
#define SLATEDB_JOURNAL_END 255              /* the journal ends at or before this place */

#define SLATEDB_JOURNAL_MOST 65536
#define SLATEDB_JOURNAL_DEBIT 1
#define SLATEDB_JOURNAL_TOP_UP 2
#define SLATEDB_JOURNAL_CLOSE 3

/* How many words a record has. */
#define SLATEDB_JOURNAL_RECORD_WORDS 5

/* A record's words. A close has retry number and amount 0. */
typedef struct {
    uint64_t kind;
    uint64_t card;
    uint64_t retry;
    uint64_t amount;
    uint64_t next; /* the place after it */
} slatedb_journal_record;

/* The struct is its words and nothing else, and a length has 64 bits, as in the library. */
SLATEDB_JOURNAL_STATIC_ASSERT(sizeof(slatedb_journal_record) == SLATEDB_JOURNAL_RECORD_WORDS * sizeof(uint64_t), "a record's words");
SLATEDB_JOURNAL_STATIC_ASSERT(sizeof(size_t) == 8, "a length has 64 bits in the library");

/* A struct's words, to be lent with their number above: the compiler sees that it is the right struct. */
static inline uint64_t *slatedb_journal_record_words(slatedb_journal_record *record) { return (uint64_t *)record; }

/* The record at `at`: 254, 30, 255, 31, 253. The position of a 31 is `at`. */
SLATEDB_JOURNAL_MUST_USE uint8_t
slatedb_journal_record_at(const uint8_t *journal, size_t journal_len, size_t at, uint64_t *words, size_t words_len);

/* All of a journal: 30, 31. Good sets `records` to how many complete ones there are, and `place` to where they end: the start
 * of an incomplete tail, or the journal's length where there is none. */
SLATEDB_JOURNAL_MUST_USE uint8_t
slatedb_journal_read(const uint8_t *journal, size_t journal_len, uint64_t *records, uint64_t *place);

/* The balance of a card, top-ups less debits: 30, 31. Good sets `balance`, and `place` as reading does. Of all records with
 * one kind, card and retry number only the earliest counts; records after the card's close count for nothing. */
SLATEDB_JOURNAL_MUST_USE uint8_t
slatedb_journal_balance(const uint8_t *journal, size_t journal_len, uint64_t card, int64_t *balance, uint64_t *place);

/* Appends a record to the first `used` bytes of the buffer: 254, 32, 30, 31, 33, 34. Good sets `place` to the new used
 * length. A close takes no notice of the retry number and the amount. */
SLATEDB_JOURNAL_MUST_USE uint8_t
slatedb_journal_append(uint8_t *buffer, size_t buffer_len, size_t used, uint64_t kind, uint64_t card, uint64_t retry,
                       uint32_t amount, uint64_t *place);

#ifdef __cplusplus
}
#endif

#endif
