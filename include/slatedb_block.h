/* Blocks of slatedb's format V2: rows written and read, blocks built, checked, walked and sought in.
 *
 * The functions are those of the static library slatedb_block. They are proved for all arguments that these declarations
 * allow: pointers to as many elements as the length beside them says, and to one word where there is none (`count`,
 * `empty`, `reads`). No pointer may be NULL, even where its length is 0, and nothing that a call may write may be lent to
 * it twice. Nothing here allocates, keeps a pointer or has a state of its own.
 *
 * Every function answers a code: 0 for good, the number of a refusal, 255 for "done". Beside each stand the numbers that it
 * can answer, in the order of its tests; after "any of", in the order in which they are met. A call that answers a number
 * from 1 to 254 has changed no memory that was lent to it.
 */
#ifndef SLATEDB_BLOCK_H
#define SLATEDB_BLOCK_H

#include <stddef.h>
#include <stdint.h>

#ifdef __cplusplus
#define SLATEDB_STATIC_ASSERT static_assert
extern "C" {
#else
#define SLATEDB_STATIC_ASSERT _Static_assert
#endif

/* A refusal is not to be overlooked. */
#ifdef __GNUC__
#define SLATEDB_MUST_USE __attribute__((warn_unused_result))
#else
#define SLATEDB_MUST_USE
#endif

#define SLATEDB_GOOD 0
#define SLATEDB_EMPTY_KEY 1            /* the key is empty */
#define SLATEDB_KEY_TOO_LONG 2         /* the key has over 4,096 bytes */
#define SLATEDB_VALUE_TOO_LONG 3       /* the value, or its length, is over 65,535 */
#define SLATEDB_ROW_DOES_NOT_FIT 4     /* the row doesn't fit into the block */
#define SLATEDB_RESTART_TOO_FAR 5      /* a restart would lie past 65,535 */
#define SLATEDB_BUFFER_TOO_SMALL 6     /* a lent buffer can't hold what is to be written */
#define SLATEDB_EMPTY_BLOCK 7          /* a block is built with no row */
#define SLATEDB_BAD_SETTINGS 8         /* the block size or the interval is outside its limits */
#define SLATEDB_INPUT_ENDS 9           /* the input ends inside a row */
#define SLATEDB_VARINT_TOO_LARGE 10    /* the fifth byte of a varint is above 15, or it has more bytes than its number needs */
#define SLATEDB_UNKNOWN_FLAGS 11       /* the flags byte is 16 or more */
#define SLATEDB_TOMBSTONE_WITH_MERGE 12 /* the flags set tombstone and merge together */
#define SLATEDB_BAD_SHARE 13           /* the share is longer than the key before, or not 0 at a restart */
#define SLATEDB_BAD_TRAILER 14         /* the block has under 2 bytes, its count is 0, or its trailer is longer than the block */
#define SLATEDB_BAD_OFFSET 15          /* the first restart is not 0, the offsets don't rise, or one is not below the data's length */
#define SLATEDB_ROW_PAST_REGION 16     /* a row inside the data runs past the next restart */
#define SLATEDB_KEY_FALLS 17           /* a key is smaller than the one before, or equal with a sequence number that is not smaller */
#define SLATEDB_BAD_STATE 18           /* the cursor's or the builder's state can't belong to these buffers */
#define SLATEDB_KEY_BUFFER_TOO_SHORT 19 /* the lent key buffer is shorter than the key */
#define SLATEDB_BAD_WORDS 254          /* lent words or key bytes are not as many as they must be, or a word has no meaning: tested first */
#define SLATEDB_DONE 255               /* no row is left */

/* How many words or bytes each lent array has. One of another length is refused with 254, and so is a word that stands for
 * one of several cases and is none of them. */
#define SLATEDB_CURSOR_WORDS 6
#define SLATEDB_BUILDER_WORDS 6
#define SLATEDB_KEY_BYTES 4096
#define SLATEDB_FIELDS_WORDS 6
#define SLATEDB_SINGLE_WORDS 13
#define SLATEDB_ROW_WORDS 15

/* Lengths that always do: a value's, a row's bytes (lengths of 1, 2 and 3 bytes, the key, the value, sequence number, flags
 * and two times), the data of a block of one row, with its trailer, and the restarts of a block. */
#define SLATEDB_MOST_VALUE 65535
#define SLATEDB_MOST_ROW (1 + 2 + 3 + SLATEDB_KEY_BYTES + SLATEDB_MOST_VALUE + 8 + 1 + 8 + 8)
#define SLATEDB_MOST_FIRST (SLATEDB_MOST_ROW + 4)
#define SLATEDB_MOST_RESTARTS 5042

#define SLATEDB_ASCENDING 0
#define SLATEDB_DESCENDING 1

#define SLATEDB_VALUE 0
#define SLATEDB_TOMBSTONE 1
#define SLATEDB_MERGE 2

/* A cursor's words. The first key_len of its SLATEDB_KEY_BYTES key bytes, which the caller keeps beside them, are the key
 * before; those after it tell nothing, and a step or a seek may change them. The number is set by slatedb_open, by a step
 * that gives a row and by a seek, also one that says "done"; a step that says "done" leaves it. */
typedef struct {
    uint64_t order;    /* SLATEDB_ASCENDING or SLATEDB_DESCENDING */
    uint64_t region;   /* the restart region that the cursor stands in */
    uint64_t at;       /* and its position there */
    uint64_t key_len;
    uint64_t done;     /* 1 once a step or a seek has said "done" */
    uint64_t number;   /* how many rows of the region end at or before the position */
} slatedb_cursor;

/* A builder's words; the first last_key_len of its SLATEDB_KEY_BYTES key bytes are the last key. */
typedef struct {
    uint64_t block_size;
    uint64_t restart_interval;
    uint64_t used;         /* bytes of the data buffer in use */
    uint64_t restarts;     /* places of the restart buffer in use */
    uint64_t counter;      /* rows */
    uint64_t last_key_len;
} slatedb_builder;

/* What is offered with a key and a value. A time that is absent has no meaning, whatever its word is. */
typedef struct {
    uint64_t kind;         /* SLATEDB_VALUE, SLATEDB_TOMBSTONE (its value is ignored) or SLATEDB_MERGE */
    uint64_t seq;
    uint64_t has_expire;   /* 0 or 1 */
    int64_t expire;
    uint64_t has_create;   /* 0 or 1 */
    int64_t create;
} slatedb_fields;

/* A single row that was read: its places in the input, and its fields. */
typedef struct {
    uint64_t start;        /* where the row starts */
    uint64_t next;         /* and where it ends */
    uint64_t shared;       /* how many bytes of the key before begin its key */
    uint64_t suffix_at;    /* where the others stand */
    uint64_t suffix_len;
    uint64_t kind;
    uint64_t value_at;     /* 0 for a tombstone, and so is the length */
    uint64_t value_len;
    uint64_t seq;
    uint64_t has_expire;   /* 0 or 1; a time that is absent is 0 */
    int64_t expire;
    uint64_t has_create;
    int64_t create;
} slatedb_single;

/* A row that a step gives: the same, and which row of the block it is. On a block that slatedb_check accepts, with a cursor
 * that was opened on it, no other row has this pair. */
typedef struct {
    uint64_t start;
    uint64_t next;
    uint64_t shared;
    uint64_t suffix_at;
    uint64_t suffix_len;
    uint64_t kind;
    uint64_t value_at;
    uint64_t value_len;
    uint64_t seq;
    uint64_t has_expire;
    int64_t expire;
    uint64_t has_create;
    int64_t create;
    uint64_t region;       /* the restart region that the row stands in, from 0 */
    uint64_t number;       /* and its number among that region's rows, from 0 */
} slatedb_row;

/* Each struct is its words and nothing else, and a length has 64 bits, as in the library. */
SLATEDB_STATIC_ASSERT(sizeof(slatedb_cursor) == SLATEDB_CURSOR_WORDS * sizeof(uint64_t), "a cursor's words");
SLATEDB_STATIC_ASSERT(sizeof(slatedb_builder) == SLATEDB_BUILDER_WORDS * sizeof(uint64_t), "a builder's words");
SLATEDB_STATIC_ASSERT(sizeof(slatedb_fields) == SLATEDB_FIELDS_WORDS * sizeof(uint64_t), "the fields' words");
SLATEDB_STATIC_ASSERT(sizeof(slatedb_single) == SLATEDB_SINGLE_WORDS * sizeof(uint64_t), "a single row's words");
SLATEDB_STATIC_ASSERT(sizeof(slatedb_row) == SLATEDB_ROW_WORDS * sizeof(uint64_t), "a row's words");
SLATEDB_STATIC_ASSERT(offsetof(slatedb_row, region) == sizeof(slatedb_single), "a row begins as a single one");
SLATEDB_STATIC_ASSERT(sizeof(size_t) == 8, "a length has 64 bits in the library");

/* A struct's words, to be lent with their number above: the compiler sees that it is the right struct. */
static inline uint64_t *slatedb_cursor_words(slatedb_cursor *cursor) { return (uint64_t *)cursor; }
static inline const uint64_t *slatedb_cursor_const_words(const slatedb_cursor *cursor) { return (const uint64_t *)cursor; }
static inline uint64_t *slatedb_builder_words(slatedb_builder *builder) { return (uint64_t *)builder; }
static inline const uint64_t *slatedb_builder_const_words(const slatedb_builder *builder) { return (const uint64_t *)builder; }
static inline const uint64_t *slatedb_fields_words(const slatedb_fields *fields) { return (const uint64_t *)fields; }
static inline uint64_t *slatedb_single_words(slatedb_single *single) { return (uint64_t *)single; }
static inline uint64_t *slatedb_row_words(slatedb_row *row) { return (uint64_t *)row; } /* of an array of rows too */

/* ---- one row */

/* Writes a row after a key of previous_len bytes, of which it shares the first `shared`: 254, 13, 1, 2, 3, 6.
 * *count: its bytes, which start the output. SLATEDB_MOST_ROW bytes of output always do. */
SLATEDB_MUST_USE
uint8_t slatedb_encode(uint8_t *output, size_t output_len, size_t previous_len, size_t shared,
                       const uint8_t *key_suffix, size_t key_suffix_len, const uint8_t *value, size_t value_len,
                       const uint64_t *fields, size_t fields_len, uint64_t *count);

/* Reads the row that starts the input, after a key of previous_len bytes: 254, then any of 9 to 13, 1, 2, 3. Bytes after
 * the row are allowed. It stands in no block, so it has no region and no number: `single` has SLATEDB_SINGLE_WORDS. */
SLATEDB_MUST_USE
uint8_t slatedb_decode(const uint8_t *input, size_t input_len, size_t previous_len, uint64_t *single, size_t single_len);

/* ---- building a block: rows go into `data`, the restarts' offsets into `restarts`
 *
 * As restarts SLATEDB_MOST_RESTARTS places always do; as data the larger of the block size and SLATEDB_MOST_FIRST bytes,
 * since a first row of any size is taken. Shorter buffers are answered with 6 once a row needs more: then longer ones that begin alike may be lent. */

/* A new builder: 254, 8. Its key bytes need no setting. */
SLATEDB_MUST_USE
uint8_t slatedb_builder_new(uint64_t *builder, size_t builder_len, size_t block_size, size_t restart_interval);

/* Whether the row would fit: 254, 18, 1, 2, 3, and 4 for "no". The two lengths are those of the buffers that add is given;
 * after good, add may still answer 5 or 6. */
SLATEDB_MUST_USE
uint8_t slatedb_builder_would_fit(const uint64_t *builder, size_t builder_len,
                                  const uint8_t *last_key_bytes, size_t last_key_bytes_len,
                                  size_t data_len, size_t restarts_len,
                                  const uint8_t *key, size_t key_len, const uint8_t *value, size_t value_len,
                                  const uint64_t *fields, size_t fields_len);

/* Adds a row: 254, 18, 1, 2, 3, 4, 5, 6. */
SLATEDB_MUST_USE
uint8_t slatedb_builder_add(uint64_t *builder, size_t builder_len, uint8_t *last_key_bytes, size_t last_key_bytes_len,
                            uint8_t *data, size_t data_len, uint16_t *restarts, size_t restarts_len,
                            const uint8_t *key, size_t key_len, const uint8_t *value, size_t value_len,
                            const uint64_t *fields, size_t fields_len);

/* Whether there is no row: 254. *empty: 1 if so, else 0. */
SLATEDB_MUST_USE
uint8_t slatedb_builder_is_empty(const uint64_t *builder, size_t builder_len, uint64_t *empty);

/* Puts the trailer after the rows: 254, 18, 7, 6. The block is the first *count bytes of data. */
SLATEDB_MUST_USE
uint8_t slatedb_builder_build(const uint64_t *builder, size_t builder_len, uint8_t *data, size_t data_len,
                              const uint16_t *restarts, size_t restarts_len, uint64_t *count);

/* ---- reading a block */

/* Checks a whole block: 14, 15, then row by row any of 9 to 13, 1, 2, 3, 16, 17. *count: its rows. In a block that
 * it accepts keys never fall, and where they are equal the sequence numbers do: none comes twice with one number. */
SLATEDB_MUST_USE
uint8_t slatedb_check(const uint8_t *block, size_t block_len, uint64_t *count);

/* A cursor before the first row: 254, 14, 15; no row is read, and its number is 0. Or, descending, after the last one: 254,
 * 14, 15, then any of 9 to 13, 1, 2, 3 of the last region's rows, which are read, and its number is how many they are. Its
 * key bytes need no setting. */
SLATEDB_MUST_USE
uint8_t slatedb_open(const uint8_t *block, size_t block_len, uint64_t order, uint64_t *cursor, size_t cursor_len);

/* One step: 254, 14, 18, done if that was said before, then any of 15, 18, 9 to 13, 1, 2, 3, 16, and 19 last. Good gives the
 * row, and its key, of shared + suffix_len bytes, to the start of `out`, for which SLATEDB_KEY_BYTES always do; done: no
 * row is left, and both stay.
 *
 * The second 18 is for a position that is not in the region, and for a number that can't be. Ascending it is tested before
 * the row is read: a number that is 0 past the region's start, or of which 12 times are more than the bytes passed there.
 * Any other is taken at its word, given as the row's number and counted on. Descending it is tested after the rows that are
 * read up to the position, against how many they are; at a region's start, where none are, it must be 0.
 *
 * Good sets the cursor's number too: ascending it is one more, or 0 where the row ended its region and the next one is
 * entered; descending it is the given row's number. The row's region is where it stands, not where the cursor goes on. */
SLATEDB_MUST_USE
uint8_t slatedb_next(const uint8_t *block, size_t block_len, uint64_t *cursor, size_t cursor_len,
                     uint8_t *key_bytes, size_t key_bytes_len, uint8_t *out, size_t out_len, uint64_t *row, size_t row_len);

/* Many steps in one call: the same as so many calls of slatedb_next, each with what is left of `keys`, which is proved of it.
 * As many rows are asked for as there are whole times SLATEDB_ROW_WORDS words in `rows`; words that are left over are not
 * used. 254, then the numbers of slatedb_next and done, but only where the first step answers so: a step that finds no row
 * after others did is not made, and the next call answers it. Good: *count rows were given, their words one after another
 * from the start of `rows`, their keys one after another from the start of `keys`, each of shared + suffix_len bytes; other
 * words and bytes stay, and the cursor stands past the last of these rows. With SLATEDB_KEY_BYTES of keys for each row
 * all rows asked for have room. Done sets *count to 0; with no room for a row nothing is asked: good, and *count is 0. */
SLATEDB_MUST_USE
uint8_t slatedb_next_rows(const uint8_t *block, size_t block_len, uint64_t *cursor, size_t cursor_len,
                          uint8_t *key_bytes, size_t key_bytes_len, uint8_t *keys, size_t keys_len,
                          uint64_t *rows, size_t rows_len, uint64_t *count);

/* Moves the cursor to the target, in its own order, from wherever it stands: 254, 14, then any of 15, 9 to 13, 1, 2, 3, 16.
 * On a block that slatedb_check accepts, good: the next step gives the first row at or above the target, or descending the
 * last at or below it; done: there is none. On any other block it may pass over that row, and never faults. *reads: how
 * many restart keys the search read, set for both; so is the cursor's number, whatever it was: with done it is the last
 * region's row count, or descending 0. */
SLATEDB_MUST_USE
uint8_t slatedb_seek(const uint8_t *block, size_t block_len, const uint8_t *target, size_t target_len,
                     uint64_t *cursor, size_t cursor_len, uint8_t *key_bytes, size_t key_bytes_len, uint64_t *reads);

/* Whether no row is left: 254, 14. *empty: 1 if so, else 0. Only the trailer is tested; descending, only the mark `done`
 * tells: after the last row it is still 0, until a step or a seek says "done". */
SLATEDB_MUST_USE
uint8_t slatedb_is_empty(const uint8_t *block, size_t block_len, const uint64_t *cursor, size_t cursor_len, uint64_t *empty);

#ifdef __cplusplus
}
#endif

#endif
