/* Blocks of slatedb's earlier format (V1 blocks of V0 rows): rows written and read, blocks built, checked, walked and sought
 * in. Rows share bytes with the block's first key, and the block has an offset for each row.
 *
 * The functions are those of the static library slatedb_block_v1. What slatedb_block.h says of arguments, memory and codes
 * holds of them; its codes, fields and single rows are used here. Nothing tells the two formats apart by their bytes: the
 * caller names the format by the function that it calls.
 */
#ifndef SLATEDB_BLOCK_V1_H
#define SLATEDB_BLOCK_V1_H

#include "slatedb_block.h"

#ifdef __cplusplus
extern "C" {
#endif

/* In this format 5 is a row that would start past 65,535, 13 a share longer than the first key, or not 0 in the first row, 15 is
 * of the rows' offsets, 16 a row that runs past the next one's offset; 8 is for the block size alone, and 10 is never given. */
#define SLATEDB_ROW_ENDS_EARLY 20      /* a row ends before the next one starts, or before the data's end */

#define SLATEDB_V1_CURSOR_WORDS 2
#define SLATEDB_V1_BUILDER_WORDS 4
#define SLATEDB_V1_ROW_WORDS 14

/* Lengths that always do: a row's bytes (two lengths, the key, sequence number, flags, two times, the value's length and the
 * value), the data of a block of one row, with its trailer, and the rows of a block. */
#define SLATEDB_V1_MOST_ROW (2 + 2 + SLATEDB_KEY_BYTES + 8 + 1 + 8 + 8 + 4 + SLATEDB_MOST_VALUE)
#define SLATEDB_V1_MOST_FIRST (SLATEDB_V1_MOST_ROW + 4)
#define SLATEDB_V1_MOST_ROWS 5042

/* A cursor's words: no key and no mark. "Done" is all rows passed. */
typedef struct {
    uint64_t order;        /* SLATEDB_ASCENDING or SLATEDB_DESCENDING */
    uint64_t passed;       /* how many rows it has passed, in its order */
} slatedb_v1_cursor;

/* A builder's words; the first first_key_len of its SLATEDB_KEY_BYTES key bytes are the block's first key. */
typedef struct {
    uint64_t block_size;
    uint64_t used;         /* bytes of the data buffer in use */
    uint64_t rows;         /* rows, and places of the offset buffer in use */
    uint64_t first_key_len;
} slatedb_v1_builder;

/* A row that a step gives: a single row's words, and which row of the block it is. */
typedef struct {
    uint64_t start;
    uint64_t next;
    uint64_t shared;       /* how many bytes of the first key begin its key */
    uint64_t suffix_at;
    uint64_t suffix_len;
    uint64_t kind;
    uint64_t value_at;     /* 0 for a tombstone, and so is the length */
    uint64_t value_len;
    uint64_t seq;
    uint64_t has_expire;
    int64_t expire;
    uint64_t has_create;
    int64_t create;
    uint64_t number;       /* its number among the block's rows, from 0 */
} slatedb_v1_row;

SLATEDB_STATIC_ASSERT(sizeof(slatedb_v1_cursor) == SLATEDB_V1_CURSOR_WORDS * sizeof(uint64_t), "a cursor's words");
SLATEDB_STATIC_ASSERT(sizeof(slatedb_v1_builder) == SLATEDB_V1_BUILDER_WORDS * sizeof(uint64_t), "a builder's words");
SLATEDB_STATIC_ASSERT(sizeof(slatedb_v1_row) == SLATEDB_V1_ROW_WORDS * sizeof(uint64_t), "a row's words");
SLATEDB_STATIC_ASSERT(offsetof(slatedb_v1_row, number) == sizeof(slatedb_single), "a row begins as a single one");

static inline uint64_t *slatedb_v1_cursor_words(slatedb_v1_cursor *cursor) { return (uint64_t *)cursor; }
static inline const uint64_t *slatedb_v1_cursor_const_words(const slatedb_v1_cursor *cursor) { return (const uint64_t *)cursor; }
static inline uint64_t *slatedb_v1_builder_words(slatedb_v1_builder *builder) { return (uint64_t *)builder; }
static inline const uint64_t *slatedb_v1_builder_const_words(const slatedb_v1_builder *builder) { return (const uint64_t *)builder; }
static inline uint64_t *slatedb_v1_row_words(slatedb_v1_row *row) { return (uint64_t *)row; }

/* ---- one row */

/* A row's size, from the lengths of its share, its suffix and its value alone: 254, 1, 2, 3. *count: its bytes. */
SLATEDB_MUST_USE
uint8_t slatedb_v1_encoded_size(size_t shared, size_t key_suffix_len, size_t value_len,
                                const uint64_t *fields, size_t fields_len, uint64_t *count);

/* Writes a row after a first key of first_key_len bytes, of which it shares the first `shared`: 254, 13, 1, 2, 3, 6.
 * *count: its bytes, which start the output. SLATEDB_V1_MOST_ROW bytes of output always do. */
SLATEDB_MUST_USE
uint8_t slatedb_v1_encode(uint8_t *output, size_t output_len, size_t first_key_len, size_t shared,
                          const uint8_t *key_suffix, size_t key_suffix_len, const uint8_t *value, size_t value_len,
                          const uint64_t *fields, size_t fields_len, uint64_t *count);

/* Reads the row that starts the input, after a first key of first_key_len bytes: 254, 9, 13, 1, 2, 9, 11, 12, 9, 3, 9. Bytes
 * after the row are allowed. It stands in no block, so it has no number: `single` has SLATEDB_SINGLE_WORDS. */
SLATEDB_MUST_USE
uint8_t slatedb_v1_decode(const uint8_t *input, size_t input_len, size_t first_key_len, uint64_t *single, size_t single_len);

/* ---- building a block: rows go into `data`, their offsets into `offsets`
 *
 * As offsets SLATEDB_V1_MOST_ROWS places always do; as data the larger of SLATEDB_V1_MOST_FIRST and the block size + 2, since
 * a row fits where it does without its own offset: a finished block may be 2 bytes over its size. */

/* A new builder: 254, 8. Its key bytes need no setting. */
SLATEDB_MUST_USE
uint8_t slatedb_v1_builder_new(uint64_t *builder, size_t builder_len, size_t block_size);

/* Whether the row would fit: 254, 18, 1, 2, 3, and 4 for "no". The two lengths are those of the buffers that add is given;
 * after good, add may still answer 5 or 6. */
SLATEDB_MUST_USE
uint8_t slatedb_v1_builder_would_fit(const uint64_t *builder, size_t builder_len,
                                     const uint8_t *first_key_bytes, size_t first_key_bytes_len,
                                     size_t data_len, size_t offsets_len,
                                     const uint8_t *key, size_t key_len, const uint8_t *value, size_t value_len,
                                     const uint64_t *fields, size_t fields_len);

/* Adds a row: 254, 18, 1, 2, 3, 4, 5, 6. */
SLATEDB_MUST_USE
uint8_t slatedb_v1_builder_add(uint64_t *builder, size_t builder_len, uint8_t *first_key_bytes, size_t first_key_bytes_len,
                               uint8_t *data, size_t data_len, uint16_t *offsets, size_t offsets_len,
                               const uint8_t *key, size_t key_len, const uint8_t *value, size_t value_len,
                               const uint64_t *fields, size_t fields_len);

/* Whether there is no row: 254. *empty: 1 if so, else 0. */
SLATEDB_MUST_USE
uint8_t slatedb_v1_builder_is_empty(const uint64_t *builder, size_t builder_len, uint64_t *empty);

/* Puts the trailer after the rows: 254, 18, 7, 6. The block is the first *count bytes of data. */
SLATEDB_MUST_USE
uint8_t slatedb_v1_builder_build(const uint64_t *builder, size_t builder_len, uint8_t *data, size_t data_len,
                                 const uint16_t *offsets, size_t offsets_len, uint64_t *count);

/* ---- reading a block */

/* Checks a whole block: 14, 15, then row by row any of 9, 13, 1, 2, 11, 12, 3, 16, 20, 17. *count: its rows. In a block that it
 * accepts keys never fall, and where they are equal the sequence numbers do. */
SLATEDB_MUST_USE
uint8_t slatedb_v1_check(const uint8_t *block, size_t block_len, uint64_t *count);

/* A cursor before the first row, or, descending, after the last one: 254, 14, 15, then any of 9, 13, 1, 2, 16 of the first key,
 * which is read in both directions. No row is passed. */
SLATEDB_MUST_USE
uint8_t slatedb_v1_open(const uint8_t *block, size_t block_len, uint64_t order, uint64_t *cursor, size_t cursor_len);

/* One step: 254, 14, 18 for more rows passed than there are, done if all are; then 15 and any of 9, 13, 1, 2, 16 of the first key;
 * then 15 and any of 9, 13, 1, 2, 11, 12, 3, 16, 20 of the row, and 19 last. Good gives the row, and its key, of shared +
 * suffix_len bytes, to the start of `out`, for which SLATEDB_KEY_BYTES always do, and the cursor has passed one row more; done:
 * no row is left, and all stays. */
SLATEDB_MUST_USE
uint8_t slatedb_v1_next(const uint8_t *block, size_t block_len, uint64_t *cursor, size_t cursor_len,
                        uint8_t *out, size_t out_len, uint64_t *row, size_t row_len);

/* Puts the cursor before the first row at or above the target, or, descending, after the last one at or below it: 254, 14, then
 * 15 and any of 9, 13, 1, 2, 16 of the first key and of each key that the search reads. Of the cursor only the order is used, and
 * 18 is never given. Done: there is none, and all rows are passed. *reads: how many keys the search read, set for both. */
SLATEDB_MUST_USE
uint8_t slatedb_v1_seek(const uint8_t *block, size_t block_len, const uint8_t *target, size_t target_len,
                        uint64_t *cursor, size_t cursor_len, uint64_t *reads);

/* Whether no row is left: 254, 14. *empty: 1 if so, else 0, in both directions. */
SLATEDB_MUST_USE
uint8_t slatedb_v1_is_empty(const uint8_t *block, size_t block_len, const uint64_t *cursor, size_t cursor_len, uint64_t *empty);

#ifdef __cplusplus
}
#endif

#endif
