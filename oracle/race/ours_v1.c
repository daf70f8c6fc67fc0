/* The proved library of the earlier format as a contender. Each call tests all that it is handed. */
#include "peer.h"
#include "slatedb_block_v1.h"

#include <stdlib.h>
#include <string.h>

/* This much data always does. */
enum { DATA = 1 << 17 };

static uint8_t data[DATA], block[DATA], first_key[SLATEDB_KEY_BYTES], out[SLATEDB_KEY_BYTES];
static uint16_t offsets[SLATEDB_V1_MOST_ROWS];
static uint64_t block_len;

/* Words, as they are lent. */
#define LENT_BUILDER(builder) slatedb_v1_builder_words(builder), SLATEDB_V1_BUILDER_WORDS
#define LENT_FIELDS(fields) slatedb_fields_words(fields), SLATEDB_FIELDS_WORDS
#define LENT_CURSOR(cursor) slatedb_v1_cursor_words(cursor), SLATEDB_V1_CURSOR_WORDS
#define LENT_ROW(row) slatedb_v1_row_words(row), SLATEDB_V1_ROW_WORDS

/* ---- building */

static uint8_t add(slatedb_v1_builder *builder, const peer_row *row) {
    slatedb_fields fields = {.kind = SLATEDB_VALUE, .seq = row->seq};
    return slatedb_v1_builder_add(LENT_BUILDER(builder), first_key, sizeof first_key, data, sizeof data,
                                  offsets, SLATEDB_V1_MOST_ROWS, row->key, row->key_len, row->value,
                                  row->value_len, LENT_FIELDS(&fields));
}

/* Adds rows until one does not fit, and puts the trailer. */
static size_t build(const peer_row *rows, size_t n, size_t block_size, uint64_t *len) {
    slatedb_v1_builder builder;
    size_t added = 0;
    uint8_t code = slatedb_v1_builder_new(LENT_BUILDER(&builder), block_size);
    while (code == SLATEDB_GOOD && added < n) {
        code = add(&builder, &rows[added]);
        added += code == SLATEDB_GOOD;
    }
    if (code != SLATEDB_GOOD && code != SLATEDB_ROW_DOES_NOT_FIT) {
        abort();
    }
    code = slatedb_v1_builder_build(LENT_BUILDER(&builder), data, sizeof data, offsets, SLATEDB_V1_MOST_ROWS,
                                    len);
    if (code != SLATEDB_GOOD) {
        abort();
    }
    return added;
}

static const peer_row *prepared;
static size_t prepared_rows;

void peer_prepare(const peer_row *rows, size_t n, size_t times) {
    (void)times;
    prepared = rows;
    prepared_rows = n;
}

size_t peer_build(size_t block_size, size_t interval) {
    uint64_t len;
    (void)interval;
    return build(prepared, prepared_rows, block_size, &len);
}

int peer_load(const peer_row *rows, size_t n, size_t block_size, size_t interval) {
    if (interval != 0 || build(rows, n, block_size, &block_len) != n) {
        return 0;
    }
    memcpy(block, data, block_len);
    return 1;
}

const uint8_t *peer_block(size_t *len) {
    *len = block_len;
    return block;
}

/* ---- reading */

static slatedb_v1_cursor opened(uint64_t order) {
    slatedb_v1_cursor cursor;
    if (slatedb_v1_open(block, block_len, order, LENT_CURSOR(&cursor)) != SLATEDB_GOOD) {
        abort();
    }
    return cursor;
}

/* One step. 0 where no row is left. */
static inline int step(slatedb_v1_cursor *cursor, peer_sums *sums) {
    slatedb_v1_row row;
    uint8_t code = slatedb_v1_next(block, block_len, LENT_CURSOR(cursor), out, sizeof out, LENT_ROW(&row));
    if (code == SLATEDB_DONE) {
        return 0;
    }
    if (code != SLATEDB_GOOD) {
        abort();
    }
    peer_count(sums, out, row.shared + row.suffix_len, row.value_len, row.seq);
    return 1;
}

static peer_sums scan(uint64_t order) {
    slatedb_v1_cursor cursor = opened(order);
    peer_sums sums = {0, 0};
    while (step(&cursor, &sums)) {
    }
    return sums;
}

peer_sums peer_forward(void) {
    return scan(SLATEDB_ASCENDING);
}

peer_sums peer_backward(void) {
    return scan(SLATEDB_DESCENDING);
}

peer_sums peer_seek(int descending, const uint8_t *target, size_t target_len) {
    slatedb_v1_cursor cursor = opened(descending ? SLATEDB_DESCENDING : SLATEDB_ASCENDING);
    peer_sums sums = {0, 0};
    uint64_t reads;
    uint8_t code = slatedb_v1_seek(block, block_len, target, target_len, LENT_CURSOR(&cursor), &reads);
    if (code != SLATEDB_GOOD && code != SLATEDB_DONE) {
        abort();
    }
    if (code == SLATEDB_GOOD) {
        step(&cursor, &sums);
    }
    return sums;
}

size_t peer_check(void) {
    uint64_t rows = 0;
    if (slatedb_v1_check(block, block_len, &rows) != SLATEDB_GOOD) {
        abort();
    }
    return rows;
}
