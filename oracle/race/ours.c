/* The proved libraries as contenders. Each call tests all that it is handed. One of these says how rows are
 * read:
 *
 *   (none)         one C call a row
 *   -DSTEP=NAME    the same by another step: slatedb_next_by_value
 *   -DWALK=NAME    the whole block in one call, the loop inside: slatedb_walk_in_place, slatedb_walk_by_value
 *   -DROWS         many rows a call, forward: slatedb_next_rows
 *   -DBUILDS_ONLY  none: for a library that is linked at several addresses
 *
 * Seeks, builds and the check do not depend on it: only the first one exports them, and the last one builds.
 */
#include "peer.h"
#include "slatedb_compare.h"

#include <stdlib.h>
#include <string.h>

#if !defined(STEP) && !defined(WALK) && !defined(ROWS) && !defined(BUILDS_ONLY)
#define ALL_TESTS
#endif

#ifndef STEP
#define STEP slatedb_next
#endif

/* 5,042 restarts and this much data always do. */
enum { RESTARTS = 5042, DATA = 1 << 17 };

static uint8_t data[DATA], last_key[SLATEDB_KEY_BYTES];
static uint16_t restarts[RESTARTS];

/* Words, as they are lent. */
#define LENT_BUILDER(builder) slatedb_builder_words(builder), SLATEDB_BUILDER_WORDS
#define LENT_FIELDS(fields) slatedb_fields_words(fields), SLATEDB_FIELDS_WORDS
#define LENT_CURSOR(cursor) slatedb_cursor_words(cursor), SLATEDB_CURSOR_WORDS
#define LENT_ROW(row) slatedb_row_words(row), SLATEDB_ROW_WORDS
#define LENT_SUMS(sums) slatedb_sums_words(sums), SLATEDB_SUMS_WORDS

static uint8_t add(slatedb_builder *builder, const peer_row *row) {
    slatedb_fields fields = {.kind = SLATEDB_VALUE, .seq = row->seq};
    return slatedb_builder_add(LENT_BUILDER(builder), last_key, sizeof last_key, data, sizeof data,
                               restarts, RESTARTS, row->key, row->key_len, row->value, row->value_len,
                               LENT_FIELDS(&fields));
}

/* Adds rows until one does not fit, and puts the trailer. */
static size_t build(const peer_row *rows, size_t n, size_t block_size, size_t interval, uint64_t *len) {
    slatedb_builder builder;
    size_t added = 0;
    uint8_t code = slatedb_builder_new(LENT_BUILDER(&builder), block_size, interval);
    while (code == SLATEDB_GOOD && added < n) {
        code = add(&builder, &rows[added]);
        added += code == SLATEDB_GOOD;
    }
    if (code != SLATEDB_GOOD && code != SLATEDB_ROW_DOES_NOT_FIT) {
        abort();
    }
    code = slatedb_builder_build(LENT_BUILDER(&builder), data, sizeof data, restarts, RESTARTS, len);
    if (code != SLATEDB_GOOD) {
        abort();
    }
    return added;
}

#if defined(ALL_TESTS) || defined(BUILDS_ONLY)
static const peer_row *prepared;
static size_t prepared_rows;

void peer_prepare(const peer_row *rows, size_t n, size_t times) {
    (void)times;
    prepared = rows;
    prepared_rows = n;
}

size_t peer_build(size_t block_size, size_t interval) {
    uint64_t len;
    return build(prepared, prepared_rows, block_size, interval, &len);
}
#endif

#ifndef BUILDS_ONLY
static uint8_t block[DATA];
static uint64_t block_len;

int peer_load(const peer_row *rows, size_t n, size_t block_size, size_t interval) {
    if (build(rows, n, block_size, interval, &block_len) != n) {
        return 0;
    }
    memcpy(block, data, block_len);
    return 1;
}

const uint8_t *peer_block(size_t *len) {
    *len = block_len;
    return block;
}

#ifdef WALK
static peer_sums walk(uint64_t order) {
    slatedb_sums sums = {0, 0};
    if (WALK(block, block_len, order, UINT64_MAX, LENT_SUMS(&sums)) != SLATEDB_DONE) {
        abort();
    }
    return (peer_sums){sums.rows, sums.sum};
}

peer_sums peer_forward(void) {
    return walk(SLATEDB_ASCENDING);
}

peer_sums peer_backward(void) {
    return walk(SLATEDB_DESCENDING);
}
#else
static uint8_t key[SLATEDB_KEY_BYTES], out[SLATEDB_KEY_BYTES];

static slatedb_cursor opened(uint64_t order) {
    slatedb_cursor cursor;
    if (slatedb_open(block, block_len, order, LENT_CURSOR(&cursor)) != SLATEDB_GOOD) {
        abort();
    }
    return cursor;
}

/* One step. 0 where no row is left. */
static inline int step(slatedb_cursor *cursor, peer_sums *sums) {
    slatedb_row row;
    uint8_t code = STEP(block, block_len, LENT_CURSOR(cursor), key, sizeof key, out, sizeof out,
                        LENT_ROW(&row));
    if (code == SLATEDB_DONE) {
        return 0;
    }
    if (code != SLATEDB_GOOD) {
        abort();
    }
    peer_count(sums, out, row.shared + row.suffix_len, row.value_len, row.seq);
    return 1;
}

#ifdef ROWS
enum { MANY = 16 };

static slatedb_row rows[MANY];
static uint8_t keys[4 * SLATEDB_KEY_BYTES];

/* As many rows as one call gives, their keys one after another. Where it gives none, a step does, or tells
 * the end. */
static int steps(slatedb_cursor *cursor, peer_sums *sums) {
    uint64_t count = 0;
    uint8_t code = slatedb_next_rows(block, block_len, LENT_CURSOR(cursor), key, sizeof key,
                                     keys, sizeof keys, slatedb_row_words(rows), MANY * SLATEDB_ROW_WORDS,
                                     &count);
    if (code != SLATEDB_GOOD && code != SLATEDB_DONE) {
        abort();
    }
    const uint8_t *at = keys;
    for (uint64_t i = 0; i < count; i++) {
        size_t len = rows[i].shared + rows[i].suffix_len;
        peer_count(sums, at, len, rows[i].value_len, rows[i].seq);
        at += len;
    }
    return count != 0 || step(cursor, sums);
}

peer_sums peer_forward(void) {
    slatedb_cursor cursor = opened(SLATEDB_ASCENDING);
    peer_sums sums = {0, 0};
    while (steps(&cursor, &sums)) {
    }
    return sums;
}
#else
static peer_sums scan(uint64_t order) {
    slatedb_cursor cursor = opened(order);
    peer_sums sums = {0, 0};
    while (step(&cursor, &sums)) {
    }
    return sums;
}

peer_sums peer_forward(void) {
    return scan(SLATEDB_ASCENDING);
}

peer_sums peer_backward(void) {
    return scan(SLATEDB_DESCENDING);
}
#endif
#endif
#endif

#ifdef ALL_TESTS
peer_sums peer_seek(int descending, const uint8_t *target, size_t target_len) {
    slatedb_cursor cursor = opened(descending ? SLATEDB_DESCENDING : SLATEDB_ASCENDING);
    peer_sums sums = {0, 0};
    uint64_t reads;
    uint8_t code = slatedb_seek(block, block_len, target, target_len, LENT_CURSOR(&cursor), key, sizeof key,
                                &reads);
    if (code != SLATEDB_GOOD && code != SLATEDB_DONE) {
        abort();
    }
    if (code == SLATEDB_GOOD) {
        step(&cursor, &sums);
    }
    return sums;
}

size_t peer_check(void) {
    uint64_t rows = 0;
    if (slatedb_check(block, block_len, &rows) != SLATEDB_GOOD) {
        abort();
    }
    return rows;
}
#endif
