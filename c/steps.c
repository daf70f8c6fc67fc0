/* steps WHAT TURNS: does one thing TURNS times over a block of rows with 16-byte keys and 100-byte values, and prints how
 * many rows there are and the least time of a turn, in nanoseconds a row. c/steps counts the instructions too.
 * WHAT: forward, backward (opened and read by a call a row), many (by one call), seek, back (to each row: opened,
 * sought, a step), build, check. */
#include "slatedb_block.h"

#include <stdio.h>
#include <stdlib.h>
#include <string.h>
#include <time.h>

enum { KEY = 16, VALUE = 100, MOST = 64, DATA = 4096 };

static uint8_t data[DATA], last[SLATEDB_KEY_BYTES], before[SLATEDB_KEY_BYTES], out[SLATEDB_KEY_BYTES];
static uint8_t key[MOST][KEY], value[VALUE], keys[MOST * KEY];
static uint16_t restarts[MOST];
static slatedb_cursor cursor;
static slatedb_row row[MOST];
static uint64_t len, rows;

static void must(int holds) {
    if (!holds) {
        exit(1);
    }
}

/* Numbers that are the same on each machine (xorshift). */
static uint8_t any(void) {
    static uint64_t seed = 88172645463325252u;
    seed ^= seed << 13;
    seed ^= seed >> 7;
    seed ^= seed << 17;
    return (uint8_t)seed;
}

static int by_bytes(const void *a, const void *b) { return memcmp(a, b, KEY); }

static void build(void) {
    slatedb_builder builder;
    uint64_t *words = slatedb_builder_words(&builder);
    uint8_t code = slatedb_builder_new(words, SLATEDB_BUILDER_WORDS, DATA, 16);
    for (rows = 0; code == SLATEDB_GOOD && rows < MOST; rows += code == SLATEDB_GOOD) {
        slatedb_fields fields = {.kind = SLATEDB_VALUE, .seq = 1000 - rows};
        code = slatedb_builder_add(words, SLATEDB_BUILDER_WORDS, last, sizeof last, data, sizeof data, restarts, MOST,
                                   key[rows], KEY, value, VALUE, slatedb_fields_words(&fields), SLATEDB_FIELDS_WORDS);
    }
    must(slatedb_builder_build(words, SLATEDB_BUILDER_WORDS, data, sizeof data, restarts, MOST, &len) == SLATEDB_GOOD);
}

static void open_block(uint64_t order) {
    must(slatedb_open(data, len, order, slatedb_cursor_words(&cursor), SLATEDB_CURSOR_WORDS) == SLATEDB_GOOD);
}

static uint8_t next(void) {
    return slatedb_next(data, len, slatedb_cursor_words(&cursor), SLATEDB_CURSOR_WORDS, before, sizeof before, out, sizeof out,
                        slatedb_row_words(row), SLATEDB_ROW_WORDS);
}

static void each(uint64_t order) {
    uint64_t read = 0;
    open_block(order);
    while (next() == SLATEDB_GOOD) {
        read++;
    }
    must(read == rows);
}

static void many(void) {
    uint64_t count;
    open_block(SLATEDB_ASCENDING);
    must(slatedb_next_rows(data, len, slatedb_cursor_words(&cursor), SLATEDB_CURSOR_WORDS, before, sizeof before, keys,
                           sizeof keys, slatedb_row_words(row), MOST * SLATEDB_ROW_WORDS, &count) == SLATEDB_GOOD &&
         count == rows);
}

static void seek(uint64_t order) {
    uint64_t reads;
    for (uint64_t i = 0; i < rows; i++) {
        open_block(order);
        must(slatedb_seek(data, len, key[i], KEY, slatedb_cursor_words(&cursor), SLATEDB_CURSOR_WORDS, before, sizeof before,
                          &reads) == SLATEDB_GOOD &&
             next() == SLATEDB_GOOD);
    }
}

static void turn(const char *what) {
    uint64_t count;
    switch (what[0]) {
    case 'f': each(SLATEDB_ASCENDING); break;
    case 'm': many(); break;
    case 's': seek(SLATEDB_ASCENDING); break;
    case 'c': must(slatedb_check(data, len, &count) == SLATEDB_GOOD && count == rows); break;
    default:
        if (!strcmp(what, "build")) {
            build();
        } else if (!strcmp(what, "back")) {
            seek(SLATEDB_DESCENDING);
        } else {
            each(SLATEDB_DESCENDING);
        }
    }
}

static double now(void) {
    struct timespec t;
    clock_gettime(CLOCK_MONOTONIC, &t);
    return (double)t.tv_sec * 1e9 + (double)t.tv_nsec;
}

int main(int argc, char **argv) {
    must(argc == 3);
    for (int i = 0; i < MOST * KEY; i++) {
        key[i / KEY][i % KEY] = any();
    }
    for (int i = 0; i < VALUE; i++) {
        value[i] = any();
    }
    qsort(key, MOST, KEY, by_bytes);
    build();
    double least = 1e18;
    for (long i = strtol(argv[2], NULL, 10); 0 < i; i--) {
        double start = now();
        turn(argv[1]);
        double took = now() - start;
        least = took < least ? took : least;
    }
    printf("%d %.1f\n", (int)rows, least / (double)rows);
    return 0;
}
