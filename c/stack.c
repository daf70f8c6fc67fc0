/* How deep a stack each function of the libraries uses: it is run on a stack of its own that is painted before,
 * over blocks with short keys and with the longest, with the most restarts and with the deepest search among them,
 * both ways, and the lowest byte that lost its paint is looked for. The most of all runs is printed. It must be at
 * most 16 KiB for a function of slatedb_block, and 32 KiB for one of a library that is there for comparing. */
#define _GNU_SOURCE
#include "slatedb_compare.h"

#include <stdio.h>
#include <string.h>
#include <ucontext.h>

enum { STACK = 256 << 10, DATA = 65536, PLACES = 64, PAINT = 0xA5 };

/* The limits. */
enum { OF_BLOCK = 16 << 10, FOR_COMPARING = 32 << 10 };

/* The least row of a restart, its bytes up to its key, and how many such restarts a block can have whose rows are whole. */
enum { ROW = 13, KEY_END = 4, MOST_RESTARTS = SLATEDB_MOST_RESTARTS };

/* Regions of one byte, but for the 16 that the search for a key below all reads: as many as offsets up to 65,535 allow. */
enum { DEEPEST = 16, DEEP_RESTARTS = 65536 - (ROW - 1) - (DEEPEST - 1) * (KEY_END - 1), LARGEST = 65536 + 2 * DEEP_RESTARTS + 2 };

static _Alignas(64) uint8_t stack[STACK];
static ucontext_t desk, painted;
static void (*job)(void);

static uint8_t data[LARGEST], key[SLATEDB_KEY_BYTES], last[SLATEDB_KEY_BYTES], carried[SLATEDB_KEY_BYTES], out[SLATEDB_KEY_BYTES], encoded[2 * SLATEDB_KEY_BYTES];
enum { MANY = 4 }; /* rows a call */

static uint8_t keys[MANY * SLATEDB_KEY_BYTES];
static slatedb_row given[MANY];
static uint16_t restarts[PLACES];
static slatedb_builder builder;
static slatedb_cursor cursor;
static slatedb_fields fields = {.kind = SLATEDB_MERGE, .seq = 1, .has_expire = 1, .expire = 2, .has_create = 1, .create = 3};
static slatedb_row row;
static slatedb_single single;
static slatedb_varint varint;
static slatedb_key key_read;
static slatedb_sums sums;
static uint64_t count;
static size_t key_len, block_len;
static uint8_t answer;

/* Their words, as they are lent. */
#define LENT_BUILDER slatedb_builder_words(&builder), SLATEDB_BUILDER_WORDS
#define LENT_CURSOR slatedb_cursor_words(&cursor), SLATEDB_CURSOR_WORDS
#define LENT_FIELDS slatedb_fields_words(&fields), SLATEDB_FIELDS_WORDS
#define LENT_ROW slatedb_row_words(&row), SLATEDB_ROW_WORDS
#define LENT_SINGLE slatedb_single_words(&single), SLATEDB_SINGLE_WORDS
#define LENT_SUMS slatedb_sums_words(&sums), SLATEDB_SUMS_WORDS
#define LENT_VARINT slatedb_varint_words(&varint), SLATEDB_VARINT_WORDS
#define LENT_KEY slatedb_key_words(&key_read), SLATEDB_KEY_WORDS

static void run_job(void) {
    job();
}

/* The bytes of stack below what it takes to call a function that does nothing. */
static size_t depth(void (*f)(void)) {
    memset(stack, PAINT, STACK);
    job = f;
    getcontext(&painted);
    painted.uc_stack.ss_sp = stack;
    painted.uc_stack.ss_size = STACK;
    painted.uc_link = &desk;
    makecontext(&painted, run_job, 0);
    swapcontext(&desk, &painted);
    size_t untouched = 0;
    while (untouched < STACK && stack[untouched] == PAINT) {
        untouched++;
    }
    return STACK - untouched;
}

static void nothing(void) {
}

static void call_encode(void) {
    answer = slatedb_encode(encoded, sizeof encoded, 0, 0, key, key_len, out, 100, LENT_FIELDS, &count);
}

static void call_decode(void) {
    answer = slatedb_decode(encoded, sizeof encoded, 0, LENT_SINGLE);
}

static void call_builder_new(void) {
    answer = slatedb_builder_new(LENT_BUILDER, DATA, 16);
}

static void call_builder_would_fit(void) {
    answer = slatedb_builder_would_fit(LENT_BUILDER, last, sizeof last, DATA, PLACES, key, key_len, out, 100, LENT_FIELDS);
}

static void call_builder_add(void) {
    answer = slatedb_builder_add(LENT_BUILDER, last, sizeof last, data, DATA, restarts, PLACES, key, key_len, out, 100, LENT_FIELDS);
}

static void call_builder_add_by_value(void) {
    answer = slatedb_builder_add_by_value(LENT_BUILDER, last, sizeof last, data, DATA, restarts, PLACES, key, key_len, out, 100,
                                          LENT_FIELDS);
}

static void call_builder_is_empty(void) {
    answer = slatedb_builder_is_empty(LENT_BUILDER, &count);
}

static void call_builder_build(void) {
    answer = slatedb_builder_build(LENT_BUILDER, data, DATA, restarts, PLACES, &count);
}

static void call_check(void) {
    answer = slatedb_check(data, block_len, &count);
}

static uint64_t order;

static void call_open(void) {
    answer = slatedb_open(data, block_len, order, LENT_CURSOR);
}

static void call_next(void) {
    answer = slatedb_next(data, block_len, LENT_CURSOR, carried, sizeof carried, out, sizeof out, LENT_ROW);
}

static void call_next_rows(void) {
    answer = slatedb_next_rows(data, block_len, LENT_CURSOR, carried, sizeof carried, keys, sizeof keys, slatedb_row_words(given),
                               MANY * SLATEDB_ROW_WORDS, &count);
}

static void call_next_by_value(void) {
    answer = slatedb_next_by_value(data, block_len, LENT_CURSOR, carried, sizeof carried, out, sizeof out, LENT_ROW);
}

static void call_seek(void) {
    answer = slatedb_seek(data, block_len, key, key_len, LENT_CURSOR, carried, sizeof carried, &count);
}

static void call_is_empty(void) {
    answer = slatedb_is_empty(data, block_len, LENT_CURSOR, &count);
}

static void call_walk_by_value(void) {
    answer = slatedb_walk_by_value(data, block_len, order, UINT64_MAX, LENT_SUMS);
}

static void call_walk_in_place(void) {
    answer = slatedb_walk_in_place(data, block_len, order, UINT64_MAX, LENT_SUMS);
}

static void call_varint_put(void) {
    answer = slatedb_varint_put(encoded, sizeof encoded, UINT32_MAX, &count);
}

static void call_varint_get(void) {
    answer = slatedb_varint_get(encoded, sizeof encoded, 0, LENT_VARINT);
}

static void call_decode_key(void) {
    answer = slatedb_decode_key(encoded, sizeof encoded, 0, sizeof encoded, 0, 1, LENT_KEY);
}

static struct {
    const char *name;
    void (*call)(void);
    size_t limit;
    size_t most;
    unsigned good;
} functions[] = {
    {"slatedb_encode", call_encode, OF_BLOCK, 0, 0},
    {"slatedb_decode", call_decode, OF_BLOCK, 0, 0},
    {"slatedb_builder_new", call_builder_new, OF_BLOCK, 0, 0},
    {"slatedb_builder_would_fit", call_builder_would_fit, OF_BLOCK, 0, 0},
    {"slatedb_builder_add", call_builder_add, OF_BLOCK, 0, 0},
    {"slatedb_builder_is_empty", call_builder_is_empty, OF_BLOCK, 0, 0},
    {"slatedb_builder_build", call_builder_build, OF_BLOCK, 0, 0},
    {"slatedb_check", call_check, OF_BLOCK, 0, 0},
    {"slatedb_open", call_open, OF_BLOCK, 0, 0},
    {"slatedb_next", call_next, OF_BLOCK, 0, 0},
    {"slatedb_next_rows", call_next_rows, OF_BLOCK, 0, 0},
    {"slatedb_seek", call_seek, OF_BLOCK, 0, 0},
    {"slatedb_is_empty", call_is_empty, OF_BLOCK, 0, 0},
    {"slatedb_builder_add_by_value", call_builder_add_by_value, FOR_COMPARING, 0, 0},
    {"slatedb_next_by_value", call_next_by_value, FOR_COMPARING, 0, 0},
    {"slatedb_walk_by_value", call_walk_by_value, FOR_COMPARING, 0, 0},
    {"slatedb_walk_in_place", call_walk_in_place, FOR_COMPARING, 0, 0},
    {"slatedb_varint_put", call_varint_put, FOR_COMPARING, 0, 0},
    {"slatedb_varint_get", call_varint_get, FOR_COMPARING, 0, 0},
    {"slatedb_decode_key", call_decode_key, FOR_COMPARING, 0, 0},
};

enum { FUNCTIONS = sizeof functions / sizeof *functions };

static void measure(void (*f)(void)) {
    size_t deep = depth(f);
    for (size_t i = 0; i < FUNCTIONS; i++) {
        if (functions[i].call == f) {
            if (functions[i].most < deep) {
                functions[i].most = deep;
            }
            functions[i].good += answer == SLATEDB_GOOD || answer == SLATEDB_DONE;
        }
    }
}

static void set_key(unsigned i, size_t len) {
    memset(key, 'k', len);
    key[len - 1] = (uint8_t)i;
    key_len = len;
}

/* A row, and its parts by themselves. */
static void one_row(void) {
    measure(call_encode);
    measure(call_decode);
    measure(call_decode_key);
    measure(call_varint_put);
    measure(call_varint_get);
}

/* Builds a block of rows with keys of this length, and reads it both ways. */
static void over_keys_of(size_t len, unsigned rows) {
    set_key(0, len);
    one_row();
    measure(call_builder_new);
    for (unsigned i = 0; i < rows; i++) {
        set_key(i, len);
        measure(call_builder_would_fit);
        measure(i % 2 == 0 ? call_builder_add : call_builder_add_by_value);
        measure(call_builder_is_empty);
    }
    measure(call_builder_build);
    block_len = count;
    measure(call_check);
    for (order = SLATEDB_ASCENDING; order <= SLATEDB_DESCENDING; order++) {
        measure(call_walk_by_value);
        measure(call_walk_in_place);
        measure(call_open);
        for (unsigned i = 0; i <= rows; i++) {
            measure(call_is_empty);
            measure(i % 2 == 0 ? call_next : call_next_by_value);
        }
        measure(call_open);
        for (unsigned i = 0; i <= rows; i += MANY) {
            measure(call_next_rows);
        }
        for (unsigned i = 0; i < rows; i++) {
            set_key(i, len);
            measure(call_open);
            measure(call_seek);
            measure(call_next);
        }
    }
}

/* ---- blocks of many restarts, made by hand */

static size_t put_row(size_t at, unsigned letter, unsigned number) {
    const uint8_t least[ROW] = {0, 1, 0, (uint8_t)letter, [ROW - 2] = (uint8_t)number};
    memcpy(data + at, least, ROW);
    return at + ROW;
}

static size_t put_half(size_t at, size_t number) {
    data[at] = (uint8_t)(number / 256);
    data[at + 1] = (uint8_t)(number % 256);
    return at + 2;
}

/* Every row a restart, twenty with one key after another, the newest first. */
static void make_most_restarts(void) {
    size_t at = 0;
    for (unsigned i = 0; i < MOST_RESTARTS; i++) {
        at = put_row(at, i / 20, 19 - i % 20);
    }
    for (size_t i = 0; i < MOST_RESTARTS; i++) {
        at = put_half(at, i * ROW);
    }
    block_len = put_half(at, MOST_RESTARTS);
}

/* A search for a key below all goes to the lower half each time. */
static int is_read(size_t restart) {
    size_t high = DEEP_RESTARTS;
    while (restart < high / 2) {
        high /= 2;
    }
    return restart == high / 2;
}

/* Only the restarts that this search reads have a key, and only the first one, where it ends, a whole row. */
static void make_deepest_search(void) {
    static uint16_t offsets[DEEP_RESTARTS];
    size_t at = 0;
    for (size_t i = 0; i < DEEP_RESTARTS; i++) {
        offsets[i] = (uint16_t)at;
        if (is_read(i)) {
            put_row(at, 'z', 1);
            at += i == 0 ? ROW : KEY_END;
        } else {
            data[at++] = 0;
        }
    }
    for (size_t i = 0; i < DEEP_RESTARTS; i++) {
        at = put_half(at, offsets[i]);
    }
    block_len = put_half(at, DEEP_RESTARTS);
}

/* Seeks to a key of one letter, both ways; the most restart keys that a search has read. Where a last region can't be read
 * opening backwards refuses it: a seek takes only the order. */
static uint64_t seek_letter(unsigned letter, uint64_t reads) {
    for (order = SLATEDB_ASCENDING; order <= SLATEDB_DESCENDING; order++) {
        set_key(letter, 1);
        cursor = (slatedb_cursor){.order = order};
        measure(call_open);
        measure(call_seek);
        reads = reads < count ? count : reads;
        measure(call_next);
    }
    return reads;
}

static uint64_t over_many_restarts(void) {
    make_most_restarts();
    measure(call_check);
    uint64_t reads = seek_letter(0, 0);
    reads = seek_letter(100, reads);
    reads = seek_letter(255, reads);
    make_deepest_search();
    return seek_letter('a', reads);
}

/* Each function of one limit, and the deepest of them. 1 if one is deeper, or never answered well. */
static int print_within(size_t limit, size_t base, const char *where) {
    size_t deepest = 0;
    int failed = 0;
    for (size_t i = 0; i < FUNCTIONS; i++) {
        if (functions[i].limit == limit) {
            size_t deep = functions[i].most - base;
            printf("%-28s %6zu bytes of stack\n", functions[i].name, deep);
            deepest = deepest < deep ? deep : deepest;
            failed |= limit < deep || functions[i].good == 0;
        }
    }
    printf("the deepest of %s: %zu of %zu bytes\n", where, deepest, limit);
    return failed;
}

int main(void) {
    size_t base = depth(nothing);
    over_keys_of(16, 200);
    over_keys_of(SLATEDB_KEY_BYTES, 50);
    uint64_t reads = over_many_restarts();
    int failed = print_within(OF_BLOCK, base, "slatedb_block");
    failed |= print_within(FOR_COMPARING, base, "the others");
    printf("the longest search read %llu restart keys\n", (unsigned long long)reads);
    return failed || reads != DEEPEST;
}
