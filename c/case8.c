/* Case 8 of the rules' paper ("01") through slatedb_block.h: the block is built, checked, walked and sought in, and what comes
 * is held to the paper's numbers, each row's pair and each cursor's number too. Then the header's constants are held to the
 * library, and damaged blocks are read. Every array that is lent ends where memory ends, or starts where it starts, so that a
 * byte touched outside of it is a fault.
 */
#define _DEFAULT_SOURCE
#include "slatedb_compare.h"
#include <stdio.h>
#include <stdlib.h>
#include <string.h>
#include <sys/mman.h>

/* PAGE is a multiple of every processor's page. */
enum { PAGE = 65536, PIECES = 16, ROWS = 5, INTERVAL = 2, RESTARTS = 3, DATA = 64, BLOCK = 72, HALF = ROWS + 1, STATES = 2 * HALF };
enum { CURSOR = SLATEDB_CURSOR_WORDS, BUILDER = SLATEDB_BUILDER_WORDS, KEY = SLATEDB_KEY_BYTES };
enum { FIELDS = SLATEDB_FIELDS_WORDS, SINGLE = SLATEDB_SINGLE_WORDS, ROW = SLATEDB_ROW_WORDS };

static const char *const KEYS[ROWS] = {"a", "b", "b", "b", "c"};
static const uint64_t NUMBERS[ROWS] = {0, 3, 2, 1, 4}; /* of equal keys the newest first */
static const uint64_t STARTS[ROWS] = {0, 13, 26, 39, 51};

/* Which row it is: its region, and its number there. */
struct pair {
    uint64_t region, number;
};

static const struct pair PAIRS[ROWS] = {{0, 0}, {0, 1}, {1, 0}, {1, 1}, {2, 0}};

static uint8_t block[BLOCK];

/* Every cursor of the two walks over it, and the one byte of its key. */
static slatedb_cursor cursors[STATES];
static uint8_t cursor_keys[STATES];

static int differences;

static void expect(const char *what, uint64_t got, uint64_t wanted) {
    if (got == wanted) return;
    printf("DIFFERENT: %s is %llu and should be %llu\n", what, (unsigned long long)got, (unsigned long long)wanted);
    differences++;
}

/* ---- memory between two pages that can't be touched */

static uint8_t *pieces[PIECES];
static size_t used_pieces;
static int at_start; /* lend the start of a page, else its end */

static uint8_t *new_piece(void) {
    uint8_t *at = mmap(NULL, 4 * PAGE, PROT_NONE, MAP_PRIVATE | MAP_ANONYMOUS, -1, 0);
    if (at == MAP_FAILED) abort();
    at += PAGE + (PAGE - (uintptr_t)at % PAGE) % PAGE;
    if (mprotect(at, PAGE, PROT_READ | PROT_WRITE)) abort();
    return at;
}

static void *lend(size_t bytes) {
    if (used_pieces == PIECES || bytes > PAGE) abort();
    if (!pieces[used_pieces]) pieces[used_pieces] = new_piece();
    uint8_t *at = pieces[used_pieces++];
    if (!at_start) at += PAGE - bytes;
    memset(at, 0xA5, bytes);
    return at;
}

static void *lend_copy(const void *from, size_t bytes) {
    return memcpy(lend(bytes), from, bytes);
}

static void take_back(size_t mark) {
    used_pieces = mark;
}

/* ---- building */

struct desk {
    slatedb_builder *builder;
    uint8_t *last_key, *data;
    uint16_t *restarts;
    size_t data_len, restarts_len;
    const uint64_t *numbers;
};

static struct desk new_desk(size_t data_len, size_t restarts_len) {
    struct desk d = {lend(sizeof(slatedb_builder)), lend(KEY), lend(data_len),
                     lend(restarts_len * sizeof(uint16_t)), data_len, restarts_len, NUMBERS};
    expect("a new builder", slatedb_builder_new(slatedb_builder_words(d.builder), BUILDER, 4096, INTERVAL), SLATEDB_GOOD);
    return d;
}

static uint8_t add(struct desk *d, size_t row) {
    size_t mark = used_pieces;
    slatedb_fields *fields = lend(sizeof *fields);
    *fields = (slatedb_fields){.kind = SLATEDB_VALUE, .seq = d->numbers[row]};
    uint8_t *key = lend_copy(KEYS[row], 1);
    uint8_t code = slatedb_builder_add(slatedb_builder_words(d->builder), BUILDER, d->last_key, KEY, d->data, d->data_len,
                                       d->restarts, d->restarts_len, key, 1, lend(0), 0, slatedb_fields_words(fields), FIELDS);
    take_back(mark);
    return code;
}

/* The first refusal, else good. */
static uint8_t add_rows(struct desk *d) {
    uint8_t code = SLATEDB_GOOD;
    for (size_t row = 0; row < ROWS && code == SLATEDB_GOOD; row++) code = add(d, row);
    return code;
}

static uint8_t build(const struct desk *d, uint64_t *count) {
    return slatedb_builder_build(slatedb_builder_const_words(d->builder), BUILDER, d->data, d->data_len,
                                 d->restarts, d->restarts_len, count);
}

static void build_case(void) {
    struct desk d = new_desk(BLOCK, RESTARTS);
    uint64_t *count = lend(sizeof *count);
    expect("the rows added", add_rows(&d), SLATEDB_GOOD);
    expect("the building", build(&d, count), SLATEDB_GOOD);
    expect("the block's length", *count, BLOCK);
    memcpy(block, d.data, BLOCK);
    printf("%d bytes:", BLOCK);
    for (size_t i = 0; i < BLOCK; i++) printf(" %02x", block[i]);
    printf("\n");
    take_back(0);
}

/* Buffers too short for the rows and their trailer are refused with 6 by an add. */
static void short_buffers(void) {
    for (size_t data_len = 0; data_len <= BLOCK; data_len++)
        for (size_t restarts_len = 0; restarts_len <= RESTARTS; restarts_len++) {
            struct desk d = new_desk(data_len, restarts_len);
            int enough = data_len == BLOCK && restarts_len == RESTARTS;
            expect("rows added to short buffers", add_rows(&d), enough ? SLATEDB_GOOD : SLATEDB_BUFFER_TOO_SMALL);
            take_back(0);
        }
}

/* And by the building, where the rows came into a longer buffer. */
static void short_trailers(void) {
    for (size_t len = DATA; len <= BLOCK; len++) {
        struct desk d = new_desk(BLOCK, RESTARTS);
        uint64_t *count = lend(sizeof *count);
        expect("the rows added", add_rows(&d), SLATEDB_GOOD);
        d.data = lend_copy(d.data, len);
        d.data_len = len;
        expect("building in a short buffer", build(&d, count), len == BLOCK ? SLATEDB_GOOD : SLATEDB_BUFFER_TOO_SMALL);
        take_back(0);
    }
}

/* ---- reading */

struct reader {
    const uint8_t *block;
    size_t len;
    slatedb_cursor *cursor;
    uint8_t *key, *out;
    size_t out_len;
    slatedb_row *row;
    uint64_t *reads;
};

static struct reader new_reader(const uint8_t *from, size_t len, size_t out_len) {
    return (struct reader){.block = lend_copy(from, len), .len = len, .cursor = lend(sizeof(slatedb_cursor)),
                           .key = lend(KEY), .out = lend(out_len), .out_len = out_len,
                           .row = lend(sizeof(slatedb_row)), .reads = lend(sizeof(uint64_t))};
}

static int refused(uint8_t code) {
    return code != SLATEDB_GOOD && code != SLATEDB_DONE;
}

/* An opening that is refused has changed nothing. */
static uint8_t reopen(struct reader *r, uint64_t order) {
    slatedb_cursor cursor = *r->cursor;
    uint8_t code = slatedb_open(r->block, r->len, order, slatedb_cursor_words(r->cursor), CURSOR);
    if (refused(code)) expect("what a refused opening leaves", memcmp(&cursor, r->cursor, sizeof cursor), 0);
    return code;
}

/* A step that is refused has changed nothing. */
static uint8_t step(struct reader *r) {
    static uint8_t key[KEY], out[KEY];
    slatedb_cursor cursor = *r->cursor;
    slatedb_row row = *r->row;
    memcpy(key, r->key, sizeof key);
    memcpy(out, r->out, r->out_len);
    uint8_t code = slatedb_next(r->block, r->len, slatedb_cursor_words(r->cursor), CURSOR, r->key, KEY, r->out, r->out_len,
                                slatedb_row_words(r->row), ROW);
    if (refused(code)) {
        int same = !memcmp(&cursor, r->cursor, sizeof cursor) && !memcmp(&row, r->row, sizeof row) &&
                   !memcmp(key, r->key, sizeof key) && !memcmp(out, r->out, r->out_len);
        expect("what a refused step leaves", same, 1);
    }
    return code;
}

/* Many rows in one call, from where the cursor stands: what as many steps give, call by call. The cursor is put back. */
static void many_rows(struct reader *r, size_t keys_len, size_t most) {
    size_t mark = used_pieces;
    slatedb_cursor cursor = *r->cursor, *many = lend(sizeof *many);
    uint8_t key[KEY];
    memcpy(key, r->key, sizeof key);
    *many = cursor;
    uint8_t *many_key = lend_copy(key, sizeof key), *keys = lend(keys_len);
    slatedb_row *rows = lend(most * sizeof *rows);
    uint64_t *count = lend(sizeof *count), none = UINT64_MAX;
    *count = none;
    uint8_t code = slatedb_next_rows(r->block, r->len, slatedb_cursor_words(many), CURSOR, many_key, KEY, keys, keys_len,
                                     slatedb_row_words(rows), most * ROW, count);
    size_t given = refused(code) ? 0 : *count, used = 0, room = r->out_len;
    if (refused(code)) expect("the count of a refused call", *count, none);
    for (size_t i = 0; i < given; i++) {
        r->out_len = keys_len - used < room ? keys_len - used : room;
        expect("a step of many", step(r), SLATEDB_GOOD);
        expect("a row of many", memcmp(&rows[i], r->row, sizeof *rows), 0);
        size_t len = rows[i].shared + rows[i].suffix_len;
        expect("a key of many", memcmp(keys + used, r->out, len), 0);
        used += len;
    }
    r->out_len = keys_len - used < room ? keys_len - used : room;
    uint8_t after = given < most ? step(r) : SLATEDB_GOOD;
    if (given < most) expect("a step after many", after == SLATEDB_GOOD, 0);
    if (!given) expect("a call that gives none", code, after);
    r->out_len = room;
    take_back(mark);
    *r->cursor = cursor;
    memcpy(r->key, key, sizeof key);
}

static uint64_t is_empty(const struct reader *r) {
    uint64_t empty;
    uint8_t code = slatedb_is_empty(r->block, r->len, slatedb_cursor_const_words(r->cursor), CURSOR, &empty);
    expect("is_empty", code, SLATEDB_GOOD);
    return empty;
}

static uint8_t seek(struct reader *r, const char *target) {
    static uint8_t key[KEY];
    size_t mark = used_pieces;
    slatedb_cursor cursor = *r->cursor;
    memcpy(key, r->key, sizeof key);
    uint8_t *lent = lend_copy(target, strlen(target));
    uint8_t code = slatedb_seek(r->block, r->len, lent, strlen(target), slatedb_cursor_words(r->cursor), CURSOR, r->key, KEY,
                                r->reads);
    if (refused(code)) {
        int same = !memcmp(&cursor, r->cursor, sizeof cursor) && !memcmp(key, r->key, sizeof key);
        expect("what a refused seek leaves", same, 1);
    }
    take_back(mark);
    return code;
}

static const char *name_of(uint64_t order) {
    return order == SLATEDB_ASCENDING ? "ascending" : "descending";
}

/* The number in the block of the row that starts there; ROWS if none does. */
static size_t number_of(uint64_t start) {
    size_t row = 0;
    while (row < ROWS && STARTS[row] != start) row++;
    return row;
}

static void expect_row(const struct reader *r, size_t row) {
    printf(" row %zu (%llu, %llu)", number_of(r->row->start), (unsigned long long)r->row->region, (unsigned long long)r->row->number);
    expect("the row's region", r->row->region, PAIRS[row].region);
    expect("the row's number", r->row->number, PAIRS[row].number);
    expect("the row's start", r->row->start, STARTS[row]);
    expect("the row's sequence number", r->row->seq, NUMBERS[row]);
    expect("the row's kind", r->row->kind, SLATEDB_VALUE);
    expect("the row's value", r->row->value_len, 0);
    expect("the row's key length", r->row->shared + r->row->suffix_len, 1);
    expect("the row's key", r->out[0], (uint8_t)KEYS[row][0]);
}

/* Where opening or a seek leaves a cursor that gives this row next, ROWS for none: ascending at that row's pair, descending with
 * one row more up to there. */
static struct pair before(uint64_t order, size_t row) {
    static const struct pair up_end = {RESTARTS - 1, 1}, down_end = {0, 0};
    if (order == SLATEDB_ASCENDING) return row < ROWS ? PAIRS[row] : up_end;
    return row < ROWS ? (struct pair){PAIRS[row].region, PAIRS[row].number + 1} : down_end;
}

static void expect_cursor(const struct reader *r, struct pair wanted) {
    expect("the cursor's region", r->cursor->region, wanted.region);
    expect("the cursor's number", r->cursor->number, wanted.number);
}

/* Walks the whole block, and keeps the cursor before each step. */
static void walk(struct reader *r, uint64_t order) {
    printf("%s:", name_of(order));
    expect("the opening", reopen(r, order), SLATEDB_GOOD);
    expect_cursor(r, before(order, order == SLATEDB_ASCENDING ? 0 : ROWS - 1));
    for (size_t i = 0; i <= ROWS; i++) {
        cursors[order * HALF + i] = *r->cursor;
        cursor_keys[order * HALF + i] = r->key[0];
        /* after the last row, and not yet told that it was */
        expect("empty before a step", is_empty(r), i == ROWS && order == SLATEDB_ASCENDING);
        for (size_t most = 0; most <= ROWS + 1; most++) {
            for (size_t keys_len = 0; keys_len <= ROWS + 1; keys_len++) many_rows(r, keys_len, most);
        }
        uint8_t code = step(r);
        size_t row = order == SLATEDB_ASCENDING ? i : ROWS - 1 - i;
        expect("the step", code, i < ROWS ? SLATEDB_GOOD : SLATEDB_DONE);
        if (code == SLATEDB_GOOD && i < ROWS) {
            expect_row(r, row);
            /* descending the cursor stands where the row that was given starts */
            expect_cursor(r, order == SLATEDB_ASCENDING ? before(order, row + 1) : PAIRS[row]);
        }
        if (code == SLATEDB_DONE) printf(" done\n");
    }
    expect_cursor(r, before(order, ROWS));
    expect("empty after done", is_empty(r), 1);
    expect("a step after the last one", step(r), SLATEDB_DONE);
}

/* `row` is the row that the paper names, ROWS for "done"; the search has read two restart keys. */
static void find(struct reader *r, uint64_t order, const char *target, size_t row) {
    uint8_t wanted = row < ROWS ? SLATEDB_GOOD : SLATEDB_DONE;
    printf("%s to \"%s\":", name_of(order), target);
    expect("the opening", reopen(r, order), SLATEDB_GOOD);
    expect("the seek", seek(r, target), wanted);
    expect_cursor(r, before(order, row));
    uint8_t code = step(r);
    expect("the step after the seek", code, wanted);
    if (code == SLATEDB_GOOD && row < ROWS) expect_row(r, row);
    if (code == SLATEDB_DONE) printf(" done");
    printf(", %llu restart keys read\n", (unsigned long long)*r->reads);
    expect("the restart keys read", *r->reads, 2);
}

static void read_case(void) {
    struct reader r = new_reader(block, BLOCK, 1);
    uint64_t *count = lend(sizeof *count);
    expect("the check", slatedb_check(r.block, r.len, count), SLATEDB_GOOD);
    expect("the rows that the check counts", *count, ROWS);
    printf("checked, %llu rows\n", (unsigned long long)*count);
    walk(&r, SLATEDB_ASCENDING);
    walk(&r, SLATEDB_DESCENDING);
    find(&r, SLATEDB_ASCENDING, "b", 1); /* case 8 */
    find(&r, SLATEDB_DESCENDING, "b", 3);
    find(&r, SLATEDB_ASCENDING, "bb", 4); /* case 9 */
    find(&r, SLATEDB_DESCENDING, "bb", 3);
    find(&r, SLATEDB_ASCENDING, "d", ROWS); /* case 10 */
    find(&r, SLATEDB_DESCENDING, "", ROWS);
    find(&r, SLATEDB_ASCENDING, "", 0);
    take_back(0);
}

/* 12 times this is 0 in 64 bits. */
#define WRAPS ((uint64_t)1 << 62)

/* A region's start, by the offsets that it must have. */
static uint64_t start_of(uint64_t region) {
    return STARTS[INTERVAL * region];
}

/* Every cursor of the walks, with numbers that are true, that could be and that can't. A number that is 18 leaves all as it
 * was; ascending another one is given as the row's and counted on. */
static void wrong_numbers(void) {
    static const uint64_t tries[] = {0, 1, 2, 3, 4, 5, UINT64_MAX / 12, UINT64_MAX / 12 + 1, WRAPS, WRAPS + 1, UINT64_MAX};
    struct reader r = new_reader(block, BLOCK, 1);
    for (size_t i = 0; i < STATES; i++)
        for (size_t t = 0; t < sizeof tries / sizeof *tries; t++) {
            uint64_t number = tries[t], passed = cursors[i].at - start_of(cursors[i].region);
            int ascending = cursors[i].order == SLATEDB_ASCENDING;
            int wrong = ascending ? (passed > 0 && number == 0) || number > passed / 12 : number != cursors[i].number;
            *r.cursor = cursors[i];
            r.cursor->number = number;
            r.key[0] = cursor_keys[i];
            many_rows(&r, ROWS, ROWS);
            uint8_t code = step(&r);
            expect("a wrong number", code == SLATEDB_BAD_STATE, wrong);
            if (code == SLATEDB_GOOD && ascending) expect("a number taken at its word", r.row->number, number);
            /* marked, no number is looked at */
            *r.cursor = cursors[i];
            r.cursor->number = number;
            r.cursor->done = 1;
            expect("a marked cursor", step(&r), SLATEDB_DONE);
            expect("its number", r.cursor->number, number);
        }
    take_back(0);
}

/* Flags that can't be, in one row after another: opening backwards reads the last region, and no other. */
static void bad_flags(void) {
    for (size_t row = 0; row < ROWS; row++) {
        uint8_t damaged[BLOCK];
        memcpy(damaged, block, BLOCK);
        damaged[(row + 1 < ROWS ? STARTS[row + 1] : DATA) - 1] = 9;
        struct reader r = new_reader(damaged, BLOCK, 1);
        expect("opening before bad flags", reopen(&r, SLATEDB_ASCENDING), SLATEDB_GOOD);
        expect("opening after bad flags", reopen(&r, SLATEDB_DESCENDING), row / INTERVAL == RESTARTS - 1 ? SLATEDB_TOMBSTONE_WITH_MERGE : SLATEDB_GOOD);
        take_back(0);
    }
}

/* The same keys with other numbers, of which those of the three rows "b" count: the check asks that they fall. */
static void newest_first(void) {
    static const struct {
        uint64_t numbers[ROWS];
        uint8_t code;
    } tries[] = {
        {{9, 3, 2, 1, 0}, SLATEDB_GOOD},
        {{0, UINT64_MAX, 1, 0, 4}, SLATEDB_GOOD},
        {{0, 1, 2, 3, 4}, SLATEDB_KEY_FALLS},
        {{1, 1, 1, 1, 1}, SLATEDB_KEY_FALLS},
        {{0, 2, 3, 1, 4}, SLATEDB_KEY_FALLS}, /* only on both sides of a restart */
        {{0, 2, 2, 1, 4}, SLATEDB_KEY_FALLS},
        {{0, 3, 1, 2, 4}, SLATEDB_KEY_FALLS}, /* only in one region */
        {{0, 3, 1, 1, 4}, SLATEDB_KEY_FALLS},
        {{0, 3, 0, UINT64_MAX, 4}, SLATEDB_KEY_FALLS},
    };
    for (size_t i = 0; i < sizeof tries / sizeof *tries; i++) {
        struct desk d = new_desk(BLOCK, RESTARTS);
        uint64_t *count = lend(sizeof *count);
        d.numbers = tries[i].numbers;
        expect("the rows added", add_rows(&d), SLATEDB_GOOD);
        expect("the building", build(&d, count), SLATEDB_GOOD);
        expect("the check of numbers", slatedb_check(d.data, BLOCK, count), tries[i].code);
        take_back(0);
    }
}

/* ---- one row */

/* Case 1's row, in a buffer that it fills, and in all shorter ones. */
static void one_row(void) {
    static const uint8_t row[] = {0, 1, 0, 'a', 0, 0, 0, 0, 0, 0, 0, 1, 0};
    for (size_t len = 0; len <= sizeof row; len++) {
        slatedb_fields *fields = lend(sizeof *fields);
        *fields = (slatedb_fields){.kind = SLATEDB_VALUE, .seq = 1};
        uint8_t *output = lend(len);
        uint64_t *count = lend(sizeof *count);
        uint8_t code = slatedb_encode(output, len, 0, 0, lend_copy("a", 1), 1, lend(0), 0, slatedb_fields_words(fields), FIELDS,
                                      count);
        expect("a row written", code, len == sizeof row ? SLATEDB_GOOD : SLATEDB_BUFFER_TOO_SMALL);
        if (code == SLATEDB_GOOD) expect("the row's bytes", *count == len && !memcmp(output, row, len), 1);
        slatedb_single *read = lend(sizeof *read);
        code = slatedb_decode(lend_copy(row, len), len, 0, slatedb_single_words(read), SINGLE);
        expect("a row read", code, len == sizeof row ? SLATEDB_GOOD : SLATEDB_INPUT_ENDS);
        take_back(0);
    }
}

/* ---- the lengths that the header says always do */

static uint8_t large[131072];

/* The largest row, alone and as a block's first: one byte less does not do. */
static void largest_row(void) {
    static uint8_t output[SLATEDB_MOST_FIRST], key[KEY], last_key[KEY];
    slatedb_fields fields = {.kind = SLATEDB_MERGE, .has_expire = 1, .has_create = 1};
    for (size_t less = 0; less <= 1; less++) {
        uint8_t wanted = less ? SLATEDB_BUFFER_TOO_SMALL : SLATEDB_GOOD;
        slatedb_builder builder;
        uint64_t count = 0;
        uint16_t restarts[1];
        expect("the largest row", slatedb_encode(output, SLATEDB_MOST_ROW - less, 0, 0, key, sizeof key, large, SLATEDB_MOST_VALUE,
                                                 slatedb_fields_words(&fields), FIELDS, &count), wanted);
        expect("its bytes", count, less ? 0 : SLATEDB_MOST_ROW);
        expect("a new builder", slatedb_builder_new(slatedb_builder_words(&builder), BUILDER, 0, 1), SLATEDB_GOOD);
        expect("a block of the largest row",
               slatedb_builder_add(slatedb_builder_words(&builder), BUILDER, last_key, KEY, output, SLATEDB_MOST_FIRST - less, restarts, 1,
                                   key, sizeof key, large, SLATEDB_MOST_VALUE, slatedb_fields_words(&fields), FIELDS), wanted);
    }
}

/* Rows of 13 bytes, each a restart: as many as there can be, and then a restart would lie too far. */
static void most_restarts(void) {
    static uint8_t last_key[KEY];
    static uint16_t restarts[SLATEDB_MOST_RESTARTS];
    slatedb_fields fields = {.kind = SLATEDB_TOMBSTONE};
    slatedb_builder builder;
    uint8_t key = 'a', code = slatedb_builder_new(slatedb_builder_words(&builder), BUILDER, sizeof large, 1);
    while (code == SLATEDB_GOOD)
        code = slatedb_builder_add(slatedb_builder_words(&builder), BUILDER, last_key, KEY, large, sizeof large, restarts, SLATEDB_MOST_RESTARTS,
                                   &key, 1, &key, 0, slatedb_fields_words(&fields), FIELDS);
    expect("the end of short rows", code, SLATEDB_RESTART_TOO_FAR);
    expect("the most restarts", builder.restarts, SLATEDB_MOST_RESTARTS);
}

/* ---- the header's constants: each call with n[0] words or key bytes in its first array, n[1] in its second, and so on */

static uint64_t *words(size_t n) {
    return memset(lend(n * sizeof(uint64_t)), 0, n * sizeof(uint64_t));
}

static uint8_t try_encode(const size_t *n) {
    return slatedb_encode(lend(64), 64, 0, 0, lend(1), 1, lend(0), 0, words(n[0]), n[0], words(1));
}

static uint8_t try_decode(const size_t *n) {
    return slatedb_decode(block, BLOCK, 0, words(n[0]), n[0]);
}

static uint8_t try_builder_new(const size_t *n) {
    return slatedb_builder_new(words(n[0]), n[0], 4096, INTERVAL);
}

static uint8_t try_builder_would_fit(const size_t *n) {
    return slatedb_builder_would_fit(words(n[0]), n[0], lend(n[1]), n[1], 64, 1, lend(1), 1, lend(0), 0, words(n[2]), n[2]);
}

static uint8_t try_builder_add(const size_t *n) {
    return slatedb_builder_add(words(n[0]), n[0], lend(n[1]), n[1], lend(64), 64, lend(2), 1, lend(1), 1, lend(0), 0,
                               words(n[2]), n[2]);
}

static uint8_t try_builder_add_by_value(const size_t *n) {
    return slatedb_builder_add_by_value(words(n[0]), n[0], lend(n[1]), n[1], lend(64), 64, lend(2), 1, lend(1), 1, lend(0), 0,
                                        words(n[2]), n[2]);
}

static uint8_t try_builder_is_empty(const size_t *n) {
    return slatedb_builder_is_empty(words(n[0]), n[0], words(1));
}

static uint8_t try_builder_build(const size_t *n) {
    return slatedb_builder_build(words(n[0]), n[0], lend(64), 64, lend(2), 1, words(1));
}

static uint8_t try_open(const size_t *n) {
    return slatedb_open(block, BLOCK, SLATEDB_ASCENDING, words(n[0]), n[0]);
}

static uint8_t try_next(const size_t *n) {
    return slatedb_next(block, BLOCK, words(n[0]), n[0], lend(n[1]), n[1], lend(1), 1, words(n[2]), n[2]);
}

static uint8_t try_next_by_value(const size_t *n) {
    return slatedb_next_by_value(block, BLOCK, words(n[0]), n[0], lend(n[1]), n[1], lend(1), 1, words(n[2]), n[2]);
}

static uint8_t try_next_rows(const size_t *n) {
    return slatedb_next_rows(block, BLOCK, words(n[0]), n[0], lend(n[1]), n[1], lend(1), 1, words(ROW), ROW, words(1));
}

static uint8_t try_seek(const size_t *n) {
    return slatedb_seek(block, BLOCK, lend(1), 1, words(n[0]), n[0], lend(n[1]), n[1], words(1));
}

static uint8_t try_is_empty(const size_t *n) {
    return slatedb_is_empty(block, BLOCK, words(n[0]), n[0], words(1));
}

enum { MOST = 3 }; /* such arrays in a call */

static const struct {
    const char *name;
    uint8_t (*call)(const size_t *n);
    size_t right[MOST];
} CALLS[] = {
    {"encode", try_encode, {FIELDS}},
    {"decode", try_decode, {SINGLE}},
    {"builder_new", try_builder_new, {BUILDER}},
    {"builder_would_fit", try_builder_would_fit, {BUILDER, KEY, FIELDS}},
    {"builder_add", try_builder_add, {BUILDER, KEY, FIELDS}},
    {"builder_add_by_value", try_builder_add_by_value, {BUILDER, KEY, FIELDS}},
    {"builder_is_empty", try_builder_is_empty, {BUILDER}},
    {"builder_build", try_builder_build, {BUILDER}},
    {"open", try_open, {CURSOR}},
    {"next", try_next, {CURSOR, KEY, ROW}},
    {"next_by_value", try_next_by_value, {CURSOR, KEY, ROW}},
    {"next_rows", try_next_rows, {CURSOR, KEY}},
    {"seek", try_seek, {CURSOR, KEY}},
    {"is_empty", try_is_empty, {CURSOR}},
};

static uint64_t lengths_tried;

static int bad_words(size_t call, const size_t *n) {
    uint8_t code = CALLS[call].call(n);
    lengths_tried++;
    take_back(0);
    return code == SLATEDB_BAD_WORDS;
}

static void constants(void) {
    for (size_t call = 0; call < sizeof CALLS / sizeof *CALLS; call++) {
        const size_t *right = CALLS[call].right;
        expect(CALLS[call].name, bad_words(call, right), 0);
        for (size_t i = 0; i < MOST && right[i]; i++) {
            size_t shorter[MOST], longer[MOST];
            memcpy(shorter, right, sizeof shorter);
            memcpy(longer, right, sizeof longer);
            shorter[i]--;
            longer[i]++;
            expect(CALLS[call].name, bad_words(call, shorter), 1);
            expect(CALLS[call].name, bad_words(call, longer), 1);
        }
    }
}

/* ---- damaged blocks */

static uint64_t tried, accepted;

/* The pair after this one ascending, as far as it is settled: the next of the region, or the first of the next region. */
static int follows(struct pair now, struct pair before) {
    return (now.region == before.region && now.number == before.number + 1) || (now.region == before.region + 1 && now.number == 0);
}

/* An accepted block gives as many rows as the check counts, and any block their pairs in order; any block ends, since a step
 * moves on. */
static void walk_damaged(struct reader *r, uint64_t order, uint8_t verdict, uint64_t rows) {
    uint8_t code = reopen(r, order);
    uint64_t steps = 0;
    struct pair last = {0, 0};
    while (code == SLATEDB_GOOD && steps <= BLOCK) {
        code = step(r);
        if (code != SLATEDB_GOOD) break;
        struct pair now = {r->row->region, r->row->number};
        if (steps) expect("the next pair", order == SLATEDB_ASCENDING ? follows(now, last) : follows(last, now), 1);
        if (!steps && order == SLATEDB_ASCENDING) expect("the first pair", now.region + now.number, 0);
        last = now;
        steps++;
    }
    if (code == SLATEDB_DONE && order == SLATEDB_DESCENDING) expect("the last pair", last.region + last.number, 0);
    expect("a walk's end", code != SLATEDB_GOOD, 1);
    if (verdict != SLATEDB_GOOD || r->out_len < KEY) return;
    expect("the end of an accepted block", code, SLATEDB_DONE);
    expect("the rows of an accepted block", steps, rows);
}

static void seek_damaged(struct reader *r, uint64_t order) {
    static const char *const targets[] = {"", "a", "b", "bb", "d"};
    for (size_t i = 0; i < sizeof targets / sizeof *targets; i++) {
        *r->cursor = (slatedb_cursor){.order = order};
        uint8_t code = seek(r, targets[i]);
        expect("a seek's 18 or 19", code == SLATEDB_BAD_STATE || code == SLATEDB_KEY_BUFFER_TOO_SHORT, 0);
        if (code == SLATEDB_GOOD) step(r);
    }
}

static void read_damaged(const uint8_t *damaged, size_t len, size_t out_len) {
    struct reader r = new_reader(damaged, len, out_len);
    uint64_t *rows = lend(sizeof *rows);
    uint8_t verdict = slatedb_check(r.block, r.len, rows);
    tried++;
    accepted += verdict == SLATEDB_GOOD;
    for (uint64_t order = SLATEDB_ASCENDING; order <= SLATEDB_DESCENDING; order++) {
        walk_damaged(&r, order, verdict, *rows);
        seek_damaged(&r, order);
    }
    /* the cursors of the undamaged block, also where opening is refused */
    for (size_t i = 0; i < STATES; i++) {
        *r.cursor = cursors[i];
        r.key[0] = cursor_keys[i];
        many_rows(&r, out_len, 3);
        step(&r);
    }
    take_back(0);
}

static void damage(size_t out_len) {
    static const uint8_t values[] = {0, 1, 2, 9, 15, 16, 127, 128, 255};
    uint8_t damaged[BLOCK];
    memcpy(damaged, block, BLOCK);
    for (size_t i = 0; i < BLOCK; i++) {
        for (size_t v = 0; v < sizeof values; v++) {
            damaged[i] = values[v];
            read_damaged(damaged, BLOCK, out_len);
        }
        damaged[i] = block[i];
    }
    for (size_t cut = 0; cut < BLOCK; cut++) read_damaged(block, cut, out_len);
}

int main(void) {
    build_case();
    read_case();
    wrong_numbers();
    bad_flags();
    newest_first();
    largest_row();
    most_restarts();
    for (at_start = 0; at_start <= 1; at_start++) {
        short_buffers();
        short_trailers();
        one_row();
        constants();
        damage(1);
        damage(KEY);
    }
    printf("lengths of lent arrays: %llu tried\n", (unsigned long long)lengths_tried);
    printf("damaged blocks: %llu read, %llu of them accepted\n", (unsigned long long)tried, (unsigned long long)accepted);
    printf("%d differences\n", differences);
    return differences != 0;
}
