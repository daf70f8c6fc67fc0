/* Two debits are built into a block, which is checked; then the second one is sought and read, and its place told. */
#include "slatedb_block.h"

#include <stdio.h>

static uint8_t data[4096], last[SLATEDB_KEY_BYTES], before[SLATEDB_KEY_BYTES], key[SLATEDB_KEY_BYTES];
static uint16_t restarts[8];

static uint8_t add(slatedb_builder *builder, const char *debit, uint64_t seq) {
    slatedb_fields fields = {.kind = SLATEDB_VALUE, .seq = seq};
    return slatedb_builder_add(slatedb_builder_words(builder), SLATEDB_BUILDER_WORDS, last, sizeof last, data, sizeof data, restarts, 8,
                               (const uint8_t *)debit, 6, (const uint8_t *)"25", 2, slatedb_fields_words(&fields), SLATEDB_FIELDS_WORDS);
}

/* How many bytes the block has, or 0. */
static size_t build(void) {
    slatedb_builder builder;
    uint64_t *words = slatedb_builder_words(&builder), len;
    if (slatedb_builder_new(words, SLATEDB_BUILDER_WORDS, sizeof data, 16) != SLATEDB_GOOD || add(&builder, "5003/1", 6) != SLATEDB_GOOD ||
        add(&builder, "5003/2", 7) != SLATEDB_GOOD ||
        slatedb_builder_build(words, SLATEDB_BUILDER_WORDS, data, sizeof data, restarts, 8, &len) != SLATEDB_GOOD) {
        return 0;
    }
    return len;
}

int main(void) {
    slatedb_cursor cursor;
    slatedb_row row;
    uint64_t *words = slatedb_cursor_words(&cursor), rows, reads;
    size_t len = build();
    if (slatedb_check(data, len, &rows) != SLATEDB_GOOD || slatedb_open(data, len, SLATEDB_ASCENDING, words, SLATEDB_CURSOR_WORDS) != SLATEDB_GOOD ||
        slatedb_seek(data, len, (const uint8_t *)"5003/2", 6, words, SLATEDB_CURSOR_WORDS, before, sizeof before, &reads) != SLATEDB_GOOD ||
        slatedb_next(data, len, words, SLATEDB_CURSOR_WORDS, before, sizeof before, key, sizeof key, slatedb_row_words(&row),
                     SLATEDB_ROW_WORDS) != SLATEDB_GOOD) {
        return 1;
    }
    printf("%d rows in %d bytes; found %.6s, seq %d, region %d, row %d\n", (int)rows, (int)len, (const char *)key, (int)row.seq,
           (int)row.region, (int)row.number);
    return 0;
}
