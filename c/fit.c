/* fit N: a builder with ten rows of 16-byte keys and 100-byte values is asked N times whether one more such row fits.
 * For callgrind: what 2,000 questions take less what 1,000 take is a thousand questions, and nothing of the start. */
#include "slatedb_block.h"

#include <stdio.h>
#include <stdlib.h>
#include <string.h>

enum { KEY = 16, VALUE = 100, ROWS = 10, PLACES = 16, DATA = 4096 };

static uint8_t data[DATA], last[SLATEDB_KEY_BYTES], value[VALUE], key[KEY];
static uint16_t restarts[PLACES];
static slatedb_builder builder;
static slatedb_fields fields = {.kind = SLATEDB_VALUE, .seq = 1};

static uint8_t add(void) {
    return slatedb_builder_add(slatedb_builder_words(&builder), SLATEDB_BUILDER_WORDS, last, sizeof last, data,
                               sizeof data, restarts, PLACES, key, sizeof key, value, sizeof value,
                               slatedb_fields_words(&fields), SLATEDB_FIELDS_WORDS);
}

static uint8_t ask(void) {
    return slatedb_builder_would_fit(slatedb_builder_words(&builder), SLATEDB_BUILDER_WORDS, last, sizeof last,
                                     sizeof data, PLACES, key, sizeof key, value, sizeof value,
                                     slatedb_fields_words(&fields), SLATEDB_FIELDS_WORDS);
}

int main(int argc, char **argv) {
    size_t questions = argc > 1 ? strtoul(argv[1], NULL, 10) : 1;
    if (slatedb_builder_new(slatedb_builder_words(&builder), SLATEDB_BUILDER_WORDS, sizeof data, 16) != SLATEDB_GOOD) {
        return 1;
    }
    /* keys that begin with a byte of their own share nothing */
    memset(key, 'k', sizeof key);
    for (key[0] = 0; key[0] < ROWS; key[0]++) {
        if (add() != SLATEDB_GOOD) {
            return 1;
        }
    }
    for (size_t i = 0; i < questions; i++) {
        if (ask() != SLATEDB_GOOD) {
            return 1;
        }
    }
    printf("%zu questions, each answered yes\n", questions);
    return 0;
}
