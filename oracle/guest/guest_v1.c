/* The proved library of the earlier format as a process of its own: it serves slatedb_block_v1.h. */
#include "serve.h"
#include "slatedb_block_v1.h"

static uint8_t call(uint8_t function, const struct argument *a) {
    switch (function) {
    case 32: return slatedb_v1_encoded_size(NUM(0), NUM(1), NUM(2), WORDS(3), WORD(4));
    case 33: return slatedb_v1_encode(BYTES(0), NUM(1), NUM(2), BYTES(3), BYTES(4), WORDS(5), WORD(6));
    case 34: return slatedb_v1_decode(BYTES(0), NUM(1), WORDS(2));
    case 35: return slatedb_v1_builder_new(WORDS(0), NUM(1));
    case 36: return slatedb_v1_builder_would_fit(WORDS(0), BYTES(1), NUM(2), NUM(3), BYTES(4), BYTES(5), WORDS(6));
    case 37: return slatedb_v1_builder_add(WORDS(0), BYTES(1), BYTES(2), HALVES(3), BYTES(4), BYTES(5), WORDS(6));
    case 38: return slatedb_v1_builder_is_empty(WORDS(0), WORD(1));
    case 39: return slatedb_v1_builder_build(WORDS(0), BYTES(1), HALVES(2), WORD(3));
    case 40: return slatedb_v1_check(BYTES(0), WORD(1));
    case 41: return slatedb_v1_open(BYTES(0), NUM(1), WORDS(2));
    case 42: return slatedb_v1_next(BYTES(0), WORDS(1), BYTES(2), WORDS(3));
    case 43: return slatedb_v1_seek(BYTES(0), BYTES(1), WORDS(2), WORD(3));
    case 44: return slatedb_v1_is_empty(BYTES(0), WORDS(1), WORD(2));
    default: fail("unknown function"); return 0;
    }
}
