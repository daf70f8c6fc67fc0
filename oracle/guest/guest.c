/* The proved libraries as a process of their own, so that they can be compared on any processor: it serves slatedb_block.h,
 * slatedb_compare.h. */
#include "serve.h"
#include "slatedb_compare.h"

static uint8_t call(uint8_t function, const struct argument *a) {
    switch (function) {
    case 0: return slatedb_encode(BYTES(0), NUM(1), NUM(2), BYTES(3), BYTES(4), WORDS(5), WORD(6));
    case 1: return slatedb_decode(BYTES(0), NUM(1), WORDS(2));
    case 2: return slatedb_builder_new(WORDS(0), NUM(1), NUM(2));
    case 3: return slatedb_builder_would_fit(WORDS(0), BYTES(1), NUM(2), NUM(3), BYTES(4), BYTES(5), WORDS(6));
    case 4: return slatedb_builder_add(WORDS(0), BYTES(1), BYTES(2), HALVES(3), BYTES(4), BYTES(5), WORDS(6));
    case 5: return slatedb_builder_add_by_value(WORDS(0), BYTES(1), BYTES(2), HALVES(3), BYTES(4), BYTES(5), WORDS(6));
    case 6: return slatedb_builder_is_empty(WORDS(0), WORD(1));
    case 7: return slatedb_builder_build(WORDS(0), BYTES(1), HALVES(2), WORD(3));
    case 8: return slatedb_check(BYTES(0), WORD(1));
    case 9: return slatedb_open(BYTES(0), NUM(1), WORDS(2));
    case 10: return slatedb_next(BYTES(0), WORDS(1), BYTES(2), BYTES(3), WORDS(4));
    case 11: return slatedb_next_by_value(BYTES(0), WORDS(1), BYTES(2), BYTES(3), WORDS(4));
    case 12: return slatedb_seek(BYTES(0), BYTES(1), WORDS(2), BYTES(3), WORD(4));
    case 13: return slatedb_is_empty(BYTES(0), WORDS(1), WORD(2));
    case 14: return slatedb_walk_by_value(BYTES(0), NUM(1), NUM(2), WORDS(3));
    case 15: return slatedb_walk_in_place(BYTES(0), NUM(1), NUM(2), WORDS(3));
    case 16: return slatedb_varint_put(BYTES(0), NUM(1), WORD(2));
    case 17: return slatedb_varint_get(BYTES(0), NUM(1), WORDS(2));
    case 18: return slatedb_decode_key(BYTES(0), NUM(1), NUM(2), NUM(3), NUM(4), WORDS(5));
    case 19: return slatedb_next_rows(BYTES(0), WORDS(1), BYTES(2), BYTES(3), WORDS(4), WORD(5));
    default: fail("unknown function"); return 0;
    }
}
