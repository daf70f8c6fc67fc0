/* What a contender of the race exports. Each is a shared object of its own, which race.c loads. One that has
 * nothing of its own for a test leaves out the functions that the test calls, and takes no part in it. */
#ifndef PEER_H
#define PEER_H

#include <stddef.h>
#include <stdint.h>

#ifdef __cplusplus
extern "C" {
#endif
#pragma GCC visibility push(default)

typedef struct {
    const uint8_t *key;
    size_t key_len;
    const uint8_t *value;
    size_t value_len;
    uint64_t seq;
} peer_row;

/* What a contender says of the rows that it read, as in slatedb_compare.h. It has to have each row's key, the
 * lengths and the sequence number to say it. */
typedef struct {
    uint64_t rows;
    uint64_t sum;
} peer_sums;

static inline void peer_count(peer_sums *sums, const uint8_t *key, size_t key_len, size_t value_len,
                              uint64_t seq) {
    sums->rows++;
    sums->sum += seq + key_len + value_len + key[key_len - 1];
}

/* An interval is that of the restarts; 0 asks for a block of slatedb's earlier format, which has none. */

/* ---- not timed */

/* Builds the block that is read from now on, of all these rows. 0 if it can't. */
int peer_load(const peer_row *rows, size_t n, size_t block_size, size_t interval);

/* That block, where it is in slatedb's format: all such contenders have to have the same bytes. */
const uint8_t *peer_block(size_t *len);

/* Gets ready to build a block of these rows so many times. The last of them is one that no longer fits. */
void peer_prepare(const peer_row *rows, size_t n, size_t times);

/* ---- timed */

/* Opens the block and reads every row, from the first to the last. */
peer_sums peer_forward(void);

/* The same from the last to the first. */
peer_sums peer_backward(void);

/* Opens the block, seeks the first row at or above the target, or descending the last at or below it, and
 * reads it. */
peer_sums peer_seek(int descending, const uint8_t *target, size_t target_len);

/* Builds a block of the prepared rows that fit, with its trailer. How many did. */
size_t peer_build(size_t block_size, size_t interval);

/* Checks the whole block. How many rows it has. */
size_t peer_check(void);

#pragma GCC visibility pop
#ifdef __cplusplus
}
#endif

#endif
