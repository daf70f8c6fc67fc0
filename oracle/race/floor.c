/* A contender in plain C that reads and writes slatedb's format V2 and tests nothing of what it is handed: a
 * floor for what the format itself costs. It goes the way of the rules, so a step back reads its region again
 * from the start. Not a port. */
#include "peer.h"

#include <stdlib.h>
#include <string.h>

enum { DATA = 1 << 17, RESTARTS = 8192, LONGEST_KEY = 65536 };

static uint64_t swapped(uint64_t number) {
    return __builtin_bswap64(number);
}

/* ---- one row, read */

typedef struct {
    uint8_t key[LONGEST_KEY];
    uint32_t key_len;
    uint32_t value_len;
    uint64_t seq;
} row_read;

static const uint8_t *varint(const uint8_t *at, uint32_t *number) {
    uint32_t sum = 0;
    unsigned shift = 0;
    uint8_t byte;
    do {
        byte = *at++;
        sum |= (uint32_t)(byte & 127) << shift;
        shift += 7;
    } while (byte & 128);
    *number = sum;
    return at;
}

/* Where the row after it starts. `row` has the key before. */
static const uint8_t *read_row(const uint8_t *at, row_read *row) {
    uint32_t shared, suffix_len, value_len;
    at = varint(at, &shared);
    at = varint(at, &suffix_len);
    at = varint(at, &value_len);
    memcpy(row->key + shared, at, suffix_len);
    row->key_len = shared + suffix_len;
    at += suffix_len + value_len;
    uint64_t seq;
    memcpy(&seq, at, 8);
    row->seq = swapped(seq);
    uint8_t flags = at[8];
    row->value_len = flags & 1 ? 0 : value_len;
    at += 9;
    if (flags & 2) {
        at += 8;
    }
    if (flags & 4) {
        at += 8;
    }
    return at;
}

static void count(peer_sums *sums, const row_read *row) {
    peer_count(sums, row->key, row->key_len, row->value_len, row->seq);
}

/* ---- a block, read */

static uint8_t block[DATA];
static size_t block_len;
static row_read row;

static size_t half(const uint8_t *at) {
    return (size_t)at[0] << 8 | at[1];
}

static size_t regions(void) {
    return half(block + block_len - 2);
}

static const uint8_t *offsets(void) {
    return block + block_len - 2 - 2 * regions();
}

static const uint8_t *region_start(size_t i) {
    return block + half(offsets() + 2 * i);
}

static const uint8_t *region_end(size_t i) {
    return i + 1 < regions() ? region_start(i + 1) : offsets();
}

static int compared(const uint8_t *a, size_t a_len, const uint8_t *b, size_t b_len) {
    int order = memcmp(a, b, a_len < b_len ? a_len : b_len);
    return order != 0 ? order : (a_len > b_len) - (a_len < b_len);
}

peer_sums peer_forward(void) {
    peer_sums sums = {0, 0};
    const uint8_t *end = offsets();
    for (const uint8_t *at = block; at < end;) {
        at = read_row(at, &row);
        count(&sums, &row);
    }
    return sums;
}

/* The last row before `end` of a region; where it starts. */
static const uint8_t *last_row(const uint8_t *start, const uint8_t *end) {
    const uint8_t *last = start;
    for (const uint8_t *at = start; at < end;) {
        last = at;
        at = read_row(at, &row);
    }
    return last;
}

peer_sums peer_backward(void) {
    peer_sums sums = {0, 0};
    for (size_t i = regions(); i > 0; i--) {
        const uint8_t *start = region_start(i - 1), *end = region_end(i - 1);
        while (end > start) {
            end = last_row(start, end);
            count(&sums, &row);
        }
    }
    return sums;
}

/* ---- seeks */

static int restart_compared(size_t i, const uint8_t *target, size_t target_len) {
    uint32_t shared, key_len, value_len;
    const uint8_t *at = varint(region_start(i), &shared);
    at = varint(at, &key_len);
    at = varint(at, &value_len);
    return compared(at, key_len, target, target_len);
}

/* The first restart whose key is not below the target. */
static size_t search(const uint8_t *target, size_t target_len) {
    size_t low = 0, high = regions();
    while (low < high) {
        size_t middle = low + (high - low) / 2;
        if (restart_compared(middle, target, target_len) < 0) {
            low = middle + 1;
        } else {
            high = middle;
        }
    }
    return low;
}

static peer_sums seek_forward(const uint8_t *target, size_t target_len) {
    peer_sums sums = {0, 0};
    size_t restart = search(target, target_len);
    const uint8_t *at = region_start(restart > 0 ? restart - 1 : 0), *end = offsets();
    while (at < end) {
        at = read_row(at, &row);
        if (compared(row.key, row.key_len, target, target_len) >= 0) {
            count(&sums, &row);
            break;
        }
    }
    return sums;
}

/* The end of the last row of a region at or below the target, or the region's start. */
static const uint8_t *end_at_or_below(size_t i, const uint8_t *target, size_t target_len) {
    const uint8_t *at = region_start(i), *end = region_end(i);
    while (at < end) {
        const uint8_t *next = read_row(at, &row);
        if (compared(row.key, row.key_len, target, target_len) > 0) {
            break;
        }
        at = next;
    }
    return at;
}

static peer_sums seek_backward(const uint8_t *target, size_t target_len) {
    peer_sums sums = {0, 0};
    size_t i = search(target, target_len);
    while (i < regions() && restart_compared(i, target, target_len) == 0) {
        i++;
    }
    for (i = i > 0 ? i : 1; i > 0; i--) {
        const uint8_t *start = region_start(i - 1), *end = end_at_or_below(i - 1, target, target_len);
        if (end > start) {
            last_row(start, end);
            count(&sums, &row);
            break;
        }
    }
    return sums;
}

peer_sums peer_seek(int descending, const uint8_t *target, size_t target_len) {
    return descending ? seek_backward(target, target_len) : seek_forward(target, target_len);
}

/* ---- a block, built */

static uint8_t data[DATA];
static uint16_t restarts[RESTARTS];

static size_t varint_len(size_t number) {
    size_t len = 1;
    while (number >= 128) {
        number >>= 7;
        len++;
    }
    return len;
}

static uint8_t *put_varint(uint8_t *at, size_t number) {
    while (number >= 128) {
        *at++ = (uint8_t)(number | 128);
        number >>= 7;
    }
    *at++ = (uint8_t)number;
    return at;
}

static uint8_t *put_half(uint8_t *at, size_t number) {
    at[0] = (uint8_t)(number >> 8);
    at[1] = (uint8_t)number;
    return at + 2;
}

/* How many bytes two rows' keys begin with alike, eight at a time. */
static size_t shared_bytes(const peer_row *a, const peer_row *b) {
    size_t most = a->key_len < b->key_len ? a->key_len : b->key_len, i = 0;
    for (; i + 8 <= most; i += 8) {
        uint64_t x, y;
        memcpy(&x, a->key + i, 8);
        memcpy(&y, b->key + i, 8);
        if (x != y) {
            return i + (size_t)__builtin_ctzll(x ^ y) / 8;
        }
    }
    while (i < most && a->key[i] == b->key[i]) {
        i++;
    }
    return i;
}

static uint8_t *put_row(uint8_t *at, const peer_row *added, size_t shared) {
    size_t suffix_len = added->key_len - shared;
    at = put_varint(at, shared);
    at = put_varint(at, suffix_len);
    at = put_varint(at, added->value_len);
    memcpy(at, added->key + shared, suffix_len);
    at += suffix_len;
    memcpy(at, added->value, added->value_len);
    at += added->value_len;
    uint64_t seq = swapped(added->seq);
    memcpy(at, &seq, 8);
    at[8] = 0;
    return at + 9;
}

static size_t row_size(const peer_row *added, size_t shared) {
    size_t suffix_len = added->key_len - shared, value_len = added->value_len;
    return varint_len(shared) + varint_len(suffix_len) + varint_len(value_len) + suffix_len + value_len + 9;
}

/* Adds rows until one does not fit, and puts the trailer. */
static size_t build(const peer_row *rows, size_t n, size_t block_size, size_t interval, size_t *len) {
    uint8_t *at = data;
    size_t places = 0, added = 0;
    for (; added < n; added++) {
        int restart = added % interval == 0;
        size_t shared = restart ? 0 : shared_bytes(&rows[added - 1], &rows[added]);
        size_t used = (size_t)(at - data);
        size_t whole = used + row_size(&rows[added], shared) + 2 * (places + (size_t)restart) + 2;
        if (added > 0 && whole > block_size) {
            break;
        }
        if (restart) {
            restarts[places++] = (uint16_t)used;
        }
        at = put_row(at, &rows[added], shared);
    }
    for (size_t i = 0; i < places; i++) {
        at = put_half(at, restarts[i]);
    }
    at = put_half(at, places);
    *len = (size_t)(at - data);
    return added;
}

int peer_load(const peer_row *rows, size_t n, size_t block_size, size_t interval) {
    if (build(rows, n, block_size, interval, &block_len) != n) {
        return 0;
    }
    memcpy(block, data, block_len);
    return 1;
}

const uint8_t *peer_block(size_t *len) {
    *len = block_len;
    return block;
}

static const peer_row *prepared;
static size_t prepared_rows;

void peer_prepare(const peer_row *rows, size_t n, size_t times) {
    (void)times;
    prepared = rows;
    prepared_rows = n;
}

size_t peer_build(size_t block_size, size_t interval) {
    size_t len;
    return build(prepared, prepared_rows, block_size, interval, &len);
}
