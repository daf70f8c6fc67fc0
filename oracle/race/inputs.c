/* The inputs of the race, the same in every run, and the answers to them that are right. */
#include "race.h"

#include <stdio.h>
#include <stdlib.h>
#include <string.h>

enum { KEY = 16, SHARED = 200, COUNT = 8, SHORT_VALUE = 16 };

static peer_row rows[MOST_ROWS];
static uint8_t keys_of_rows[MOST_ROWS][LONGEST_KEY], values[MOST_ROWS][LONGEST_VALUE];
static target targets[TARGETS];
static uint64_t seed;

/* splitmix64 */
static uint64_t chance(void) {
    seed += 0x9E3779B97F4A7C15;
    uint64_t z = seed;
    z = (z ^ (z >> 30)) * 0xBF58476D1CE4E5B9;
    z = (z ^ (z >> 27)) * 0x94D049BB133111EB;
    return z ^ (z >> 31);
}

static void fill(uint8_t *at, size_t n) {
    for (size_t i = 0; i < n; i++) {
        at[i] = (uint8_t)(chance() >> 56);
    }
}

static int by_key(const void *a, const void *b) {
    return memcmp(a, b, KEY);
}

static void random_keys(void) {
    for (size_t i = 0; i < MOST_ROWS; i++) {
        fill(keys_of_rows[i], KEY);
    }
    qsort(keys_of_rows, MOST_ROWS, LONGEST_KEY, by_key);
}

static void card_keys(void) {
    for (size_t i = 0; i < MOST_ROWS; i++) {
        char text[KEY + 1];
        snprintf(text, sizeof text, "card%012u", (unsigned)i);
        memcpy(keys_of_rows[i], text, KEY);
    }
}

static void prefix_keys(void) {
    fill(keys_of_rows[0], SHARED);
    for (size_t i = 0; i < MOST_ROWS; i++) {
        memcpy(keys_of_rows[i], keys_of_rows[0], SHARED);
        for (size_t k = 0; k < COUNT; k++) {
            keys_of_rows[i][SHARED + k] = (uint8_t)(i >> 8 * (COUNT - 1 - k));
        }
    }
}

const peer_row *input_rows(enum keys keys) {
    seed = 1 + keys;
    switch (keys) {
    case RANDOM: random_keys(); break;
    case CARD: card_keys(); break;
    case PREFIX: prefix_keys(); break;
    }
    size_t key_len = keys == PREFIX ? SHARED + COUNT : KEY;
    size_t value_len = keys == PREFIX ? SHORT_VALUE : LONGEST_VALUE;
    for (size_t i = 0; i < MOST_ROWS; i++) {
        fill(values[i], value_len);
        rows[i] = (peer_row){keys_of_rows[i], key_len, values[i], value_len, i + 1};
    }
    return rows;
}

const target *input_targets(enum keys keys, const peer_row *from, size_t n) {
    seed = 99;
    for (size_t i = 0; i < TARGETS; i++) {
        const peer_row *row = &from[chance() % n];
        target *t = &targets[i];
        memcpy(t->key, row->key, row->key_len);
        t->len = row->key_len;
        if (i % 2 == 1 && keys == RANDOM) {
            fill(t->key + KEY / 2, KEY / 2);
        } else if (i % 2 == 1) {
            /* no count is between two counts, but a key with one byte more is */
            t->key[t->len++] = 0;
        }
    }
    return targets;
}

static void count(peer_sums *sums, const peer_row *row) {
    peer_count(sums, row->key, row->key_len, row->value_len, row->seq);
}

peer_sums sums_of_all(const peer_row *all, size_t n) {
    peer_sums sums = {0, 0};
    for (size_t i = 0; i < n; i++) {
        count(&sums, &all[i]);
    }
    return sums;
}

static int compared(const peer_row *row, const target *t) {
    int order = memcmp(row->key, t->key, row->key_len < t->len ? row->key_len : t->len);
    return order != 0 ? order : (row->key_len > t->len) - (row->key_len < t->len);
}

peer_sums sums_of_sought(const peer_row *all, size_t n, int descending, const target *sought) {
    peer_sums sums = {0, 0};
    size_t below = 0;
    while (below < n && compared(&all[below], sought) < 0) {
        below++;
    }
    /* keys rise: only the first that is not below can be the target itself */
    int found = below < n && compared(&all[below], sought) == 0;
    if (!descending && below < n) {
        count(&sums, &all[below]);
    }
    if (descending && below + (size_t)found > 0) {
        count(&sums, &all[below + (size_t)found - 1]);
    }
    return sums;
}
