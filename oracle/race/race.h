/* What the files of the race share: its tests, their inputs, and the times that the contenders took. */
#ifndef RACE_H
#define RACE_H

#include "peer.h"

/* 16 bytes by chance; `card` and a count of 12 digits, so that they share 15 or 14 bytes: both with 100-byte
 * values. 200 bytes that all keys have alike and a count of 8 bytes, with 16-byte values. */
enum keys { RANDOM, CARD, PREFIX };

enum work { FORWARD, BACKWARD, SEEK, SEEK_BACK, BUILD, CHECK };

typedef struct {
    enum keys keys;
    size_t block_size;
    size_t interval; /* rows a restart region; 0 for slatedb's earlier format */
    enum work work;
} test;

/* Nanoseconds a row, or a seek. */
typedef struct {
    double least;
    double median;
} times;

/* ---- inputs.c */

enum { MOST_ROWS = 2000, TARGETS = 256, LONGEST_KEY = 208, LONGEST_VALUE = 100 };

typedef struct {
    uint8_t key[LONGEST_KEY + 1];
    size_t len;
} target;

/* MOST_ROWS rows, their keys rising. */
const peer_row *input_rows(enum keys keys);

/* TARGETS keys: every other one is that of one of these rows, and the others stand between two of them. */
const target *input_targets(enum keys keys, const peer_row *rows, size_t n);

/* The answers that are right. */
peer_sums sums_of_all(const peer_row *rows, size_t n);
peer_sums sums_of_sought(const peer_row *rows, size_t n, int descending, const target *sought);

/* ---- race.c */

/* How many contenders there are, the name of one of them, and what it is. */
size_t contenders(void);
const char *contender_name(size_t i);
const char *contender_title(size_t i);

/* What the contender took, or NULL if it took no part. */
const times *times_of(size_t contender, const test *t);

/* ---- tables.c */

void print_test(const test *t, size_t rows, size_t rounds);
void print_growth(void);

/* With the deepest stack of slatedb_block's functions, or 0 where it was not measured. */
void print_aims(size_t stack);

/* Those of the earlier format. */
void print_older_aims(void);

#endif
