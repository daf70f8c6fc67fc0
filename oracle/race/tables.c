/* What the race prints: a table for each test, how cost grows with block and regions, and the aims. */
#include "race.h"

#include <stdio.h>
#include <string.h>

static const char *const key_names[] = {"random keys", "card keys", "keys that share 200 bytes"};
static const char *const work_names[] = {
    "forward", "backward", "open, seek, step", "open, seek, step back", "build", "check",
};

static int is_seek(enum work work) {
    return work == SEEK || work == SEEK_BACK;
}

/* The contender's number, or the number of all where it is not in the race. */
static size_t find(const char *name) {
    size_t i = 0;
    while (i < contenders() && strcmp(contender_name(i), name) != 0) {
        i++;
    }
    return i;
}

static const times *times_by_name(const char *name, const test *t) {
    size_t i = find(name);
    return i < contenders() ? times_of(i, t) : NULL;
}

void print_test(const test *t, size_t rows, size_t rounds) {
    const times *rust = times_by_name("rust", t);
    printf("\n%s, %s, %zu-byte block of %zu rows: ns a %s, %zu rounds\n", work_names[t->work],
           key_names[t->keys], t->block_size, rows, is_seek(t->work) ? "seek" : "row", rounds);
    printf("  %-36s %9s %9s %s\n", "", "least", "median", rust ? " to the Rust's" : "");
    for (size_t i = 0; i < contenders(); i++) {
        const times *took = times_of(i, t);
        if (took != NULL) {
            printf("  %-36s %9.2f %9.2f", contender_title(i), took->least, took->median);
            printf(rust ? "  %7.3f\n" : "\n", rust ? took->least / rust->least : 0);
        }
    }
}

/* ---- growth */

/* One line a contender, one column a test. */
static void print_columns(const test *columns, size_t n) {
    for (size_t i = 0; i < contenders(); i++) {
        if (strncmp(contender_name(i), "padded", 6) == 0 || times_of(i, &columns[0]) == NULL) {
            continue;
        }
        printf("  %-36s", contender_title(i));
        for (size_t k = 0; k < n; k++) {
            const times *took = times_of(i, &columns[k]);
            printf(" %9.2f", took ? took->least : 0.0);
        }
        printf("\n");
    }
}

static void print_block_growth(enum work work) {
    const test columns[] = {{RANDOM, 4096, 16, work}, {RANDOM, 16384, 16, work}, {RANDOM, 65536, 16, work}};
    printf("\n%s, random keys, 16 rows a region: ns a %s, the least, in blocks of\n", work_names[work],
           is_seek(work) ? "seek" : "row");
    printf("  %-36s %9s %9s %9s\n", "", "4 KiB", "16 KiB", "64 KiB");
    print_columns(columns, 3);
}

static void print_region_growth(enum work work) {
    const test columns[] = {
        {RANDOM, 65536, 4, work},
        {RANDOM, 65536, 16, work},
        {RANDOM, 65536, 64, work},
        {RANDOM, 65536, 256, work},
    };
    printf("\n%s, random keys, 64 KiB: ns a %s, the least, with so many rows a region\n", work_names[work],
           is_seek(work) ? "seek" : "row");
    printf("  %-36s %9s %9s %9s %9s\n", "", "4", "16", "64", "256");
    print_columns(columns, 4);
}

void print_growth(void) {
    for (enum work work = FORWARD; work <= BUILD; work++) {
        print_block_growth(work);
    }
    for (enum work work = FORWARD; work <= BUILD; work++) {
        print_region_growth(work);
    }
}

/* ---- aims */

static size_t met, missed, not_run;

/* The slowest of the library at all its addresses. */
static const times *slowest_padded(const test *t) {
    const times *slowest = times_by_name("call", t);
    for (size_t i = 0; i < contenders(); i++) {
        const times *took = times_of(i, t);
        if (strncmp(contender_name(i), "padded", 6) == 0 && took && slowest && slowest->least < took->least) {
            slowest = took;
        }
    }
    return slowest;
}

/* `ours` is to be at most `most` of `theirs`; with 0 below it. */
static void verdict(const char *what, double ours, const char *who, double theirs, double most) {
    double ratio = ours / theirs;
    int holds = most == 0 ? ratio < 1 : ratio <= most;
    char bound[32] = "below 1";
    if (most != 0) {
        snprintf(bound, sizeof bound, "at most %.4g", most);
    }
    printf("  %-50s %8.2f %8.2f %-20s %6.3f  %-12s %s\n", what, ours, theirs, who, ratio, bound,
           holds ? "met" : "missed");
    *(holds ? &met : &missed) += 1;
}

static void aim(const char *what, const test *t, const times *ours, const char *other, double most) {
    const times *theirs = times_by_name(other, t);
    if (ours == NULL || theirs == NULL) {
        not_run++;
        return;
    }
    char name[96];
    snprintf(name, sizeof name, "%s, %s", what, key_names[t->keys]);
    verdict(name, ours->least, contender_title(find(other)), theirs->least, most);
}

static void scan_aims(enum keys keys) {
    const test forward = {keys, 4096, 16, FORWARD}, backward = {keys, 4096, 16, BACKWARD};
    const times *call = times_by_name("call", &forward), *call_back = times_by_name("call", &backward);
    const times *inside = times_by_name("inside", &forward), *rows = times_by_name("rows", &forward);
    const times *value = times_by_name("value_inside", &forward);
    const times *value_back = times_by_name("value_inside", &backward);
    aim("forward, a C call a row", &forward, call, "leveldb", 0);
    aim("forward, a C call a row", &forward, call, "rocksdb", 1.5);
    aim("forward, a C call a row", &forward, call, "rust", 0.08);
    aim("forward, loop inside", &forward, inside, "rocksdb", 0);
    aim("forward, loop inside", &forward, inside, "floor", 1);
    aim("forward, many rows a call", &forward, rows, "rocksdb", 0);
    aim("forward, many rows a call", &forward, rows, "floor", 1);
    aim("backward, a C call a row", &backward, call_back, "leveldb", 0);
    aim("backward, a C call a row", &backward, call_back, "rust", 0.2);
    aim("forward, by value inside", &forward, value, "rust", 0.5);
    aim("backward, by value inside", &backward, value_back, "rust", 0.5);
}

static void seek_aims(enum keys keys, size_t block_size, enum work work) {
    const test t = {keys, block_size, 16, work};
    const times *call = times_by_name("call", &t);
    char what[64];
    snprintf(what, sizeof what, "%s, %zu KiB", work_names[work], block_size / 1024);
    aim(what, &t, call, "leveldb", 0);
    aim(what, &t, call, "rocksdb", 0);
    aim(what, &t, call, "rust", 0.08);
}

static void build_aims(enum keys keys) {
    const test t = {keys, 4096, 16, BUILD};
    aim("build, slowest address", &t, slowest_padded(&t), "rocksdb", 1);
    aim("build, slowest address", &t, slowest_padded(&t), "rust", 0.35);
}

static void check_aim(enum keys keys) {
    const test t = {keys, 4096, 16, CHECK};
    const times *call = times_by_name("call", &t);
    char name[96];
    if (call == NULL) {
        not_run++;
        return;
    }
    snprintf(name, sizeof name, "check, 4 KiB, %s", key_names[keys]);
    verdict(name, call->least, "ns", 10, 1);
}

static void stack_aim(size_t stack) {
    if (stack == 0) {
        not_run++;
        return;
    }
    verdict("the deepest stack of slatedb_block", (double)stack, "bytes", 16384, 1);
}

static void print_head(void) {
    printf("\naims: the least of each, ns a row or a seek\n");
    printf("  %-50s %8s %8s %-20s %6s  %s\n", "", "library", "other", "", "ratio", "aim");
}

static void print_counts(void) {
    printf("%zu met, %zu missed, %zu not run\n", met, missed, not_run);
}

void print_aims(size_t stack) {
    print_head();
    for (enum keys keys = RANDOM; keys <= CARD; keys++) {
        scan_aims(keys);
        for (size_t block_size = 4096; block_size <= 65536; block_size *= 16) {
            seek_aims(keys, block_size, SEEK);
            seek_aims(keys, block_size, SEEK_BACK);
        }
        build_aims(keys);
        check_aim(keys);
    }
    build_aims(PREFIX);
    stack_aim(stack);
    print_counts();
}

/* The Rust has no check: the library's is held to its time forward. */
static void older_aims(enum keys keys, size_t block_size) {
    for (enum work work = FORWARD; work <= CHECK; work++) {
        const test ours = {keys, block_size, 0, work};
        const test theirs = {keys, block_size, 0, work == CHECK ? FORWARD : work};
        char what[64];
        snprintf(what, sizeof what, "%s, %zu KiB", work_names[work], block_size / 1024);
        aim(what, &theirs, times_by_name("call", &ours), "rust", work == BUILD ? 0.35 : 0.1);
    }
}

void print_older_aims(void) {
    print_head();
    for (size_t block_size = 4096; block_size <= 65536; block_size *= 16) {
        for (enum keys keys = RANDOM; keys <= CARD; keys++) {
            older_aims(keys, block_size);
        }
    }
    print_counts();
}
