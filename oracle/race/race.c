/* race [-n ROUNDS] [-s BYTES] [-1] CONTENDER.so..: loads the contenders into one process and times them, with
 * -1 on blocks of slatedb's earlier format.
 *
 * In each round every contender of a test takes its turn, so that a slow moment of the machine meets all of
 * them, and each test has ROUNDS rounds in each of ten passes over all tests, so that a slow minute does not
 * meet one test alone. The least and the median of its rounds are kept. Before a test its contenders have to
 * give the answers that are right. The first contender says how many rows a block takes. BYTES is the deepest
 * stack that was measured (c/stack.c), for the aims. */
#define _GNU_SOURCE
#include "race.h"

#include <dlfcn.h>
#include <stdio.h>
#include <stdlib.h>
#include <string.h>
#include <time.h>

/* As many rows are read or built in one round, or TARGETS sought. */
enum { ROWS_A_ROUND = 2000 };

enum { MOST_CONTENDERS = 32, MOST_TESTS = 64, MOST_ROUNDS = 1000, PASSES = 10 };

/* ---- the contenders */

typedef struct {
    char name[64];
    char title[64];
    int (*load)(const peer_row *, size_t, size_t, size_t);
    const uint8_t *(*block)(size_t *);
    peer_sums (*forward)(void);
    peer_sums (*backward)(void);
    peer_sums (*seek)(int, const uint8_t *, size_t);
    void (*prepare)(const peer_row *, size_t, size_t);
    size_t (*build)(size_t, size_t);
    size_t (*check)(void);
} contender;

static contender all[MOST_CONTENDERS];
static size_t entered;

static const char *const titles[][2] = {
    {"call", "library, a C call a row"},
    {"rows", "library, many rows a call"},
    {"inside", "library, loop inside, in place"},
    {"value", "library, by value, a C call a row"},
    {"value_inside", "library, loop inside, by value"},
    {"floor", "C that tests nothing"},
    {"rust", "the Rust"},
    {"rust_lto", "the Rust, link-time optimised"},
    {"leveldb", "LevelDB"},
    {"rocksdb", "RocksDB"},
};

size_t contenders(void) {
    return entered;
}

const char *contender_name(size_t i) {
    return all[i].name;
}

const char *contender_title(size_t i) {
    return all[i].title;
}

static void failed(const char *who, const char *why) {
    fprintf(stderr, "race: %s: %s\n", who, why);
    exit(1);
}

/* A contender's name is its file's. The library that is linked at several addresses is told apart by them. */
static void name_it(contender *c, const char *file, void *handle) {
    const char *slash = strrchr(file, '/'), *start = slash ? slash + 1 : file;
    int len = (int)strcspn(start, ".");
    snprintf(c->name, sizeof c->name, "%.*s", len, start);
    snprintf(c->title, sizeof c->title, "%.*s", len, start);
    for (size_t i = 0; i < sizeof titles / sizeof *titles; i++) {
        if (strcmp(titles[i][0], c->name) == 0) {
            snprintf(c->title, sizeof c->title, "%s", titles[i][1]);
        }
    }
    if (strncmp(c->name, "padded", 6) == 0) {
        size_t address = (size_t)dlsym(handle, "slatedb_builder_add");
        snprintf(c->title, sizeof c->title, "library, add at %3zu modulo 128", address % 128);
    }
}

static void enter(const char *file) {
    void *handle = dlopen(file, RTLD_NOW | RTLD_LOCAL);
    if (handle == NULL || entered == MOST_CONTENDERS) {
        failed(file, handle ? "one contender too many" : dlerror());
    }
    contender *c = &all[entered++];
    name_it(c, file, handle);
    *(void **)&c->load = dlsym(handle, "peer_load");
    *(void **)&c->block = dlsym(handle, "peer_block");
    *(void **)&c->forward = dlsym(handle, "peer_forward");
    *(void **)&c->backward = dlsym(handle, "peer_backward");
    *(void **)&c->seek = dlsym(handle, "peer_seek");
    *(void **)&c->prepare = dlsym(handle, "peer_prepare");
    *(void **)&c->build = dlsym(handle, "peer_build");
    *(void **)&c->check = dlsym(handle, "peer_check");
}

static int takes_part(const contender *c, enum work work) {
    switch (work) {
    case FORWARD: return c->forward != NULL;
    case BACKWARD: return c->backward != NULL;
    case SEEK:
    case SEEK_BACK: return c->seek != NULL;
    case BUILD: return c->build != NULL;
    case CHECK: return c->check != NULL;
    }
    return 0;
}

/* ---- a test is set up, and its answers are looked at */

static const peer_row *rows;
static const target *targets;
static size_t fit;

/* Every contender has the block of the rows that fit; those of slatedb's format have the same bytes. */
static void load(const test *t) {
    const uint8_t *first = NULL;
    size_t first_len = 0;
    rows = input_rows(t->keys);
    all[0].prepare(rows, MOST_ROWS, 1);
    fit = all[0].build(t->block_size, t->interval);
    targets = input_targets(t->keys, rows, fit);
    for (size_t i = 0; i < entered; i++) {
        if (all[i].load != NULL && !all[i].load(rows, fit, t->block_size, t->interval)) {
            failed(all[i].title, "does not take the rows that fit");
        }
        if (all[i].load != NULL && all[i].block != NULL) {
            size_t len;
            const uint8_t *block = all[i].block(&len);
            first_len = first ? first_len : len;
            first = first ? first : block;
            if (len != first_len || memcmp(block, first, len) != 0) {
                failed(all[i].title, "has other bytes");
            }
        }
    }
}

static void must_agree(const contender *c, peer_sums given, peer_sums right) {
    if (given.rows != right.rows || given.sum != right.sum) {
        failed(c->title, "gives other rows");
    }
}

static void look_at_answers(const contender *c, const test *t) {
    peer_sums every = sums_of_all(rows, fit);
    if (t->work == FORWARD) {
        must_agree(c, c->forward(), every);
    } else if (t->work == BACKWARD) {
        must_agree(c, c->backward(), every);
    } else if (t->work == BUILD) {
        c->prepare(rows, fit + 1, 1);
        must_agree(c, (peer_sums){c->build(t->block_size, t->interval), 0}, (peer_sums){fit, 0});
    } else if (t->work == CHECK) {
        must_agree(c, (peer_sums){c->check(), 0}, (peer_sums){fit, 0});
    } else {
        int descending = t->work == SEEK_BACK;
        for (size_t i = 0; i < TARGETS; i++) {
            must_agree(c, c->seek(descending, targets[i].key, targets[i].len),
                       sums_of_sought(rows, fit, descending, &targets[i]));
        }
    }
}

/* ---- a test is run */

static double now(void) {
    struct timespec t;
    clock_gettime(CLOCK_MONOTONIC, &t);
    return (double)t.tv_sec * 1e9 + (double)t.tv_nsec;
}

static void once(const contender *c, const test *t) {
    switch (t->work) {
    case FORWARD: c->forward(); break;
    case BACKWARD: c->backward(); break;
    case BUILD: c->build(t->block_size, t->interval); break;
    case CHECK: c->check(); break;
    case SEEK:
    case SEEK_BACK:
        for (size_t i = 0; i < TARGETS; i++) {
            c->seek(t->work == SEEK_BACK, targets[i].key, targets[i].len);
        }
    }
}

/* Nanoseconds a row, or a seek. The first time is not counted: it fetches the contender's code and block. */
static double taken(const contender *c, const test *t) {
    int seeks = t->work == SEEK || t->work == SEEK_BACK;
    size_t repeated = seeks || fit > ROWS_A_ROUND ? 1 : ROWS_A_ROUND / fit;
    if (t->work == BUILD) {
        c->prepare(rows, fit + 1, repeated + 1);
    }
    once(c, t);
    double start = now();
    for (size_t i = 0; i < repeated; i++) {
        once(c, t);
    }
    return (now() - start) / (double)(repeated * (seeks ? TARGETS : fit));
}

static int rising(const void *a, const void *b) {
    double x = *(const double *)a, y = *(const double *)b;
    return (x > y) - (x < y);
}

/* ---- all tests */

typedef struct {
    test test;
    size_t a_pass; /* rounds in each pass */
    size_t rounds; /* in all so far */
    size_t rows;
    double *took[MOST_CONTENDERS];
    times times[MOST_CONTENDERS];
} entry;

static entry program[MOST_TESTS];
static size_t tests;

static void plan(enum keys keys, size_t block_size, size_t interval, enum work work, size_t a_pass) {
    if (tests == MOST_TESTS) {
        failed("the race", "one test too many");
    }
    entry *e = &program[tests++];
    *e = (entry){.test = {keys, block_size, interval, work}, .a_pass = a_pass};
    for (size_t i = 0; i < entered; i++) {
        e->took[i] = calloc(a_pass * PASSES, sizeof(double));
        if (e->took[i] == NULL) {
            failed("the race", "no memory");
        }
    }
}

static void pass(entry *e) {
    load(&e->test);
    e->rows = fit;
    for (size_t i = 0; i < entered; i++) {
        if (takes_part(&all[i], e->test.work)) {
            look_at_answers(&all[i], &e->test);
        }
    }
    for (size_t end = e->rounds + e->a_pass; e->rounds < end; e->rounds++) {
        for (size_t i = 0; i < entered; i++) {
            if (takes_part(&all[i], e->test.work)) {
                e->took[i][e->rounds] = taken(&all[i], &e->test);
            }
        }
    }
}

static void settle(entry *e) {
    for (size_t i = 0; i < entered; i++) {
        qsort(e->took[i], e->rounds, sizeof(double), rising);
        e->times[i] = (times){e->took[i][0], e->took[i][e->rounds / 2]};
    }
}

static int same(const test *a, const test *b) {
    return a->keys == b->keys && a->work == b->work && a->block_size == b->block_size &&
           a->interval == b->interval;
}

const times *times_of(size_t i, const test *t) {
    for (size_t k = 0; k < tests; k++) {
        if (same(&program[k].test, t) && takes_part(&all[i], t->work)) {
            return &program[k].times[i];
        }
    }
    return NULL;
}

static void plan_small_and_large(size_t interval, size_t a_pass) {
    for (enum keys keys = RANDOM; keys <= CARD; keys++) {
        for (size_t block_size = 4096; block_size <= 65536; block_size *= 16) {
            for (enum work work = FORWARD; work <= CHECK; work++) {
                plan(keys, block_size, interval, work, a_pass);
            }
        }
    }
}

/* Those that have a table of their own come first. */
static size_t plan_all(size_t a_pass) {
    plan_small_and_large(16, a_pass);
    plan(PREFIX, 4096, 16, BUILD, a_pass);
    size_t with_table = tests;
    for (enum work work = FORWARD; work <= BUILD; work++) {
        plan(RANDOM, 16384, 16, work, a_pass / 5 + 1);
        plan(RANDOM, 65536, 4, work, a_pass / 5 + 1);
        plan(RANDOM, 65536, 64, work, a_pass / 5 + 1);
        plan(RANDOM, 65536, 256, work, a_pass / 5 + 1);
    }
    return with_table;
}

static void run(size_t with_table) {
    for (size_t i = 0; i < PASSES; i++) {
        for (size_t k = 0; k < tests; k++) {
            pass(&program[k]);
        }
    }
    for (size_t k = 0; k < tests; k++) {
        settle(&program[k]);
    }
    for (size_t k = 0; k < with_table; k++) {
        print_test(&program[k].test, program[k].rows, program[k].rounds);
    }
}

int main(int argc, char **argv) {
    size_t rounds = 80, stack = 0;
    int older = 0;
    for (int i = 1; i < argc; i++) {
        if (strcmp(argv[i], "-n") == 0 && i + 1 < argc) {
            rounds = strtoul(argv[++i], NULL, 10);
        } else if (strcmp(argv[i], "-s") == 0 && i + 1 < argc) {
            stack = strtoul(argv[++i], NULL, 10);
        } else if (strcmp(argv[i], "-1") == 0) {
            older = 1;
        } else {
            enter(argv[i]);
        }
    }
    if (entered == 0 || all[0].build == NULL || rounds == 0 || rounds > MOST_ROUNDS) {
        failed("usage", "race [-n ROUNDS] [-s BYTES] [-1] CONTENDER.so.., the first of which builds");
    }
    if (older) {
        plan_small_and_large(0, rounds);
        run(tests);
        print_older_aims();
    } else {
        run(plan_all(rounds));
        print_growth();
        print_aims(stack);
    }
    return 0;
}
