/* How long the balance of a card takes, in microseconds, the least of ROUNDS calls, by the number of records: journals whose
 * records are all of the card and all different, by how their retry numbers lie, the worst ways among them; with as many
 * doubles; and of other cards. The last column is a full journal. The most stack that a call took stands below, and how the
 * slowest full journal stands to the aim. Ends with 1 where a balance is wrong or the aim is missed. */
#define _GNU_SOURCE
#include <stdio.h>
#include <stdlib.h>
#include <string.h>
#include <time.h>
#include <ucontext.h>
#include "slatedb_journal.h"

enum { LONG = 21, MOST = SLATEDB_JOURNAL_MOST / LONG, LEAST = MOST / 16, STACK = 64 << 10, PAINT = 0xA5, AIM = 2000, DEEPEST = 16 << 10 };

static uint8_t journal[SLATEDB_JOURNAL_MOST];
static _Alignas(64) uint8_t stack[STACK];
static size_t size;
static int64_t balance;
static uint64_t place;
static uint8_t code;
static ucontext_t desk, painted;

static uint64_t state = 88172645463325252u;
static uint64_t chance(void) {
    state ^= state << 13;
    state ^= state >> 7;
    return state ^= state << 17;
}

static void put(uint8_t *to, uint64_t v, int n) {
    for (; n > 0; v >>= 8) to[--n] = (uint8_t)v;
}

enum { RANDOM, RISING, FALLING, HIGH, CHAIN, BOTH, DOUBLES, OTHERS, WAYS };
static const char *const named[WAYS] = {
    "by chance", "rising", "falling", "52 low bits shared", "52 low bits shared, a chain first", "the same of both kinds", "doubles of one", "of other cards",
};

/* a journal of n records, and the card's balance */
static int64_t make(int way, uint64_t n) {
    int64_t sum = 0;
    for (uint64_t i = 0; i < n; i++) {
        uint8_t *to = journal + LONG * i;
        uint64_t card = 7, retry = 0, kind = 1 + (way == BOTH ? i % 2 : 0), amount = chance() & UINT32_MAX;
        switch (way) {
        case RANDOM: retry = chance(); break;
        case RISING: retry = i; break;
        case FALLING: retry = n - i; break;
        case HIGH: retry = i << 52; break;
        case CHAIN: retry = i < 52 ? (uint64_t)1 << i : (i - 51) << 52; break;
        case BOTH: retry = i / 2 << 52; break;
        case OTHERS: card = 8 + i; break;
        default: break;
        }
        to[0] = (uint8_t)kind;
        put(to + 1, card, 8);
        put(to + 9, retry, 8);
        put(to + 17, amount, 4);
        if (way == OTHERS || (way == DOUBLES && i)) continue;
        sum += kind == SLATEDB_JOURNAL_DEBIT ? -(int64_t)amount : (int64_t)amount;
    }
    size = LONG * n;
    return sum;
}

static void ask(void) { code = slatedb_journal_balance(journal, size, 7, &balance, &place); }

static double now(void) {
    struct timespec t;
    clock_gettime(CLOCK_MONOTONIC, &t);
    return (double)t.tv_sec * 1e6 + (double)t.tv_nsec / 1e3;
}

/* the stack that a call takes, on one of its own */
static size_t depth(void) {
    memset(stack, PAINT, STACK);
    getcontext(&painted);
    painted.uc_stack.ss_sp = stack;
    painted.uc_stack.ss_size = STACK;
    painted.uc_link = &desk;
    makecontext(&painted, ask, 0);
    swapcontext(&desk, &painted);
    size_t left = 0;
    while (left < STACK && stack[left] == PAINT) left++;
    return STACK - left;
}

int main(int argc, char **argv) {
    int rounds = argc > 1 ? atoi(argv[1]) : 200, wrong = 0;
    double slowest = 0;
    size_t deepest = 0;
    printf("%-36s", "records");
    for (uint64_t n = LEAST; n <= MOST; n *= 2) printf("%9llu", (unsigned long long)n);
    printf("\n");
    for (int way = 0; way < WAYS; way++) {
        printf("%-36s", named[way]);
        for (uint64_t n = LEAST; n <= MOST; n *= 2) {
            int64_t sum = make(way, n);
            double least = 1e18;
            for (int r = 0; r < rounds; r++) {
                double t = now();
                ask();
                t = now() - t;
                if (t < least) least = t;
                if (code || balance != sum || place != size) wrong++;
            }
            printf("%9.1f", least);
            if (n * 2 > MOST && least > slowest) slowest = least;
            size_t d = depth();
            if (d > deepest) deepest = d;
        }
        printf("\n");
        fflush(stdout);
    }
    printf("stack: %zu bytes of %d\n", deepest, DEEPEST);
    printf("the slowest full journal: %.1f us of %d: %s\n", slowest, AIM, slowest <= AIM ? "met" : "missed");
    if (wrong) printf("%d balances are wrong\n", wrong);
    return wrong || slowest > AIM || deepest > DEEPEST;
}
