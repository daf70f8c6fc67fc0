/* A guest's part that is the same for each format: it serves `call`, which stands after this, over standard input and output. All
 * numbers are low byte first.
 *
 * A batch is its length (4 bytes) and its requests; the answer to it likewise. A request is the function's number, how many
 * arguments follow, and these: a tag, then for a number (0) its 8 bytes, for an array that is read (1) or written (2) its
 * length in bytes (4) and its bytes. An answer is the code, 1 if memory changed that is not the call's to change, else 0, and
 * all bytes of the arrays of tag 2.
 */
#include <stdint.h>
#include <stdio.h>
#include <stdlib.h>
#include <string.h>

enum { NUMBER = 0, READ = 1, WRITTEN = 2, MOST_ARGUMENTS = 10, GUARD = 16, GUARD_BYTE = 0xA5 };

struct argument {
    uint8_t tag;
    uint64_t number;
    uint8_t *at;         /* the array, with GUARD bytes on either side */
    uint64_t bytes;
    const uint8_t *came; /* the array in the request */
};

struct buffer {
    uint8_t *at;
    size_t used, size;
};

static void fail(const char *why) {
    fprintf(stderr, "guest: %s\n", why);
    exit(2);
}

static void reserve(struct buffer *b, size_t more) {
    if (b->size - b->used >= more) return;
    b->size = 2 * b->size + more;
    b->at = realloc(b->at, b->size);
    if (!b->at) fail("no memory");
}

static void put(struct buffer *b, const void *bytes, size_t n) {
    reserve(b, n);
    memcpy(b->at + b->used, bytes, n);
    b->used += n;
}

static const uint8_t *take(const uint8_t **from, const uint8_t *end, size_t n) {
    if ((size_t)(end - *from) < n) fail("a request is cut");
    *from += n;
    return *from - n;
}

static uint32_t take4(const uint8_t **from, const uint8_t *end) {
    uint32_t number;
    memcpy(&number, take(from, end, 4), 4);
    return number;
}

/* Each array is its own piece of memory, with guards, so that a stray write shows. */
static void lend(struct argument *a) {
    uint8_t *piece = malloc(a->bytes + 2 * GUARD);
    if (!piece) fail("no memory");
    memset(piece, GUARD_BYTE, a->bytes + 2 * GUARD);
    a->at = piece + GUARD;
    memcpy(a->at, a->came, a->bytes);
}

static void parse(struct argument *a, const uint8_t **from, const uint8_t *end) {
    a->tag = *take(from, end, 1);
    a->at = NULL;
    if (a->tag == NUMBER) {
        memcpy(&a->number, take(from, end, 8), 8);
    } else {
        a->bytes = take4(from, end);
        a->came = take(from, end, a->bytes);
        lend(a);
    }
}

static int strayed(const struct argument *a) {
    for (int i = 1; i <= GUARD; i++) {
        if (a->at[-i] != GUARD_BYTE || a->at[a->bytes + i - 1] != GUARD_BYTE) return 1;
    }
    return a->tag == READ && memcmp(a->at, a->came, a->bytes) != 0;
}

#define NUM(i) a[i].number
#define BYTES(i) a[i].at, a[i].bytes
#define HALVES(i) (uint16_t *)a[i].at, a[i].bytes / 2
#define WORDS(i) (uint64_t *)a[i].at, a[i].bytes / 8
#define WORD(i) (uint64_t *)a[i].at

/* The library's function of this number, with these arguments. */
static uint8_t call(uint8_t function, const struct argument *a);

static void serve(const uint8_t **from, const uint8_t *end, struct buffer *answers) {
    struct argument a[MOST_ARGUMENTS];
    uint8_t function = *take(from, end, 1);
    int count = *take(from, end, 1);
    if (count > MOST_ARGUMENTS) fail("too many arguments");
    for (int i = 0; i < count; i++) parse(&a[i], from, end);
    uint8_t head[2] = {call(function, a), 0};
    for (int i = 0; i < count; i++) {
        if (a[i].tag != NUMBER && strayed(&a[i])) head[1] = 1;
    }
    put(answers, head, 2);
    for (int i = 0; i < count; i++) {
        if (a[i].tag == WRITTEN) put(answers, a[i].at, a[i].bytes);
        if (a[i].tag != NUMBER) free(a[i].at - GUARD);
    }
}

int main(void) {
    struct buffer requests = {0}, answers = {0};
    uint32_t length;
    while (fread(&length, 4, 1, stdin) == 1) {
        requests.used = 0;
        reserve(&requests, length);
        if (fread(requests.at, 1, length, stdin) != length) fail("a batch is cut");
        answers.used = 0;
        const uint8_t *from = requests.at, *end = from + length;
        while (from < end) serve(&from, end, &answers);
        length = answers.used;
        if (fwrite(&length, 4, 1, stdout) != 1 || fwrite(answers.at, 1, length, stdout) != length || fflush(stdout)) fail("no reader");
    }
    return 0;
}
