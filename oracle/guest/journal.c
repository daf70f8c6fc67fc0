/* Serves the proved library slatedb_journal to another process: commands on standard input, answers on standard output, all
 * numbers of 64 bits, low byte first, as this processor has them. A command is a letter, a number of bytes and these, and
 * six numbers. An answer is the code and six words, which are lent filled with a pattern; of an append the buffer follows. */
#include <stdio.h>
#include <stdlib.h>
#include <string.h>
#include "slatedb_journal.h"

static int in(void *to, size_t n) { return n == 0 || fread(to, 1, n, stdin) == n; }
static void out(const void *from, size_t n) { if (n && fwrite(from, 1, n, stdout) != n) exit(1); }

int main(void) {
    static uint8_t *bytes;
    bytes = malloc(1 << 20);
    if (!bytes) return 1;
    for (;;) {
        uint8_t letter;
        uint64_t n, w[6];
        if (!in(&letter, 1)) return 0;
        if (!in(&n, 8) || n > (1 << 20) || !in(bytes, n) || !in(w, sizeof w)) return 1;
        uint64_t a[7];
        memset(a, 0xA5, sizeof a);
        switch (letter) {
        case 'a': /* in so many words */
            if (w[1] > 6) return 1;
            a[0] = slatedb_journal_record_at(bytes, n, w[0], a + 1, w[1]);
            break;
        case 'r':
            a[0] = slatedb_journal_read(bytes, n, a + 1, a + 2);
            break;
        case 'b':
            a[0] = slatedb_journal_balance(bytes, n, w[0], (int64_t *)(a + 1), a + 2);
            break;
        case 'p':
            a[0] = slatedb_journal_append(bytes, n, w[0], w[1], w[2], w[3], (uint32_t)w[4], a + 1);
            break;
        default:
            return 1;
        }
        out(a, sizeof a);
        if (letter == 'p') out(bytes, n);
        fflush(stdout);
    }
}
