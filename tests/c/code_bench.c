/* Encode and decode of the proved library beside plain C with the same two tables, in one process on one core.
   Plain C: data blocks copied, a weight a block and row by the tables, then products along the block. Decoding from more than m blocks it
   first makes the block at each further point in a buffer of its own and compares. Prints MB/s of stripe data and the ratio; of decoding
   also what the check of one further block costs, as a share of the time of decoding m blocks. */
#include "erasure.h"
#include <stdio.h>
#include <stdlib.h>
#include <string.h>
#include <time.h>

static uint8_t power_of[255], log_of[256];

static void make_tables(void) {
    unsigned a = 1;
    for (unsigned k = 0; k < 255; k++) {
        power_of[k] = (uint8_t)a;
        log_of[a] = (uint8_t)k;
        a <<= 1;
        if (a & 256) a ^= 0x11D;
    }
}

static uint8_t product(uint8_t a, uint8_t b) {
    if (a == 0 || b == 0) return 0;
    unsigned s = (unsigned)log_of[a] + log_of[b];
    return power_of[s < 255 ? s : s - 255];
}

static uint8_t quotient(uint8_t a, uint8_t b) {
    if (a == 0) return 0;
    unsigned s = (unsigned)log_of[a] + 255 - log_of[b];
    return power_of[s < 255 ? s : s - 255];
}

/* The block at point x from the blocks at m points. */
static void plain_row(size_t m, size_t size, const uint8_t *points, const uint8_t *blocks, uint8_t x, uint8_t *out) {
    for (size_t k = 0; k < m; k++)
        if (points[k] == x) {
            memcpy(out, blocks + k * size, size);
            return;
        }
    memset(out, 0, size);
    for (size_t i = 0; i < m; i++) {
        uint8_t w = 1;
        for (size_t k = 0; k < m; k++)
            if (k != i) w = product(w, quotient(x ^ points[k], points[i] ^ points[k]));
        const unsigned lw = log_of[w];
        const uint8_t *from = blocks + i * size;
        for (size_t p = 0; p < size; p++) {
            uint8_t b = from[p];
            if (b) {
                unsigned s = lw + log_of[b];
                out[p] ^= power_of[s < 255 ? s : s - 255];
            }
        }
    }
}

__attribute__((noinline)) static void plain(size_t m, size_t size, const uint8_t *points, const uint8_t *blocks, size_t count, uint8_t *out) {
    for (size_t x = 0; x < count; x++) plain_row(m, size, points, blocks, (uint8_t)x, out + x * size);
}

/* The m data blocks from m or more blocks; 15 where they disagree, and then nothing is written. */
__attribute__((noinline)) static unsigned plain_decode(size_t m, size_t size, const uint8_t *points, size_t count, const uint8_t *blocks,
                                                       uint8_t *out) {
    uint8_t made[256];
    for (size_t k = m; k < count; k++) {
        plain_row(m, size, points, blocks, points[k], made);
        if (memcmp(made, blocks + k * size, size)) return 15;
    }
    plain(m, size, points, blocks, m, out);
    return 0;
}

static double now(void) {
    struct timespec t;
    clock_gettime(CLOCK_MONOTONIC, &t);
    return (double)t.tv_sec + (double)t.tv_nsec * 1e-9;
}

static uint8_t data[16 * 256], coded[16 * 256], other[16 * 256], blocks[16 * 256], back[16 * 256], first[16], list[16];

enum { OURS_ENCODE, PLAIN_ENCODE, OURS_DECODE, PLAIN_DECODE };

/* `count` is how many blocks a decoding takes. */
static unsigned once(int what, size_t n, size_t m, size_t size, size_t count) {
    switch (what) {
    case OURS_ENCODE: return stripe_encode(n, m, size, data, m * size, coded, n * size);
    case PLAIN_ENCODE: return plain(m, size, first, data, n, other), 0;
    case OURS_DECODE: return stripe_decode(n, m, size, list, count, blocks, count * size, back, m * size);
    default: return plain_decode(m, size, list, count, blocks, other);
    }
}

/* The best of several short runs, in seconds a call. */
static double seconds(int what, size_t n, size_t m, size_t size, size_t count, unsigned runs) {
    double best = 1e9;
    size_t times = 1 + 2000000 / (n * m * size);
    unsigned refused = 0;
    for (unsigned r = 0; r < runs; r++) {
        double t = now();
        for (size_t k = 0; k < times; k++) refused |= once(what, n, m, size, count);
        double each = (now() - t) / (double)times;
        if (each < best) best = each;
    }
    if (refused) {
        puts("a call was refused");
        exit(1);
    }
    return best;
}

/* Whether both decoders give the data from so many blocks, and 15 with any one of the bytes of some places changed, leaving the output. */
static int same_decoding(size_t n, size_t m, size_t size, size_t count) {
    if (once(OURS_DECODE, n, m, size, count) || once(PLAIN_DECODE, n, m, size, count)) return 0;
    if (memcmp(back, data, m * size) || memcmp(other, data, m * size)) return 0;
    for (size_t i = 0; count > m && i < count * size; i += 1 + size / 5) {
        blocks[i] ^= 1;
        memset(back, 0x77, sizeof back);
        memset(other, 0x77, sizeof other);
        int ok = once(OURS_DECODE, n, m, size, count) == ERASURE_BLOCKS_DISAGREE && once(PLAIN_DECODE, n, m, size, count) == 15;
        for (size_t k = 0; k < m * size; k++) ok &= back[k] == 0x77 && other[k] == 0x77;
        blocks[i] ^= 1;
        if (!ok) return 0;
    }
    return 1;
}

int main(int argc, char **argv) {
    const size_t cases[][3] = {{5, 3, 256}, {7, 5, 256}, {16, 8, 256}, {16, 10, 256}, {4, 2, 64}};
    unsigned runs = argc > 1 ? (unsigned)atoi(argv[1]) : 40;
    double least = 1e9;
    make_tables();
    for (size_t i = 0; i < sizeof data; i++) data[i] = (uint8_t)(i * 2654435761u >> 13);
    for (uint8_t i = 0; i < 16; i++) first[i] = i;
    puts("   n   m size  what              ours MB/s  plain C MB/s  ratio");
    for (size_t c = 0; c < sizeof cases / sizeof cases[0]; c++) {
        size_t n = cases[c][0], m = cases[c][1], size = cases[c][2];
        stripe_encode(n, m, size, data, m * size, coded, n * size);
        plain(m, size, first, data, n, other);
        if (memcmp(coded, other, n * size)) return puts("the two encoders differ"), 1;
        for (size_t i = 0; i < n; i++) {
            list[i] = (uint8_t)(n - 1 - i); /* the last m bricks first: as few data blocks as can be */
            memcpy(blocks + i * size, coded + list[i] * size, size);
        }
        const size_t counts[] = {0, m, m + 1, n}; /* 0: encode */
        double spent[2][4];
        for (size_t k = 0; k < 4; k++) {
            char what[32] = "encode";
            if (k) {
                snprintf(what, sizeof what, "decode %zu blocks", counts[k]);
                if (!same_decoding(n, m, size, counts[k])) return puts("the two decoders differ"), 1;
            }
            for (int p = 0; p < 2; p++) spent[p][k] = seconds((k ? OURS_DECODE : OURS_ENCODE) + p, n, m, size, counts[k], runs);
            const double mb = (double)(m * size) / 1e6, ratio = spent[1][k] / spent[0][k];
            printf("%4zu %3zu %4zu  %-16s %10.0f %13.0f %6.2f\n", n, m, size, what, mb / spent[0][k], mb / spent[1][k], ratio);
            if (ratio < least) least = ratio;
        }
        double share[2];
        for (int p = 0; p < 2; p++) share[p] = (spent[p][3] - spent[p][1]) / (double)(n - m) / spent[p][1];
        printf("%4zu %3zu %4zu  check of a further block, of decoding m: ours %.2f, plain C %.2f\n", n, m, size, share[0], share[1]);
    }
    printf("least ratio %.2f\n", least);
    return 0;
}
