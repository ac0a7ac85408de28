/* The firmware's way of calling the code: encode, lose data bricks, decode from the rest, with m blocks and with more; refusals that change
   nothing; and how much stack a call takes. */
#include "erasure.h"
#include <stdio.h>
#include <string.h>

static int failed;

static void expect(int ok, const char *what) {
    if (!ok) {
        printf("failed: %s\n", what);
        failed = 1;
    }
}

/* The stack of a call: it runs on a stack of its own, painted before; what is no longer paint was used. */
enum { ROOM = 1 << 14, ENOUGH = 2048 };
static struct { size_t n, m; uint8_t bricks[16], data[16 * 256], coded[16 * 256], blocks[16 * 256], back[16 * 256]; } most;

static uint32_t most_encoded(void) {
    return stripe_encode(most.n, most.m, 256, most.data, most.m * 256, most.coded, most.n * 256);
}

static uint32_t most_decoded(void) {
    return stripe_decode(most.n, most.m, 256, most.bricks, most.m, most.blocks, most.m * 256, most.back, most.m * 256);
}

static size_t stack_of(uint32_t (*call)(void)) {
    static _Alignas(16) uint8_t room[ROOM];
    uint32_t number;
    size_t left = 0;
    memset(room, 0xA5, sizeof room);
    __asm__ volatile("movq %%rsp, %%rbx\n\tmovq %1, %%rsp\n\tcall *%2\n\tmovq %%rbx, %%rsp"
                     : "=a"(number)
                     : "r"(room + sizeof room), "r"(call)
                     : "rbx", "rcx", "rdx", "rsi", "rdi", "r8", "r9", "r10", "r11", "xmm0", "xmm1", "xmm2", "xmm3", "xmm4", "xmm5", "xmm6",
                       "xmm7", "xmm8", "xmm9", "xmm10", "xmm11", "xmm12", "xmm13", "xmm14", "xmm15", "memory", "cc");
    expect(number == 0, "a call on a stack of its own");
    while (left < sizeof room && room[left] == 0xA5) left++;
    return sizeof room - left;
}

static void stack(void) {
    size_t encoding = 0, decoding = 0;
    for (size_t i = 0; i < sizeof most.data; i++) most.data[i] = (uint8_t)(i * 91 + 7);
    for (most.n = 1; most.n <= 16; most.n++) {
        for (most.m = 1; most.m <= most.n; most.m++) {
            size_t used = stack_of(most_encoded);
            if (encoding < used) encoding = used;
            for (size_t i = 0; i < most.m; i++) {
                most.bricks[i] = (uint8_t)(most.n - 1 - i);
                memcpy(most.blocks + i * 256, most.coded + most.bricks[i] * 256, 256);
            }
            used = stack_of(most_decoded);
            if (decoding < used) decoding = used;
        }
    }
    printf("stack with the caller's part: encoding %zu bytes, decoding %zu\n", encoding, decoding);
    expect(encoding <= ENOUGH && decoding <= ENOUGH, "the stack that the header says does");
}

int main(void) {
    enum { N = 7, M = 4, SIZE = 256 };
    static uint8_t data[M * SIZE], coded[N * SIZE], blocks[M * SIZE], back[M * SIZE], kept[N * SIZE];
    const uint8_t bricks[M] = {6, 4, 1, 5};
    for (size_t i = 0; i < sizeof data; i++) data[i] = (uint8_t)(i * 167 + 13);

    expect(stripe_encode(N, M, SIZE, data, sizeof data, coded, sizeof coded) == 0, "encode");
    expect(memcmp(coded, data, sizeof data) == 0, "coded block j below m is data block j");
    for (size_t i = 0; i < M; i++) memcpy(blocks + i * SIZE, coded + (size_t)bricks[i] * SIZE, SIZE);
    expect(stripe_decode(N, M, SIZE, bricks, M, blocks, sizeof blocks, back, sizeof back) == 0, "decode");
    expect(memcmp(back, data, sizeof data) == 0, "the data comes back");

    /* with more blocks, up to all n, the rest are checked; the blocks of a list lie in one row */
    static uint8_t more[(N + 1) * SIZE];
    const uint8_t all[N] = {6, 4, 1, 5, 0, 3, 2};
    for (size_t i = 0; i < N; i++) memcpy(more + i * SIZE, coded + (size_t)all[i] * SIZE, SIZE);
    for (size_t k = M; k <= N; k++) {
        memset(back, 0x77, sizeof back);
        expect(stripe_decode(N, M, SIZE, all, k, more, k * SIZE, back, sizeof back) == 0, "decode from m or more");
        expect(memcmp(back, data, sizeof data) == 0, "the data comes back from m or more");
    }
    memset(kept, 0x77, sizeof kept);
    for (size_t i = 0; i < N * SIZE; i += 101) {
        more[i] ^= 1;
        memset(back, 0x77, sizeof back);
        expect(stripe_decode(N, M, SIZE, all, N, more, N * SIZE, back, sizeof back) == ERASURE_BLOCKS_DISAGREE, "a changed byte is 15");
        expect(memcmp(kept, back, sizeof back) == 0, "15 leaves the buffer");
        more[i] ^= 1;
    }
    const uint8_t eight[N + 1] = {6, 4, 1, 5, 0, 3, 2, 6};
    expect(stripe_decode(N, M, SIZE, eight, N + 1, more, sizeof more, back, sizeof back) == 4, "n + 1 bricks are 4");
    expect(stripe_decode(N, M, SIZE, all, N, more, M * SIZE, back, sizeof back) == 2, "m blocks of n bricks are 2");
    expect(memcmp(kept, back, sizeof back) == 0, "refusals leave the buffer");

    expect(stripe_decode(N, M, SIZE, bricks, M, blocks, sizeof blocks, back, sizeof back) == 0, "decode again");
    const uint8_t twice[M] = {6, 4, 6, 5}, past[M] = {6, 4, 7, 5};
    memcpy(kept, back, sizeof back);
    expect(stripe_decode(N, M, SIZE, twice, M, blocks, sizeof blocks, back, sizeof back) == 4, "a brick twice is 4");
    expect(stripe_decode(N, M, SIZE, past, M, blocks, sizeof blocks, back, sizeof back) == 3, "brick n is 3");
    expect(stripe_decode(N, M, SIZE, bricks, M - 1, blocks, (M - 1) * SIZE, back, sizeof back) == 4, "a short list is 4");
    expect(stripe_decode(N, M, SIZE, bricks, M - 1, blocks, sizeof blocks, back, sizeof back) == 2, "a short list with m blocks is 2");
    expect(stripe_decode(N, M, SIZE, bricks, M, blocks, sizeof blocks, back, sizeof back - 1) == 2, "a short buffer is 2");
    expect(stripe_decode(17, M, SIZE, bricks, M, blocks, sizeof blocks, back, sizeof back) == 1, "n 17 is 1");
    expect(memcmp(kept, back, sizeof back) == 0, "refusals leave the buffer");
    memcpy(kept, coded, sizeof coded);
    expect(stripe_encode(N, M, SIZE, data, sizeof data - 1, coded, sizeof coded) == 2, "short data is 2");
    expect(stripe_encode(N, M, 257, data, sizeof data, coded, sizeof coded) == 1, "size 257 is 1");
    expect(memcmp(kept, coded, sizeof coded) == 0, "refusals leave the coded blocks");

    /* no buffer, with length 0 */
    expect(stripe_encode(N, M, SIZE, NULL, 0, coded, sizeof coded) == 2, "no data is 2");
    expect(stripe_encode(N, M, SIZE, data, sizeof data, NULL, 0) == 2, "no room for the coded blocks is 2");
    expect(stripe_encode(0, M, SIZE, NULL, 0, NULL, 0) == 1, "n 0 without buffers is 1");
    expect(memcmp(kept, coded, sizeof coded) == 0, "no data leaves the coded blocks");
    memcpy(kept, back, sizeof back);
    expect(stripe_decode(N, M, SIZE, NULL, 0, NULL, 0, back, sizeof back) == 4, "no bricks and no blocks are 4");
    expect(stripe_decode(N, M, SIZE, NULL, 0, blocks, sizeof blocks, back, sizeof back) == 2, "blocks of no bricks are 2");
    expect(stripe_decode(N, M, SIZE, bricks, M, NULL, 0, back, sizeof back) == 2, "no blocks of bricks are 2");
    expect(stripe_decode(N, M, SIZE, bricks, M, blocks, sizeof blocks, NULL, 0) == 2, "no room for the data is 2");
    expect(stripe_decode(N, M, SIZE, NULL, 0, NULL, 0, NULL, 0) == 2, "no buffers at all are 2");
    expect(memcmp(kept, back, sizeof back) == 0, "no buffers leave the data");

    stack();
    puts(failed ? "C caller: failed" : "C caller: ok");
    return failed;
}
