/* The erasure code: a stripe of m data blocks into n coded blocks, one a brick, and back from the blocks of any m or more bricks.
   Link with liberasure.a (c/libs writes it to target/staticlib), for x86-64 only: System V calls, with SSE2. It calls memset, and nothing else
   outside.

   What the caller owes, and nobody checks:
   - each pointer is valid for its length: the bytes behind `const` may be read, the others read and written, during the call. They need no
     alignment. With length 0 it may be NULL: the call is then refused, whatever else it is given, and nothing behind it is touched;
   - what is written overlaps nothing else that is lent: coded not data; data not bricks or blocks;
   - no other thread writes to what is lent, or reads what is written, during the call;
   - bricks and blocks belong together: block k of `blocks` is what brick bricks[k] holds of one and the same stripe. m blocks of two
     stripes are accepted, and decode to bytes that may be of neither; of more than m blocks it is checked that some one stripe has them all
     (15).
   Nothing is kept between calls, and nothing is allocated. 2,048 bytes of stack are enough; this is measured, and not proved: on x86-64, at
   size 256 and every n and m, stripe_encode took 920 bytes and stripe_decode 1,784, from the return address down, glibc's memset included.
   (Where a dynamic linker looks memset up only when it is first called, that one call takes the linker's stack besides.)

   What is returned: 0, done; or a refusal, the lowest that applies, and then no byte is changed:
   1  a setting is out of its range: n 1 to 16, m 1 to n, size (bytes in a block) 1 to 256;
   2  a buffer has another length than it must have: data m * size bytes, coded n * size bytes, blocks bricks_len * size bytes,
      whatever the list (also one that is too short or too long);
   3  a brick of the list is not below n (decoding only);
   4  the list has fewer than m bricks, or a brick twice (decoding only);
   15  the blocks disagree: no stripe has them all (decoding only, and only where the list has more than m bricks).
   A list is of m to n different bricks. The data come from the first m of it; the blocks of the others are what is checked: with k bricks
   in the list, up to k - m altered blocks, whichever they are, are always noticed (AlteredBlocksAreNoticed in
   crates/erasure/specs/CodeTheorems.antt, proved).

   Example (compiled and run by tests/tests/header.rs):

       #include "erasure.h"

       int main(void) {
           const uint8_t data[2] = {5, 9}, bricks[3] = {2, 3, 1};
           uint8_t coded[4], back[2], blocks[3];
           if (stripe_encode(4, 2, 1, data, 2, coded, 4) != 0) return 1;
           if (coded[0] != 5 || coded[1] != 9 || coded[2] != 29 || coded[3] != 17) return 2;
           // bricks 0 and 1 are lost: the blocks of 2 and 3 do
           if (stripe_decode(4, 2, 1, bricks, 2, coded + 2, 2, back, 2) != 0) return 3;
           if (back[0] != data[0] || back[1] != data[1]) return 4;
           // with brick 1 at hand its block is checked against theirs
           blocks[0] = coded[2];
           blocks[1] = coded[3];
           blocks[2] = coded[1];
           if (stripe_decode(4, 2, 1, bricks, 3, blocks, 3, back, 2) != 0) return 5;
           blocks[1] ^= 1;
           if (stripe_decode(4, 2, 1, bricks, 3, blocks, 3, back, 2) != ERASURE_BLOCKS_DISAGREE) return 6;
           return back[0] == data[0] && back[1] == data[1] ? 0 : 7;
       }

   (end of the example) */
#ifndef ERASURE_H
#define ERASURE_H
#include <stddef.h>
#include <stdint.h>

#ifdef __cplusplus
extern "C" {
#endif

enum {
    ERASURE_DONE = 0,
    ERASURE_BAD_SETTING = 1,
    ERASURE_BAD_LENGTH = 2,
    ERASURE_BAD_NUMBER = 3,
    ERASURE_BAD_BRICK_SET = 4,
    ERASURE_BLOCKS_DISAGREE = 15
};

/* The n coded blocks of m data blocks: coded block j is data block j below m. Refused: 1, 2. */
uint32_t stripe_encode(size_t n, size_t m, size_t size, const uint8_t *data, size_t data_len, uint8_t *coded, size_t coded_len);

/* The m data blocks from the blocks of m to n different bricks, in the order of the list. Refused: 1, 2, 3, 4, 15. */
uint32_t stripe_decode(size_t n, size_t m, size_t size, const uint8_t *bricks, size_t bricks_len, const uint8_t *blocks, size_t blocks_len,
                       uint8_t *data, size_t data_len);

#ifdef __cplusplus
}
#endif

#endif
