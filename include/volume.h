/* A volume: where a block of the one disk that a client sees lies among the stripes of a brick set.
   Link with libvolume.a (c/libs writes it to target/staticlib), for x86-64 only: System V calls. It calls nothing outside.

   A volume has `stripes` stripes of m data blocks each on the same bricks, so stripes * m client blocks, numbered from 0. Client block
   `block` lies in stripe block % stripes, and is data block block / stripes there. No two client blocks share a place, and every data block
   of every stripe is the place of one.

   What the caller owes, and nobody checks:
   - the pointer is valid for its length, in numbers, and aligned as a size_t is (8 bytes): the numbers behind it may be read and written
     during the call. With length 0 it may be NULL: the call is then refused, whatever else it is given, and nothing behind it is touched;
   - no other thread reads or writes them during the call.
   Nothing is kept between calls, and nothing is allocated. Of the stack volume_place takes 24 bytes, its return address among them, measured on
   x86-64.

   What is returned: 0, done; or a refusal, the first of these that applies, and then no number is changed:
   1  a setting is out of its range: n (bricks) 1 to 16, m (data blocks of a stripe) 1 to n, size (bytes in a block) 1 to 256, capacity
      (entries of a brick's log) 2 to 32, stripes 1 to 64;
   2  place_len is not 2;
   13  block is not below stripes * m.

   Example (compiled and run by tests/tests/header.rs):

       #include "volume.h"

       int main(void) {
           size_t place[2] = {7, 7};
           // four stripes of three data blocks: client block 11 is the last
           if (volume_place(5, 3, 256, 4, 4, 11, place, 2) != VOLUME_DONE) return 1;
           if (place[0] != 3 || place[1] != 2) return 2;
           if (volume_place(5, 3, 256, 4, 4, 12, place, 2) != VOLUME_BAD_BLOCK) return 3;
           if (volume_place(5, 3, 256, 4, 4, 12, place, 1) != VOLUME_BAD_LENGTH) return 4;
           if (volume_place(5, 3, 256, 4, 65, 12, place, 1) != VOLUME_BAD_SETTING) return 5;
           if (volume_place(5, 3, 256, 4, 4, 11, NULL, 0) != VOLUME_BAD_LENGTH) return 6;
           return place[0] == 3 && place[1] == 2 ? 0 : 7;
       }

   (end of the example) */
#ifndef VOLUME_H
#define VOLUME_H
#include <stddef.h>
#include <stdint.h>

#ifdef __cplusplus
extern "C" {
#endif

enum {
    VOLUME_DONE = 0,
    VOLUME_BAD_SETTING = 1,
    VOLUME_BAD_LENGTH = 2,
    VOLUME_BAD_BLOCK = 13
};

/* The stripe of a client block in place[0], its data block there in place[1]. Refused: 1, 2, 13. */
uint32_t volume_place(size_t n, size_t m, size_t size, size_t capacity, size_t stripes, size_t block, size_t *place, size_t place_len);

#ifdef __cplusplus
}
#endif

#endif
