/* XTEA, a block cipher of 64 bits with a key of 128: one block, 32 rounds. Of the block 41424344 45464748 under the key
   00010203 04050607 08090A0B 0C0D0E0F it gives 497DF3D0 72612CB5. */
#include "port.h"

static volatile uint32_t key[4] = {0x00010203u, 0x04050607u, 0x08090A0Bu, 0x0C0D0E0Fu};
static volatile uint32_t block[2] = {0x41424344u, 0x45464748u};

__attribute__((noreturn)) void main(void) {
    uint32_t left = block[0];
    uint32_t right = block[1];
    uint32_t sum = 0;
    for (int round = 0; round < 32; round++) {
        left += (((right << 4) ^ (right >> 5)) + right) ^ (sum + key[sum & 3]);
        sum += 0x9E3779B9u;
        right += (((left << 4) ^ (left >> 5)) + left) ^ (sum + key[(sum >> 11) & 3]);
    }
    out_word(left);
    out_word(right);
    halt(0);
}
