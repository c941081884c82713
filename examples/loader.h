/* A boot loader as real ones are: it computes a tag of 64 KiB of firmware, which takes millions of instructions, and at the end a few
   instructions compare the tag with the signed one and decide. The firmware was changed, so the run without a fault refuses it. The words
   of the firmware come from a generator in the place of a flash chip, so that the image is small. */
#ifndef LOADER_H
#define LOADER_H

#include "hide.h"
#include "port.h"

enum { WORDS = 16384, BOOTED = 0xB007 };

static const volatile uint32_t signed_tag = 0x5ac3961fu;

/* The next word of the firmware, which the flash chip sends after the last one. */
static inline uint32_t next_word(uint32_t last) {
    last ^= last << 13;
    last ^= last >> 17;
    return last ^ (last << 5);
}

/* The CRC-32 of the firmware, bit by bit. It stands for a hash, which takes longer. */
__attribute__((noipa)) static uint32_t tag_of_firmware(void) {
    uint32_t word = 0x2545f491u, tag = ~0u;
    for (int i = 0; i < WORDS; i++) {
        word = next_word(word);
        tag ^= word;
        for (int bit = 0; bit < 32; bit++) {
            tag = (tag >> 1) ^ (0xedb88320u & -(tag & 1));
        }
    }
    return ~tag;
}

/* What an attacker wants: the changed firmware is started. */
__attribute__((noreturn)) static inline void boot(void) {
    out('B');
    halt(BOOTED);
}

__attribute__((noreturn)) static inline void refuse(void) {
    out('-');
    halt(0);
}

#endif
