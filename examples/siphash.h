/* SipHash-2-4 (J.-P. Aumasson and D. J. Bernstein, 2012) of a short message. With the key 00 01 .. 0f the message 00 01 .. 07 has the hash
   93f5f5799a932462, as the authors' table of test vectors says. */
#ifndef SIPHASH_H
#define SIPHASH_H

#include "hide.h"
#include "port.h"

static const volatile uint8_t key[16] = {0, 1, 2, 3, 4, 5, 6, 7, 8, 9, 10, 11, 12, 13, 14, 15};
static volatile uint8_t message[8] = {0, 1, 2, 3, 4, 5, 6, 7};

static inline uint64_t turned(uint64_t word, int by) { return word << by | word >> (64 - by); }

static inline uint64_t word_at(const volatile uint8_t *bytes) {
    uint64_t word = 0;
    for (int i = 7; i >= 0; i--) {
        word = word << 8 | bytes[i];
    }
    return word;
}

static inline void rounds(uint64_t v[4], int count) {
    for (int i = 0; i < count; i++) {
        v[0] += v[1], v[2] += v[3];
        v[1] = turned(v[1], 13) ^ v[0], v[3] = turned(v[3], 16) ^ v[2];
        v[0] = turned(v[0], 32);
        v[2] += v[1], v[0] += v[3];
        v[1] = turned(v[1], 17) ^ v[2], v[3] = turned(v[3], 21) ^ v[0];
        v[2] = turned(v[2], 32);
    }
}

/* noipa: two calls stay two. */
__attribute__((noipa)) static uint64_t siphash(void) {
    uint64_t first = word_at(key), second = word_at(key + 8);
    uint64_t v[4] = {first ^ 0x736f6d6570736575u, second ^ 0x646f72616e646f6du, first ^ 0x6c7967656e657261u, second ^ 0x7465646279746573u};
    uint64_t last = (uint64_t)sizeof message << 56;
    uint64_t word = word_at(message);
    v[3] ^= word;
    rounds(v, 2);
    v[0] ^= word;
    v[3] ^= last;
    rounds(v, 2);
    v[0] ^= last;
    v[2] ^= 0xff;
    rounds(v, 4);
    return v[0] ^ v[1] ^ v[2] ^ v[3];
}

static inline void send(uint64_t hash) {
    out_word((uint32_t)hash);
    out_word((uint32_t)(hash >> 32));
}

static inline uint64_t hidden(uint64_t hash) { return hide((uint32_t)hash) | (uint64_t)hide((uint32_t)(hash >> 32)) << 32; }

#endif
