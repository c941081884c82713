/* SHA-1 of a message of three letters: one block, with its schedule in RAM. */
#include "port.h"

static volatile uint8_t message[3] = {'a', 'b', 'c'};
static uint32_t schedule[80];

static inline uint32_t turned(uint32_t word, int by) { return word << by | word >> (32 - by); }

/* The function of a round, with the constant that is added. */
static inline uint32_t mixed(int round, uint32_t b, uint32_t c, uint32_t d) {
    if (round < 20) {
        return (d ^ (b & (c ^ d))) + 0x5A827999u;
    }
    if (round < 40) {
        return (b ^ c ^ d) + 0x6ED9EBA1u;
    }
    if (round < 60) {
        return ((b & c) | (d & (b | c))) + 0x8F1BBCDCu;
    }
    return (b ^ c ^ d) + 0xCA62C1D6u;
}

__attribute__((noreturn)) void main(void) {
    uint32_t hash[5] = {0x67452301u, 0xEFCDAB89u, 0x98BADCFEu, 0x10325476u, 0xC3D2E1F0u};
    schedule[0] = (uint32_t)message[0] << 24 | (uint32_t)message[1] << 16 | (uint32_t)message[2] << 8 | 0x80u;
    schedule[15] = 24;
    for (int i = 16; i < 80; i++) {
        schedule[i] = turned(schedule[i - 3] ^ schedule[i - 8] ^ schedule[i - 14] ^ schedule[i - 16], 1);
    }
    uint32_t a = hash[0], b = hash[1], c = hash[2], d = hash[3], e = hash[4];
    for (int i = 0; i < 80; i++) {
        uint32_t next = turned(a, 5) + mixed(i, b, c, d) + e + schedule[i];
        e = d;
        d = c;
        c = turned(b, 30);
        b = a;
        a = next;
    }
    out_word(hash[0] + a);
    out_word(hash[1] + b);
    out_word(hash[2] + c);
    out_word(hash[3] + d);
    out_word(hash[4] + e);
    halt(0);
}
