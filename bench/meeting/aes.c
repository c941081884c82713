/* AES-128 of one block (FIPS 197, appendix B), byte by byte, with the table of S-boxes computed first. */
#include "port.h"

static volatile uint8_t plain[16] = {0x32, 0x43, 0xf6, 0xa8, 0x88, 0x5a, 0x30, 0x8d, 0x31, 0x31, 0x98, 0xa2, 0xe0, 0x37, 0x07, 0x34};
static volatile uint8_t secret[16] = {0x2b, 0x7e, 0x15, 0x16, 0x28, 0xae, 0xd2, 0xa6, 0xab, 0xf7, 0x15, 0x88, 0x09, 0xcf, 0x4f, 0x3c};
static uint8_t boxes[256];
static uint8_t state[16];
static uint8_t key[16];

static inline uint8_t doubled(uint8_t byte) { return (uint8_t)(byte << 1 ^ (byte & 0x80 ? 0x1b : 0)); }

static inline uint8_t turned(uint8_t byte, int by) { return (uint8_t)(byte << by | byte >> (8 - by)); }

/* p runs through the powers of 3, and q through their inverses. */
static void make_boxes(void) {
    uint8_t p = 1, q = 1;
    do {
        p = (uint8_t)(p ^ doubled(p));
        q ^= (uint8_t)(q << 1);
        q ^= (uint8_t)(q << 2);
        q ^= (uint8_t)(q << 4);
        if (q & 0x80) {
            q ^= 0x09;
        }
        boxes[p] = (uint8_t)(q ^ turned(q, 1) ^ turned(q, 2) ^ turned(q, 3) ^ turned(q, 4) ^ 0x63);
    } while (p != 1);
    boxes[0] = 0x63;
}

static void next_key(uint8_t constant) {
    key[0] ^= (uint8_t)(boxes[key[13]] ^ constant);
    key[1] ^= boxes[key[14]];
    key[2] ^= boxes[key[15]];
    key[3] ^= boxes[key[12]];
    for (int i = 4; i < 16; i++) {
        key[i] ^= key[i - 4];
    }
}

static void add_key(void) {
    for (int i = 0; i < 16; i++) {
        state[i] ^= key[i];
    }
}

/* SubBytes and ShiftRows. */
static void substitute(void) {
    uint8_t old[16];
    for (int i = 0; i < 16; i++) {
        old[i] = boxes[state[i]];
    }
    for (int i = 0; i < 16; i++) {
        state[i] = old[(i + 4 * (i % 4)) % 16];
    }
}

static void mix_columns(void) {
    for (int i = 0; i < 16; i += 4) {
        uint8_t a = state[i], b = state[i + 1], c = state[i + 2], d = state[i + 3], all = (uint8_t)(a ^ b ^ c ^ d);
        state[i] ^= (uint8_t)(all ^ doubled((uint8_t)(a ^ b)));
        state[i + 1] ^= (uint8_t)(all ^ doubled((uint8_t)(b ^ c)));
        state[i + 2] ^= (uint8_t)(all ^ doubled((uint8_t)(c ^ d)));
        state[i + 3] ^= (uint8_t)(all ^ doubled((uint8_t)(d ^ a)));
    }
}

__attribute__((noreturn)) void main(void) {
    make_boxes();
    for (int i = 0; i < 16; i++) {
        state[i] = plain[i];
        key[i] = secret[i];
    }
    add_key();
    uint8_t constant = 1;
    for (int round = 1; round <= 10; round++) {
        substitute();
        if (round < 10) {
            mix_columns();
        }
        next_key(constant);
        constant = doubled(constant);
        add_key();
    }
    for (int i = 0; i < 16; i++) {
        out(state[i]);
    }
    halt(0);
}
