/* The three ports of the machine that fail_star simulates: a store to one of these addresses is all that there is. */
#ifndef PORT_H
#define PORT_H

#include <stdint.h>

/* Sends a byte to the output. Every byte counts: a run that sends others than the golden run is a silent corruption. */
static inline void out(uint8_t byte) { *(volatile uint32_t *)0xF0000000u = byte; }

/* Says that the program has noticed an error, and ends the run. */
__attribute__((noreturn)) static inline void detect(void) {
    *(volatile uint32_t *)0xF0000004u = 1;
    __builtin_unreachable();
}

/* Ends the run with a value, which is compared with that of the golden run. */
__attribute__((noreturn)) static inline void halt(uint32_t value) {
    *(volatile uint32_t *)0xF0000008u = value;
    __builtin_unreachable();
}

/* Sends the four bytes of a word, the lowest first. */
static inline void out_word(uint32_t word) {
    out((uint8_t)word);
    out((uint8_t)(word >> 8));
    out((uint8_t)(word >> 16));
    out((uint8_t)(word >> 24));
}

#endif
