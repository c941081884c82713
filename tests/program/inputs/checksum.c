/* A checksum over four bytes of RAM, kept in two places. Where the two differ the program says so by a store to DETECT;
   else it sends the low byte to OUT and ends by a store to HALT. */

#include <stdint.h>

#define OUT (*(volatile uint8_t *)0xF0000000u)
#define DETECT (*(volatile uint32_t *)0xF0000004u)
#define HALT (*(volatile uint32_t *)0xF0000008u)

/* Reset: a stack at the top of RAM. */
__asm__(".section .start, \"ax\"\n"
        ".globl _start\n"
        "_start:\n"
        "    la sp, stack_top\n"
        "    j main\n");

volatile uint8_t message[4] = {'f', 'a', 'i', 'l'};
volatile uint32_t first, second;

static __attribute__((noinline)) uint32_t checksum(uint32_t seed) {
    for (uint32_t i = 0; i < sizeof message; i++) {
        seed = seed * 33 + message[i];
    }
    return seed;
}

__attribute__((noreturn)) void main(void) {
    first = second = checksum(5381);
    if (first != second) {
        DETECT = 1;
    }
    OUT = (uint8_t)first;
    HALT = second;
    for (;;) {
    }
}
