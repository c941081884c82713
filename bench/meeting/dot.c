/* The dot product of two vectors of 400 numbers. */
#include "port.h"

enum { LENGTH = 400 };

static uint32_t left[LENGTH], right[LENGTH];

__attribute__((noreturn)) void main(void) {
    uint32_t number = 1;
    for (int i = 0; i < LENGTH; i++) {
        number = number * 1664525u + 1013904223u;
        left[i] = number >> 16;
        right[i] = number & 0xffff;
    }
    uint32_t sum = 0;
    for (int i = 0; i < LENGTH; i++) {
        sum += left[i] * right[i];
    }
    out_word(sum);
    halt(0);
}
