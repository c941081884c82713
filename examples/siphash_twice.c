/* The hash is computed twice, and sent where both are the same. */
#include "siphash.h"

__attribute__((noreturn)) void main(void) {
    uint64_t first = siphash();
    uint64_t second = siphash();
    if (hidden(first) != hidden(second)) {
        detect();
    }
    send(second);
    halt(0);
}
