/* A PIN check as one writes it first: compare the digits, and open where all are the same. */
#include "lock.h"

__attribute__((noipa)) static int is_right(const volatile uint8_t *one, const volatile uint8_t *other) {
    for (int i = 0; i < DIGITS; i++) {
        if (one[i] != other[i]) {
            return 0;
        }
    }
    return 1;
}

__attribute__((noreturn)) void main(void) {
    if (is_right(entered, kept)) {
        open_lock();
    }
    stay_shut();
}
