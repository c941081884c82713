/* The PIN check, hardened against flips of data: it goes over all digits, compares twice, looks at either answer before it opens,
   and its two answers differ in all bits of a word. */
#include "lock.h"

enum { RIGHT = 0x5AA5C33C, WRONG = ~RIGHT };

__attribute__((noipa)) static uint32_t compare(const volatile uint8_t *one, const volatile uint8_t *other) {
    uint32_t differ = 0;
    int i;
    for (i = 0; i < DIGITS; i++) {
        differ |= one[i] ^ other[i];
    }
    if (hide(i) != DIGITS) {
        alarm();
    }
    return differ == 0 ? RIGHT : WRONG;
}

__attribute__((noreturn)) void main(void) {
    uint32_t first = hide(compare(entered, kept));
    uint32_t second = hide(compare(kept, entered));
    if (first != second) {
        alarm();
    }
    if (first == RIGHT) {
        if (hide(second) != RIGHT) {
            alarm();
        }
        open_lock();
    }
    if (first != (uint32_t)WRONG) {
        alarm();
    }
    stay_shut();
}
