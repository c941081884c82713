/* pin_twice, mended by what a campaign of it showed: the second comparison has a copy of its own, whose bits are inverted, and the
   second answer is compared with a constant that is loaded right before the lock opens. */
#include "lock.h"

enum { RIGHT = 0x5AA5C33C, WRONG = ~RIGHT, ALL = 0xFF };

static volatile uint8_t inverse[DIGITS] = {ALL - 6, ALL - 9, ALL - 8, ALL - 7};

__attribute__((noipa)) static uint32_t compare(const volatile uint8_t *one, const volatile uint8_t *other, uint32_t inverted) {
    uint32_t differ = 0;
    int i;
    for (i = 0; i < DIGITS; i++) {
        differ |= one[i] ^ other[i] ^ inverted;
    }
    if (hide(i) != DIGITS) {
        alarm();
    }
    return differ == 0 ? RIGHT : WRONG;
}

__attribute__((noreturn)) void main(void) {
    uint32_t first = hide(compare(entered, kept, 0));
    uint32_t second = hide(compare(entered, inverse, ALL));
    if (first != second) {
        alarm();
    }
    if (first == RIGHT) {
        if (hide(second) != loaded(RIGHT)) {
            alarm();
        }
        open_lock();
    }
    if (first != (uint32_t)WRONG) {
        alarm();
    }
    stay_shut();
}
