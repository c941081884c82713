/* As boot_both, and each step of the good way leaves a mark: what jumps to the door from elsewhere lacks one. */
#include "boot.h"

enum { GOOD = 0x3c5aa5c3, BAD = 0x5a3c963f, FIRST = 0x00c3a55a, SECOND = 0x5a00963c };

static volatile uint32_t marks;

__attribute__((noipa)) static uint32_t tag_ok(uint32_t mark) {
    uint32_t result = tag_of(firmware) == signed_tag ? loaded(GOOD) : loaded(BAD);
    marks += mark;
    return result;
}

__attribute__((noreturn)) void main(void) {
    uint32_t first = tag_ok(loaded(FIRST));
    uint32_t second = tag_ok(loaded(SECOND));
    if (hide(first) != hide(second) || marks != loaded(FIRST + SECOND)) {
        detect();
    }
    if (hide(first) == loaded(GOOD) && hide(second) == loaded(GOOD)) {
        if (marks != loaded(FIRST + SECOND) || tag_of(firmware) != signed_tag) {
            detect();
        }
        boot();
    }
    if (hide(first) == loaded(BAD)) {
        refuse();
    }
    detect();
}
