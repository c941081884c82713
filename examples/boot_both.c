/* Two computations of the tag and two wide results, from which the way is chosen by both: where they do not agree the boot has noticed. */
#include "boot.h"

enum { GOOD = 0x3c5aa5c3, BAD = 0x5a3c963f };

__attribute__((noipa)) static uint32_t tag_ok(void) { return tag_of(firmware) == signed_tag ? loaded(GOOD) : loaded(BAD); }

__attribute__((noreturn)) void main(void) {
    uint32_t first = tag_ok();
    uint32_t second = tag_ok();
    if (hide(first) != hide(second)) {
        detect();
    }
    if (hide(first) == loaded(GOOD) && hide(second) == loaded(GOOD)) {
        boot();
    }
    if (hide(first) == loaded(BAD)) {
        refuse();
    }
    detect();
}
