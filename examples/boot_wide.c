/* One comparison, whose results differ in sixteen bits: no flip makes one of the other. */
#include "boot.h"

enum { GOOD = 0x3c5aa5c3, BAD = 0x5a3c963f };

__attribute__((noipa)) static uint32_t tag_ok(void) { return tag_of(firmware) == signed_tag ? loaded(GOOD) : loaded(BAD); }

__attribute__((noreturn)) void main(void) {
    uint32_t result = tag_ok();
    if (hide(result) == loaded(GOOD)) {
        boot();
    }
    if (hide(result) == loaded(BAD)) {
        refuse();
    }
    detect();
}
