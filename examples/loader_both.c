/* Two comparisons with wide results, from which the way is chosen by both: where they do not agree the loader has noticed. */
#include "loader.h"

enum { GOOD = 0x3c5aa5c3, BAD = 0x5a3c963f };

__attribute__((noipa)) static uint32_t is_signed(uint32_t tag) { return tag == signed_tag ? loaded(GOOD) : loaded(BAD); }

__attribute__((noreturn)) void main(void) {
    uint32_t tag = tag_of_firmware();
    uint32_t first = is_signed(tag);
    uint32_t second = is_signed(hide(tag));
    if (hide(first) != hide(second)) {
        detect();
    }
    if (hide(first) == loaded(GOOD) && hide(second) == loaded(GOOD)) {
        boot();
    }
    if (hide(first) == loaded(BAD)) {
        refuse();
    }
    detect();
}
