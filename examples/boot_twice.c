/* The comparison comes twice. One flip in the second result is not enough, but both results come out of one function, and the first flip of
   the firmware or of the tag in a register opens the device as before. */
#include "boot.h"

__attribute__((noipa)) static int tag_ok(void) { return tag_of(firmware) == signed_tag; }

__attribute__((noreturn)) void main(void) {
    if (tag_ok()) {
        if (tag_ok()) {
            boot();
        }
        detect();
    }
    refuse();
}
