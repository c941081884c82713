/* A secure boot as one writes it first: one comparison, whose result is 0 or 1. */
#include "boot.h"

__attribute__((noipa)) static int tag_ok(void) { return tag_of(firmware) == signed_tag; }

__attribute__((noreturn)) void main(void) {
    if (tag_ok()) {
        boot();
    }
    refuse();
}
