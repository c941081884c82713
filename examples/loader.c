/* The loader as one writes it first: one comparison, whose result is 0 or 1. */
#include "loader.h"

__attribute__((noipa)) static int is_signed(uint32_t tag) { return tag == signed_tag; }

__attribute__((noreturn)) void main(void) {
    if (is_signed(tag_of_firmware())) {
        boot();
    }
    refuse();
}
