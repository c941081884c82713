/* The same checksum, duplicated: two copies of the message, each with its own computation, and a comparison before anything is
   sent. Where the two differ, which of them is right cannot be known: the program says so and ends. */
#include "crc.h"
#include "port.h"

/* Two arrays that may be written (volatile, and not const): of constants the compiler or the linker may keep one for both. */
static volatile uint8_t first[LENGTH] = "123456789";
static volatile uint8_t second[LENGTH] = "123456789";

__attribute__((noreturn)) void main(void) {
    uint32_t a = hide(crc32(first));
    uint32_t b = hide(crc32(second));
    if (a != b) {
        detect();
    }
    out_word(hide(a));
    halt(0);
}
