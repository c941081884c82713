/* The same checksum, triplicated: three copies of the message, three computations, and a vote on each bit. One wrong copy is
   outvoted by the two others, and the program goes on. */
#include "crc.h"
#include "port.h"

/* Arrays that may be written (volatile, and not const): of constants the compiler or the linker may keep one for all. */
static volatile uint8_t first[LENGTH] = "123456789";
static volatile uint8_t second[LENGTH] = "123456789";
static volatile uint8_t third[LENGTH] = "123456789";

__attribute__((noreturn)) void main(void) {
    uint32_t a = hide(crc32(first));
    uint32_t b = hide(crc32(second));
    uint32_t c = hide(crc32(third));
    out_word((a & b) | (a & c) | (b & c));
    halt(0);
}
