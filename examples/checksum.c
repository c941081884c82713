/* The checksum of a message in RAM, as one writes it first: computed once, sent, and nothing is checked. */
#include "crc.h"
#include "port.h"

static volatile uint8_t message[LENGTH] = "123456789";

__attribute__((noreturn)) void main(void) {
    out_word(crc32(message));
    halt(0);
}
