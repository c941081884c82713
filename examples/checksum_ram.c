/* The checksum once more, computed in RAM: start.S copies crc32 there with the data, as one does where flash memory is slow or is being
   written. It does the same there, but each of its instructions is now a word that a fault can hit, and that stays as the fault left
   it. To be run with --ram-code. */
#include <stdint.h>

/* flash.ld has the place of this section in RAM, and its bytes in ROM. */
__attribute__((section(".ram_code"))) static uint32_t crc32(const volatile uint8_t *message);

#include "crc.h"
#include "port.h"

static volatile uint8_t message[LENGTH] = "123456789";

__attribute__((noreturn)) void main(void) {
    out_word(crc32(message));
    halt(0);
}
