/* printf by picolibc, to the output port. It needs Debian's picolibc-riscv64-unknown-elf, and
   `make RAM=256 out/print.elf`. */
#include <stdio.h>

#include "hide.h"
#include "port.h"

static volatile uint32_t input = 20;

/* Sends one character: picolibc calls this for each that printf writes. */
static int put(char letter, FILE *file) {
    (void)file;
    out((uint8_t)letter);
    return letter;
}

static FILE port = FDEV_SETUP_STREAM(put, NULL, NULL, _FDEV_SETUP_WRITE);
FILE *const stdout = &port;

__attribute__((noreturn)) void main(void) {
    printf("%u\n", (unsigned)(input * 2 + 2));
    halt(0);
}
