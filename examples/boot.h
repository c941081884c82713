/* A secure boot: what its variants share. The loader computes a tag of the firmware in RAM and compares it with the tag that the signer
   left beside it. Here the firmware was changed, so the tags differ and the run without a fault refuses it. A fault that boots it all the
   same opens the device: it sends B and halts with 0xB007, which differs from the refusal's 0 in seven bits. */
#ifndef BOOT_H
#define BOOT_H

#include "hide.h"
#include "port.h"

enum { FIRMWARE = 12, BOOTED = 0xB007 };

static const volatile uint8_t firmware[FIRMWARE] = {0x13, 0x05, 0x10, 0x00, 0x93, 0x05, 0x20, 0x00, 0x6f, 0x00, 0x00, 0x01};
static const volatile uint32_t signed_tag = 0x5ac3961fu;

/* A tag of the firmware. It stands for a MAC, which takes longer. */
__attribute__((noipa)) static uint32_t tag_of(const volatile uint8_t *bytes) {
    uint32_t tag = 0x811c9dc5u;
    for (int i = 0; i < FIRMWARE; i++) {
        tag = (tag ^ bytes[i]) * 0x01000193u;
    }
    return tag;
}

/* The door that an attacker wants to open. */
__attribute__((noreturn)) static inline void boot(void) {
    out('B');
    halt(BOOTED);
}

/* Good: the run without a fault ends here, with a value that comes from x0 and so from no register that a fault can hit. */
__attribute__((noreturn)) static inline void refuse(void) {
    out('-');
    halt(0);
}

#endif
