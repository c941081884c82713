/* CRC-32 as Ethernet and zip have it, bit by bit. Of the nine bytes "123456789" it is CBF43926. */
#ifndef CRC_H
#define CRC_H

#include <stdint.h>

#include "hide.h"

enum { LENGTH = 9 };

/* noipa: the compiler may look neither from a caller into this function nor the other way. Else it could see that two calls
   compute the same and make one of them.
   volatile: each byte is read from RAM in each call. Else the compiler, which knows the first values and sees nobody change
   them, could put the bytes, or the whole result, into the code as constants. */
__attribute__((noipa)) static uint32_t crc32(const volatile uint8_t *message) {
    uint32_t crc = 0xFFFFFFFFu;
    for (int i = 0; i < LENGTH; i++) {
        crc ^= message[i];
        for (int bit = 0; bit < 8; bit++) {
            crc = (crc >> 1) ^ (0xEDB88320u & -(crc & 1));
        }
    }
    return ~crc;
}

#endif
