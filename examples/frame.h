/* A frame from a sensor as NMEA 0183 has them: $, fields with commas between them, *, and two digits of the exclusive or of the bytes
   between $ and *. The number of the second field is sent: an actuator takes it. */
#ifndef FRAME_H
#define FRAME_H

#include "hide.h"
#include "port.h"

enum { GOOD = 0x3c5aa5c3, HIGHEST = 250 };

/* 'T' ^ ',' ^ '2' ^ '1' ^ '7' is 0x4c. */
static volatile char frame[] = "$T,217*4C";

/* What was read of a frame: whether it is one, and its number. */
struct reading {
    uint32_t state;
    uint32_t number;
};

static inline uint32_t digit_of(char letter) { return letter <= '9' ? (uint32_t)letter - '0' : (uint32_t)letter - 'A' + 10; }

__attribute__((noipa)) static struct reading read_frame(const volatile char *at) {
    struct reading found = {0, 0};
    uint32_t sum = 0;
    if (*at++ != '$') {
        return found;
    }
    for (int field = 0; *at != '*' && *at != 0; at++) {
        char letter = *at;
        sum ^= (uint32_t)letter;
        if (letter == ',') {
            field++;
        } else if (field == 1) {
            found.number = found.number * 10 + digit_of(letter);
        }
    }
    if (*at == '*' && sum == digit_of(at[1]) * 16 + digit_of(at[2])) {
        found.state = loaded(GOOD);
    }
    return found;
}

/* Sends the number, the lowest byte first. */
static inline void send(uint32_t number) {
    out((uint8_t)number);
    out((uint8_t)(number >> 8));
}

/* Says in words that the frame is none. */
__attribute__((noreturn)) static inline void refuse(void) {
    out('B');
    out('A');
    out('D');
    halt(1);
}

#endif
