/* The frame is good, so a refusal is a fault that was noticed: it goes to the detect port, and is silent no more. */
#include "frame.h"

__attribute__((noreturn)) void main(void) {
    struct reading found = read_frame(frame);
    if (found.state != GOOD) {
        detect();
    }
    send(found.number);
    halt(0);
}
