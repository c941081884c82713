/* A parser as one writes it first: a frame that is none is answered by BAD. In a campaign that counts as silent, though no actuator moves. */
#include "frame.h"

__attribute__((noreturn)) void main(void) {
    struct reading found = read_frame(frame);
    if (found.state != GOOD) {
        refuse();
    }
    send(found.number);
    halt(0);
}
