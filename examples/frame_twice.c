/* The frame is read twice, and the number is sent where both readings are the same. */
#include "frame.h"

__attribute__((noreturn)) void main(void) {
    struct reading first = read_frame(frame);
    struct reading second = read_frame(frame);
    if (hide(first.state) != loaded(GOOD) || hide(second.state) != loaded(GOOD) || hide(first.number) != hide(second.number)) {
        detect();
    }
    send(hide(second.number));
    halt(0);
}
