/* A keyed hash of a message, sent as it is. */
#include "siphash.h"

__attribute__((noreturn)) void main(void) {
    send(siphash());
    halt(0);
}
