/* The hash is computed three times, and of each bit what two of the three say is sent. */
#include "siphash.h"

__attribute__((noreturn)) void main(void) {
    uint64_t first = siphash();
    uint64_t second = siphash();
    uint64_t third = siphash();
    send((hidden(first) & hidden(second)) | (hidden(first) & hidden(third)) | (hidden(second) & hidden(third)));
    halt(0);
}
