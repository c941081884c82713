/* What keeps a compiler from merging what was written twice on purpose. */
#ifndef HIDE_H
#define HIDE_H

#include <stdint.h>

/* An empty piece of assembler that claims to change the value: what the compiler knows of it, it forgets here. So it cannot
   conclude from "a and b are equal" that one register for both will do. */
static inline uint32_t hide(uint32_t value) {
    __asm__ volatile("" : "+r"(value));
    return value;
}

/* A constant that is loaded where it stands. The compiler may copy any other constant out of a register that it knows to hold the
   same, or compare that register with itself. */
#define loaded(constant)                                                    \
    ({                                                                      \
        uint32_t value;                                                     \
        __asm__ volatile("li %0, %1" : "=r"(value) : "i"(constant));        \
        value;                                                              \
    })

#endif
