/* A template for a program of your own: copy it, and put your code where it computes.
    1. The input is in RAM, and volatile: so the compiler cannot compute the answer, and a fault can hit it.
    2. The good way ends with halt(0): that value comes from x0, which no fault can hit.
    3. Where good input is refused, detect(): the fault was noticed. A text such as "BAD" would count as a silent corruption.
    4. Answers differ in at least two bits, so that no single flip makes one of the other.
    5. A countermeasure is shown for one image: sweep the flags that you ship. */
#include "hide.h"
#include "port.h"

static volatile uint32_t input = 20;

/* The computation. noipa: the compiler may not look from a caller into it, or merge two calls. */
__attribute__((noipa)) static uint32_t compute(uint32_t value) { return value * 2 + 2; }

/* Whether an answer can be right, by what is known of the input. */
static inline int possible(uint32_t answer) { return answer >= 2 && answer <= 100; }

__attribute__((noreturn)) void main(void) {
    uint32_t answer = compute(input);
    if (!possible(answer)) {
        detect();
    }
    out((uint8_t)answer);
    halt(0);
}
