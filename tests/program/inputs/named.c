/* Functions and variables of each kind that a symbol table may have: local, global and weak ones, two names of one place, constants
   in ROM, and a name that nothing defines. named.S has those that only an assembler makes. */
#include "../../../examples/port.h"

static volatile unsigned char bytes[6] = {1, 2, 3, 5, 8, 13};
static volatile unsigned char cleared[3];
volatile unsigned char shared = 7;
__attribute__((weak)) volatile unsigned char weak_byte = 9;
__attribute__((weak)) volatile unsigned char replaced_byte = 1;
const volatile unsigned char constants[4] = {2, 4, 6, 9};

extern unsigned missing(unsigned n) __attribute__((weak));
extern unsigned mixed(unsigned n);

__attribute__((weak, noinline)) unsigned replaced(unsigned n) { return n + 100; }
__attribute__((weak, noinline)) unsigned kept_weak(unsigned n) { return n ^ weak_byte; }
__attribute__((noinline)) static unsigned local(unsigned n) { return n * 3 + constants[n & 3]; }
__attribute__((noinline)) unsigned twice(unsigned n) { return n + n + shared; }
unsigned other_name(unsigned n) __attribute__((alias("twice")));

int main(void) {
    unsigned sum = replaced_byte;
    for (unsigned at = 0; at < sizeof bytes; at++) {
        sum += mixed(bytes[at]);
        cleared[at % sizeof cleared] = (unsigned char)sum;
    }
    sum = other_name(replaced(kept_weak(local(sum + cleared[1]))));
    if (missing)
        sum = missing(sum);
    out((unsigned char)sum);
    halt(sum & 0xFF);
}
