/* A control loop: a proportional and integral controller holds a tank's level, in fixed point numbers with 8 bits behind the
   point. It sends each valve position, and has a plausibility check: a level that is no possible level is reported. */
#include "port.h"

enum { STEPS = 24, TARGET = 50 << 8, LOWEST = 0, HIGHEST = 100 << 8 };

/* The state of the plant and of the controller: volatile, as if a sensor and an actuator shared it with this program. */
static volatile int32_t level = 20 << 8;
static volatile int32_t integral;

static int32_t clamp(int32_t value, int32_t low, int32_t high) { return value < low ? low : value > high ? high : value; }

/* The plant: what comes in by the valve, and what runs out in proportion to the level. */
static void plant(int32_t valve) { level = level + valve / 8 - level / 16; }

__attribute__((noreturn)) void main(void) {
    for (int step = 0; step < STEPS; step++) {
        int32_t measured = level;
        if (measured < LOWEST || measured > HIGHEST) {
            detect();
        }
        int32_t error = TARGET - measured;
        integral = clamp(integral + error / 8, -(64 << 8), 64 << 8);
        int32_t valve = clamp(error + integral, 0, 100 << 8);
        out((uint8_t)(valve >> 8));
        plant(valve);
    }
    halt((uint32_t)level >> 8);
}
