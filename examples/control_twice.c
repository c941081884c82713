/* The control loop of control.c for some hundred thousand instructions, and hardened: two loops, each with a plant, a controller and a
   counter of its own, are compared after each step; where they differ that is reported. */
#include "hide.h"
#include "port.h"

enum { STEPS = 1064, TARGET = 50 << 8, LOWEST = 0, HIGHEST = 100 << 8 };

struct loop {
    int32_t level, integral;
};
static volatile struct loop first = {20 << 8, 0};
static volatile struct loop second = {20 << 8, 0};

static int32_t clamp(int32_t value, int32_t low, int32_t high) { return value < low ? low : value > high ? high : value; }

/* One step of a loop, and its valve's position. noipa: else the compiler could see that two calls compute the same. */
__attribute__((noipa)) static int32_t step(volatile struct loop *loop) {
    int32_t measured = loop->level;
    if (measured < LOWEST || measured > HIGHEST) {
        detect();
    }
    int32_t error = TARGET - measured;
    int32_t integral = clamp(loop->integral + error / 8, -(64 << 8), 64 << 8);
    int32_t valve = clamp(error + integral, 0, 100 << 8);
    loop->integral = integral;
    loop->level = measured + valve / 8 - measured / 16;
    return valve;
}

__attribute__((noreturn)) void main(void) {
    uint32_t done = 0;
    uint32_t left = STEPS;
    for (; left != 0; done++, left = hide(left - 1)) {
        int32_t valve = step(&first);
        int32_t other = step(&second);
        if (valve != other || first.level != second.level || first.integral != second.integral || done + left != STEPS) {
            detect();
        }
        out((uint8_t)(valve >> 8));
    }
    halt((uint32_t)first.level >> 8);
}
