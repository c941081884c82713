/* A bytecode interpreter: a stack machine whose program is in ROM, and whose stack and variables are in RAM. */
#include "port.h"

enum { PUSH, LOAD, STORE, ADD, SUB, MUL, LESS, JUMP, JUMP_IF_ZERO, SEND, STOP };

enum { STACK = 8, VARIABLES = 4 };

/* For n from 1 to 4: sends the sum of the squares up to n. */
static const uint8_t program[] = {
    PUSH, 1, STORE, 0,                            /* 0: n = 1 */
    PUSH, 0, STORE, 1,                            /* 4: sum = 0 */
    LOAD, 0, PUSH, 5, LESS, JUMP_IF_ZERO, 37,     /* 8: while n < 5 */
    LOAD, 1, LOAD, 0, LOAD, 0, MUL, ADD, STORE, 1, /* 15: sum = sum + n * n */
    LOAD, 1, SEND,                                /* 25 */
    LOAD, 0, PUSH, 1, ADD, STORE, 0, JUMP, 8,     /* 28 */
    LOAD, 1, STOP,
};

static uint32_t stack[STACK];
static uint32_t *top = stack;
static uint32_t variables[VARIABLES];

static void push(uint32_t value) { *top++ = value; }
static uint32_t pop(void) { return *--top; }

__attribute__((noreturn)) void main(void) {
    uint32_t pc = 0;
    for (;;) {
        uint8_t operation = program[pc++];
        uint32_t right;
        switch (operation) {
        case PUSH: push(program[pc++]); break;
        case LOAD: push(variables[program[pc++] % VARIABLES]); break;
        case STORE: variables[program[pc++] % VARIABLES] = pop(); break;
        case ADD: right = pop(); push(pop() + right); break;
        case SUB: right = pop(); push(pop() - right); break;
        case MUL: right = pop(); push(pop() * right); break;
        case LESS: right = pop(); push(pop() < right); break;
        case JUMP: pc = program[pc]; break;
        case JUMP_IF_ZERO: pc = pop() == 0 ? program[pc] : pc + 1; break;
        case SEND: out((uint8_t)pop()); break;
        case STOP: halt(pop());
        default: detect();
        }
    }
}
