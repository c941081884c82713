/* A lock with a PIN of four digits: what the PIN checks share. The PIN that is entered is wrong, so the lock stays shut in the run
   without a fault, and each fault that opens it is an attack that works. */
#ifndef LOCK_H
#define LOCK_H

#include "hide.h"
#include "port.h"

enum { DIGITS = 4, SHUT = 0, OPEN = 1 };

/* Wrong in several bits of each digit, so that no single flip of a digit makes it right. */
static volatile uint8_t entered[DIGITS] = {1, 2, 3, 4};
static volatile uint8_t kept[DIGITS] = {6, 9, 8, 7};

/* Opens. In a build for measuring (-DMEASURE) that is a store to the detect port: so a campaign counts the sites at which the lock
   opens wrongly by themselves, as detected, and no other site is among them. */
__attribute__((noreturn)) static inline void open_lock(void) {
#ifdef MEASURE
    detect();
#else
    out('O');
    halt(OPEN);
#endif
}

/* The PIN was wrong. */
__attribute__((noreturn)) static inline void stay_shut(void) { halt(SHUT); }

/* The program has noticed an error. The word unimp is no instruction, so it traps: a device would be reset. */
__attribute__((noreturn)) static inline void alarm(void) {
    __asm__ volatile("unimp");
    __builtin_unreachable();
}

#endif
