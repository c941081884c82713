/* The functions that gcc and clang call where a program copies or clears a structure, also at -Os and without a library:
   memcpy, memmove, memset and memcmp. The Makefile links this file only into a program that calls one of them. */
#include <stddef.h>

void *memcpy(void *to, const void *from, size_t bytes) {
    unsigned char *end = to;
    for (const unsigned char *next = from; bytes > 0; bytes--) {
        *end++ = *next++;
    }
    return to;
}

void *memmove(void *to, const void *from, size_t bytes) {
    unsigned char *target = to;
    const unsigned char *source = from;
    if (target <= source) {
        return memcpy(to, from, bytes);
    }
    while (bytes-- > 0) {
        target[bytes] = source[bytes];
    }
    return to;
}

void *memset(void *to, int value, size_t bytes) {
    for (unsigned char *end = to; bytes > 0; bytes--) {
        *end++ = (unsigned char)value;
    }
    return to;
}

int memcmp(const void *one, const void *other, size_t bytes) {
    const unsigned char *left = one, *right = other;
    for (; bytes > 0 && *left == *right; bytes--) {
        left++;
        right++;
    }
    return bytes > 0 ? *left - *right : 0;
}
