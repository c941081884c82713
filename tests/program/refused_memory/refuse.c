// Loaded before a program, it refuses one allocation, by its number.
//
// REFUSE=N    the number of the allocation, counted from 1; with 0 none is refused
// NOTE=FILE   takes a line where one was refused: 1 where it was in the call that starts a thread, else 0. Where none is to be
//             refused, it takes for each such call the number of its thread's last allocation before it
#define _GNU_SOURCE
#include <dlfcn.h>
#include <errno.h>
#include <fcntl.h>
#include <pthread.h>
#include <stdatomic.h>
#include <stdio.h>
#include <stdlib.h>
#include <unistd.h>

// The allocator of the C library under its other names.
extern void *__libc_malloc(size_t size);
extern void *__libc_calloc(size_t count, size_t size);
extern void *__libc_realloc(void *old, size_t size);
extern void *__libc_memalign(size_t alignment, size_t size);

typedef int Create(pthread_t *thread, const pthread_attr_t *how, void *(*work)(void *), void *argument);

static Create *create;
static atomic_ulong made;
static unsigned long refused;
static __thread unsigned long last;
static __thread int is_starting;

__attribute__((constructor)) static void begin(void) {
    const char *number = getenv("REFUSE");
    refused = number ? strtoul(number, NULL, 10) : 0;
    create = (Create *)dlsym(RTLD_NEXT, "pthread_create");
    atomic_store(&made, 0);
}

// It allocates nothing.
static void note(unsigned long number) {
    char line[24];
    int length = snprintf(line, sizeof line, "%lu\n", number);
    const char *path = getenv("NOTE");
    int file = path ? open(path, O_WRONLY | O_CREAT | O_APPEND, 0666) : -1;
    if (file < 0 || write(file, line, length) < 0) {
        _exit(99);
    }
    close(file);
}

static int refuse(void) {
    last = atomic_fetch_add(&made, 1) + 1;
    if (last != refused) {
        return 0;
    }
    note(is_starting);
    errno = ENOMEM;
    return 1;
}

void *malloc(size_t size) { return refuse() ? NULL : __libc_malloc(size); }

void *calloc(size_t count, size_t size) { return refuse() ? NULL : __libc_calloc(count, size); }

void *realloc(void *old, size_t size) { return refuse() ? NULL : __libc_realloc(old, size); }

void *memalign(size_t alignment, size_t size) { return refuse() ? NULL : __libc_memalign(alignment, size); }

void *aligned_alloc(size_t alignment, size_t size) { return memalign(alignment, size); }

int posix_memalign(void **out, size_t alignment, size_t size) {
    void *memory = memalign(alignment, size);
    if (memory == NULL) {
        return ENOMEM;
    }
    *out = memory;
    return 0;
}

int pthread_create(pthread_t *thread, const pthread_attr_t *how, void *(*work)(void *), void *argument) {
    if (refused == 0) {
        note(last);
    }
    is_starting = 1;
    int answer = create(thread, how, work, argument);
    is_starting = 0;
    return answer;
}
