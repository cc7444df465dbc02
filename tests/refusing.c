/* Refuses one request for memory: the one whose number, from 1 on, is in the environment's REFUSED. At the end of the
   program it writes how many there were into the file named by REQUESTS. It stands in front of the system's allocator,
   by LD_PRELOAD. Requests before main are not counted: they are the C library's own. */
#define _GNU_SOURCE
#include <errno.h>
#include <stdio.h>
#include <stdlib.h>
#include <sys/syscall.h>
#include <unistd.h>

static unsigned long requests, refused;
static int counts;

/* whether this request is the one that is refused */
static int refuses(void) {
    return counts && ++requests == refused;
}

static void *none(void) {
    errno = ENOMEM;
    return NULL;
}

__attribute__((constructor)) static void begin(void) {
    const char *number = getenv("REFUSED");
    refused = number ? strtoul(number, NULL, 10) : 0;
    counts = 1;
}

__attribute__((destructor)) static void end(void) {
    const char *path = getenv("REQUESTS");
    counts = 0;
    FILE *file = path ? fopen(path, "w") : NULL;
    if (file) {
        fprintf(file, "%lu\n", requests);
        fclose(file);
    }
}

/* a program may end without its destructors */
void _exit(int status) {
    end();
    for (;;) {
        syscall(SYS_exit_group, status);
    }
}

extern void *__libc_malloc(size_t), *__libc_calloc(size_t, size_t), *__libc_realloc(void *, size_t), *__libc_memalign(size_t, size_t);

void *malloc(size_t size) {
    return refuses() ? none() : __libc_malloc(size);
}

void *calloc(size_t count, size_t size) {
    return refuses() ? none() : __libc_calloc(count, size);
}

void *realloc(void *at, size_t size) {
    return refuses() ? none() : __libc_realloc(at, size);
}

void *aligned_alloc(size_t align, size_t size) {
    return refuses() ? none() : __libc_memalign(align, size);
}

int posix_memalign(void **at, size_t align, size_t size) {
    void *made = refuses() ? NULL : __libc_memalign(align, size);
    if (!made) {
        return ENOMEM;
    }
    *at = made;
    return 0;
}
