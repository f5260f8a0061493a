// Counts the bytes that a program has in use on the heap, each allocation with the 8 bytes before it. Whenever the
// program reads the clock, the number goes to the file descriptor 9, one on a line. For `tools/memory`:
//     cc -O2 -shared -fPIC memory.c -o memory.so -ldl; LD_PRELOAD=./memory.so PROGRAM 9>FILE
#define _GNU_SOURCE
#include <dlfcn.h>
#include <malloc.h>
#include <stdio.h>
#include <sys/syscall.h>
#include <time.h>
#include <unistd.h>

static long in_use;

static long bytes_at(void *place) { return place ? (long)malloc_usable_size(place) + 8 : 0; }

void *malloc(size_t size) {
    static void *(*real)(size_t);
    if (!real) real = dlsym(RTLD_NEXT, "malloc");
    void *place = real(size);
    in_use += bytes_at(place);
    return place;
}

void *realloc(void *old, size_t size) {
    static void *(*real)(void *, size_t);
    if (!real) real = dlsym(RTLD_NEXT, "realloc");
    long before = bytes_at(old);
    void *place = real(old, size);
    if (place) in_use += bytes_at(place) - before;
    return place;
}

void free(void *place) {
    static void (*real)(void *);
    if (!real) real = dlsym(RTLD_NEXT, "free");
    in_use -= bytes_at(place);
    real(place);
}

int clock_gettime(clockid_t clock, struct timespec *now) {
    char line[32];
    int length = snprintf(line, sizeof line, "%ld\n", in_use);
    if (write(9, line, length) != length) _exit(1);
    return syscall(SYS_clock_gettime, clock, now);
}
