/* Counts the requests for memory of the program that it is loaded into, and prints the count when the program ends. bench/turns.py
 * reports it as allocations.
 *
 *     cc -O2 -shared -fPIC -o calls.so bench/turns/calls.c
 *     LD_PRELOAD=./calls.so PROGRAM
 */
#define _GNU_SOURCE
#include <dlfcn.h>
#include <stdio.h>
#include <stdlib.h>

static long calls;

void *malloc(size_t size) {
    static void *(*real)(size_t);
    if (!real) real = (void *(*)(size_t)) dlsym(RTLD_NEXT, "malloc");
    calls++;
    return real(size);
}

void *realloc(void *old, size_t size) {
    static void *(*real)(void *, size_t);
    if (!real) real = (void *(*)(void *, size_t)) dlsym(RTLD_NEXT, "realloc");
    calls++;
    return real(old, size);
}

__attribute__((destructor)) static void tell(void) {
    fprintf(stderr, "%ld\n", calls);
}
