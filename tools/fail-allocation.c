/* Loaded before a program (LD_PRELOAD): its K-th allocation fails, K from the environment (ALMA_FAIL); 0 fails none. At its end the
   number of allocations goes to the file ALMA_COUNT, where that is named. Of tools/check-memory; no part of the program. */
#define _GNU_SOURCE
#include <dlfcn.h>
#include <stdio.h>
#include <stdlib.h>

static unsigned long count, failing;

__attribute__((constructor)) static void begin(void) {
    const char *wanted = getenv("ALMA_FAIL");
    failing = wanted ? strtoul(wanted, 0, 10) : 0;
    count = 0;
}

__attribute__((destructor)) static void end(void) {
    const char *name = getenv("ALMA_COUNT");
    unsigned long made = count;
    failing = 0;
    FILE *file = name ? fopen(name, "w") : 0;
    if (file) {
        fprintf(file, "%lu\n", made);
        fclose(file);
    }
}

static int fails(void) { return ++count == failing; }

void *malloc(size_t size) {
    static void *(*next)(size_t);
    if (!next) next = (void *(*)(size_t))dlsym(RTLD_NEXT, "malloc");
    return fails() ? 0 : next(size);
}

void *realloc(void *old, size_t size) {
    static void *(*next)(void *, size_t);
    if (!next) next = (void *(*)(void *, size_t))dlsym(RTLD_NEXT, "realloc");
    return fails() ? 0 : next(old, size);
}
