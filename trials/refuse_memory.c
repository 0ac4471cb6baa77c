/* Stands in front of the C library (LD_PRELOAD): the allocation whose number is in REFUSE finds no memory, and each other is the library's.
 * How many there were is written to the file that REFUSE_COUNT names. */
#define _GNU_SOURCE
#include <dlfcn.h>
#include <stdio.h>
#include <stdlib.h>

static unsigned long calls, refused;

__attribute__((constructor)) static void begin(void) {
    const char *number = getenv("REFUSE");
    refused = number ? strtoul(number, NULL, 10) : 0;
    calls = 0;
}

__attribute__((destructor)) static void end(void) {
    const char *path = getenv("REFUSE_COUNT");
    unsigned long made = calls;
    FILE *file = path ? fopen(path, "w") : NULL;
    if (file) {
        fprintf(file, "%lu\n", made);
        fclose(file);
    }
}

void *malloc(size_t size) {
    static void *(*library)(size_t);
    if (!library)
        library = (void *(*)(size_t))dlsym(RTLD_NEXT, "malloc");
    return ++calls == refused ? NULL : library(size);
}

void *realloc(void *old, size_t size) {
    static void *(*library)(void *, size_t);
    if (!library)
        library = (void *(*)(void *, size_t))dlsym(RTLD_NEXT, "realloc");
    return ++calls == refused ? NULL : library(old, size);
}
