/* Makes the allocation of number REFUSE fail, counted over malloc, calloc and realloc, once the program runs. */
#define _GNU_SOURCE
#include <dlfcn.h>
#include <errno.h>
#include <stddef.h>
#include <stdio.h>
#include <stdlib.h>

static void *(*real_malloc)(size_t);
static void *(*real_calloc)(size_t, size_t);
static void *(*real_realloc)(void *, size_t);
static unsigned long asked, refused_at;

__attribute__((constructor)) static void begin(void) {
    real_malloc = dlsym(RTLD_NEXT, "malloc");
    real_realloc = dlsym(RTLD_NEXT, "realloc");
    real_calloc = dlsym(RTLD_NEXT, "calloc");
    const char *word = getenv("REFUSE");
    refused_at = word ? strtoul(word, NULL, 10) : 0;
    asked = 0;
}

static int refuses(void) {
    asked += 1;
    return refused_at && asked == refused_at;
}

void *malloc(size_t size) {
    if (!real_malloc) real_malloc = dlsym(RTLD_NEXT, "malloc");
    if (refuses()) { errno = ENOMEM; return NULL; }
    return real_malloc(size);
}

void *calloc(size_t count, size_t size) {
    if (!real_calloc) return NULL;
    if (refuses()) { errno = ENOMEM; return NULL; }
    return real_calloc(count, size);
}

void *realloc(void *old, size_t size) {
    if (!real_realloc) real_realloc = dlsym(RTLD_NEXT, "realloc");
    if (refuses()) { errno = ENOMEM; return NULL; }
    return real_realloc(old, size);
}

__attribute__((destructor)) static void end(void) {
    const char *file = getenv("REFUSE_COUNT");
    if (file) {
        FILE *out = fopen(file, "w");
        if (out) { fprintf(out, "%lu\n", asked); fclose(out); }
    }
}
