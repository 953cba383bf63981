/* Refuses allocations of the program that it is preloaded into: number REFUSE_FROM (from 1), and with REFUSE_LATER=1 all later
   ones. REFUSE_COUNT names a file that gets the number of allocations that were asked for when the program ends. */
#define _GNU_SOURCE
#include <dlfcn.h>
#include <errno.h>
#include <stdio.h>
#include <stdlib.h>
#include <string.h>

static unsigned long asked, from;
static int later, is_set;

static void set(void) {
    const char *number = getenv("REFUSE_FROM"), *all = getenv("REFUSE_LATER");
    from = number ? strtoul(number, NULL, 10) : 0;
    later = all && *all == '1';
    is_set = 1;
}

/* Counts from here on, with the environment that there is then. */
void refuse_anew(void) {
    asked = 0;
    is_set = 0;
}

static int is_refused(void) {
    if (!is_set) set();
    asked++;
    return from && (asked == from || (later && asked > from));
}

#define NEXT(name) ((__typeof__(&name))dlsym(RTLD_NEXT, #name))

void *malloc(size_t size) {
    static void *(*next)(size_t);
    if (!next) next = NEXT(malloc);
    if (is_refused()) { errno = ENOMEM; return NULL; }
    return next(size);
}

void *realloc(void *old, size_t size) {
    static void *(*next)(void *, size_t);
    if (!next) next = NEXT(realloc);
    if (is_refused()) { errno = ENOMEM; return NULL; }
    return next(old, size);
}

void *aligned_alloc(size_t align, size_t size) {
    static void *(*next)(size_t, size_t);
    if (!next) next = NEXT(aligned_alloc);
    if (is_refused()) { errno = ENOMEM; return NULL; }
    return next(align, size);
}

int posix_memalign(void **to, size_t align, size_t size) {
    static int (*next)(void **, size_t, size_t);
    if (!next) next = NEXT(posix_memalign);
    if (is_refused()) return ENOMEM;
    return next(to, align, size);
}

__attribute__((destructor)) static void tell(void) {
    const char *name = getenv("REFUSE_COUNT");
    FILE *file;
    unsigned long number = asked;
    if (!name) return;
    from = 0;
    if ((file = fopen(name, "w"))) { fprintf(file, "%lu\n", number); fclose(file); }
}
