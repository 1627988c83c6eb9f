/* Refuses the growth of memory number GROWTH, counted from 1, and each behind it where GROWTH_ALL is set; to be preloaded. */
#define _GNU_SOURCE
#include <dlfcn.h>
#include <errno.h>
#include <malloc.h>
#include <stdlib.h>
#include <unistd.h>

static long count, refused, all, met;

__attribute__((constructor)) static void begin(void) {
    const char *word = getenv("GROWTH");
    refused = word ? atol(word) : 0;
    all = getenv("GROWTH_ALL") != NULL;
    count = 0;
}

/* Tells by the file GROWTH_MET, which is there as the program starts, whether a growth was refused. */
__attribute__((destructor)) static void end(void) {
    const char *name = getenv("GROWTH_MET");
    if (name && !met) unlink(name);
}

static int is_refused(void) {
    count++;
    if (count == refused || (all && refused && count > refused)) {
        met = 1;
        errno = ENOMEM;
        return 1;
    }
    return 0;
}

#define REAL(name) ({ static __typeof__(&name) found; if (!found) found = dlsym(RTLD_NEXT, #name); found; })

void *malloc(size_t size) { return is_refused() ? NULL : REAL(malloc)(size); }
/* What a block has room for is no growth: a list that gives back its room asks for less. */
void *realloc(void *old, size_t size) {
    int grows = !old || size > malloc_usable_size(old);
    return grows && is_refused() ? NULL : REAL(realloc)(old, size);
}
void *aligned_alloc(size_t align, size_t size) { return is_refused() ? NULL : REAL(aligned_alloc)(align, size); }

int posix_memalign(void **to, size_t align, size_t size) {
    return is_refused() ? ENOMEM : REAL(posix_memalign)(to, align, size);
}
