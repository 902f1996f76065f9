/* Refuses one growth of memory, for scripts/growths.py. A program that is started with this loaded before the C library
   (LD_PRELOAD) gets a null pointer for the growth of the number in REFUSED, counted from 1, and for no other. */
#include <stdlib.h>

extern void *__libc_malloc(size_t size);
extern void *__libc_realloc(void *old, size_t size);

static long left;

__attribute__((constructor)) static void begin(void) {
    const char *number = getenv("REFUSED");
    left = number ? atol(number) : 0;
}

static int is_refused(void) {
    return left > 0 && --left == 0;
}

void *malloc(size_t size) {
    return is_refused() ? NULL : __libc_malloc(size);
}

void *realloc(void *old, size_t size) {
    return is_refused() ? NULL : __libc_realloc(old, size);
}
