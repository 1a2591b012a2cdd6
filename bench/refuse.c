/* Refuses one allocation of a program that is started with this library in LD_PRELOAD, and REFUSED=N in its environment: the Nth call
   of malloc or realloc, counted from 1 over all threads, answers that there is no memory. It then writes a line on standard error.
   It is for the GNU C library. */
#include <stdatomic.h>
#include <stdlib.h>
#include <unistd.h>

extern void *__libc_malloc(size_t size);
extern void *__libc_realloc(void *block, size_t size);

static atomic_ulong calls;

static int is_refused(void) {
    const char *wanted = getenv("REFUSED");
    static const char said[] = "an allocation was refused\n";
    unsigned long number = atomic_fetch_add(&calls, 1) + 1;

    if (wanted == NULL || strtoul(wanted, NULL, 10) != number)
        return 0;
    return write(2, said, sizeof said - 1) > 0;
}

void *malloc(size_t size) {
    return is_refused() ? NULL : __libc_malloc(size);
}

void *realloc(void *block, size_t size) {
    return is_refused() ? NULL : __libc_realloc(block, size);
}
