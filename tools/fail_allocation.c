/*
 * Makes one allocation fail in a program that this library is loaded into: the one whose number,
 * counted from 1, is in FAILED_ALLOCATION. An allocation is one request for memory, by malloc or
 * realloc, as proved programs make them. If there was an allocation of that number, a line is written
 * to descriptor 3.
 */
#include <errno.h>
#include <stdlib.h>
#include <unistd.h>

/* The C library's own. */
extern void *__libc_malloc(size_t size);
extern void *__libc_realloc(void *memory, size_t size);

static unsigned long allocations;

/* Counts an allocation, and returns 1 if it must fail. */
static int fails(void) {
    const char *number = getenv("FAILED_ALLOCATION");

    allocations++;
    if (number == NULL || allocations != strtoul(number, NULL, 10))
        return 0;
    errno = ENOMEM;
    return write(3, "failed\n", 7) == 7;
}

void *malloc(size_t size) {
    return fails() ? NULL : __libc_malloc(size);
}

void *realloc(void *memory, size_t size) {
    return fails() ? NULL : __libc_realloc(memory, size);
}
