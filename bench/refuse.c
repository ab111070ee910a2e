/* Refuses memory: a library to be loaded before a program, by LD_PRELOAD.
 *
 * Of the program's calls of malloc, calloc and realloc, counted from 1 over all its threads, the one whose
 * number stands in REFUSE answers that there is no memory; with REFUSE_ON also each that follows. Where the
 * call comes, the file that REFUSED names is made. */
#include <errno.h>
#include <fcntl.h>
#include <stdatomic.h>
#include <stddef.h>
#include <stdlib.h>
#include <unistd.h>

extern void *__libc_malloc(size_t);
extern void *__libc_calloc(size_t, size_t);
extern void *__libc_realloc(void *, size_t);

static atomic_long calls;
static long refused;
static int refuses_on;
static const char *witness;

__attribute__((constructor)) static void begin(void) {
    const char *number = getenv("REFUSE");
    witness = getenv("REFUSED");
    refuses_on = getenv("REFUSE_ON") != NULL;
    atomic_store(&calls, 0);
    refused = number ? atol(number) : 0;
}

static int is_refused(void) {
    if (refused == 0)
        return 0;
    long call = atomic_fetch_add(&calls, 1) + 1;
    if (call == refused && witness) {
        int file = open(witness, O_CREAT | O_WRONLY, 0666);
        if (file >= 0)
            close(file);
    }
    if (call == refused || (refuses_on && call > refused)) {
        errno = ENOMEM;
        return 1;
    }
    return 0;
}

void *malloc(size_t size) { return is_refused() ? NULL : __libc_malloc(size); }

void *calloc(size_t count, size_t size) { return is_refused() ? NULL : __libc_calloc(count, size); }

void *realloc(void *old, size_t size) { return is_refused() ? NULL : __libc_realloc(old, size); }
