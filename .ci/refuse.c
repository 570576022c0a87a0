/* Preloaded before a program. Its request for memory of the number REFUSE, counted from 1 on, gets none, and that is told
   by a byte to the descriptor TELL. A request is an allocation or the growth of one: both are counted together. */
#include <errno.h>
#include <stdatomic.h>
#include <stddef.h>
#include <stdlib.h>
#include <unistd.h>

extern void *__libc_malloc(size_t size);
extern void *__libc_realloc(void *block, size_t size);

static atomic_ulong made;
static unsigned long refused;
static int tell = -1;

__attribute__((constructor)) static void read_numbers(void) {
    const char *number = getenv("REFUSE");
    const char *descriptor = getenv("TELL");
    refused = number ? strtoul(number, NULL, 10) : 0;
    tell = descriptor ? atoi(descriptor) : -1;
}

/* Whether the request that is made now is the refused one. */
static int is_refused(void) {
    if (atomic_fetch_add(&made, 1) + 1 != refused) {
        return 0;
    }
    if (write(tell, "!", 1) != 1) {
        abort();
    }
    errno = ENOMEM;
    return 1;
}

void *malloc(size_t size) {
    return is_refused() ? NULL : __libc_malloc(size);
}

void *realloc(void *block, size_t size) {
    return is_refused() ? NULL : __libc_realloc(block, size);
}
