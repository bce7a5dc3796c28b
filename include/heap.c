/*
 * The three calls that a proved archive makes of the C library, for a processor of which the toolchain has no copy of them. They
 * answer whether there is memory, and the pointer; without memory it points to a byte that nobody owns.
 */
#include <stdbool.h>
#include <stddef.h>
#include <stdlib.h>

struct tried {
    bool ok;
    void *at;
};

static char nowhere;

static struct tried tried(void *at)
{
    struct tried found = {at != NULL, at != NULL ? at : &nowhere};
    return found;
}

struct tried rattle_alloc(size_t size, size_t align)
{
    return tried(malloc(size != 0 ? size : align));
}

struct tried rattle_realloc(void *at, size_t old, size_t size, size_t align)
{
    (void)old;
    return tried(realloc(at, size != 0 ? size : align));
}

void rattle_dealloc(void *at)
{
    free(at);
}
