/* Counts the calls of the C library's allocation, and lets them fail. */
#include "counted.h"

void *__real_malloc(size_t size);
void *__real_calloc(size_t count, size_t size);
void *__real_realloc(void *block, size_t size);
void __real_free(void *block);

void *__wrap_malloc(size_t size);
void *__wrap_calloc(size_t count, size_t size);
void *__wrap_realloc(void *block, size_t size);
void __wrap_free(void *block);

unsigned long allocations, frees, blocks, failing;

static int fails(void)
{
    allocations++;
    return failing != 0 && allocations >= failing;
}

static void *counted(void *block)
{
    if (block != NULL)
        blocks++;
    return block;
}

void *__wrap_malloc(size_t size)
{
    return fails() ? NULL : counted(__real_malloc(size));
}

void *__wrap_calloc(size_t count, size_t size)
{
    return fails() ? NULL : counted(__real_calloc(count, size));
}

void *__wrap_realloc(void *block, size_t size)
{
    if (fails())
        return NULL;
    void *moved = __real_realloc(block, size);
    if (block == NULL)
        counted(moved);
    return moved;
}

void __wrap_free(void *block)
{
    if (block != NULL) {
        frees++;
        blocks--;
    }
    __real_free(block);
}

uint8_t *read_argument(int argc, char **argv, size_t *length)
{
    static uint8_t bytes[1 << 20];
    FILE *file = argc > 1 ? fopen(argv[1], "rb") : NULL;
    if (file == NULL) {
        fprintf(stderr, "usage: %s PACK\n", argv[0]);
        exit(2);
    }
    *length = fread(bytes, 1, sizeof bytes, file);
    fclose(file);
    return bytes;
}
