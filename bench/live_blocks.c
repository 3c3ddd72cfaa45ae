/* Put before the C library: at the first write to standard output it writes into the file that BLOCKS names how many
 * bytes each block of memory has that the program asked for and still has, one a line. */
#define _GNU_SOURCE
#include <stdint.h>
#include <stdio.h>
#include <stdlib.h>
#include <string.h>
#include <unistd.h>

enum { PLACES = 1 << 18 };

void *__libc_malloc(size_t);
void *__libc_realloc(void *, size_t);
void *__libc_calloc(size_t, size_t);
void *__libc_memalign(size_t, size_t);
void __libc_free(void *);
ssize_t __write(int, const void *, size_t);

/* The blocks, by a hash of their places. A block that was given back leaves a mark. */
static struct {
    uintptr_t block;
    size_t size;
} blocks[PLACES];
static int is_told;

static size_t place_of(uintptr_t block, int is_new) {
    size_t at = (block >> 4) * 0x9e3779b97f4a7c15u >> 46;
    while (blocks[at].block && blocks[at].block != block && !(is_new && blocks[at].block == 1))
        at = (at + 1) % PLACES;
    return at;
}

static void *add(void *block, size_t size) {
    if (block && !is_told) {
        size_t at = place_of((uintptr_t)block, 1);
        blocks[at].block = (uintptr_t)block;
        blocks[at].size = size;
    }
    return block;
}

static void take(void *block) {
    size_t at = place_of((uintptr_t)block, 0);
    if (block && !is_told && blocks[at].block)
        blocks[at].block = 1;
}

void *malloc(size_t size) { return add(__libc_malloc(size), size); }

void *calloc(size_t n, size_t size) { return add(__libc_calloc(n, size), n * size); }

void *realloc(void *old, size_t size) {
    take(old);
    return add(__libc_realloc(old, size), size);
}

void *aligned_alloc(size_t alignment, size_t size) { return add(__libc_memalign(alignment, size), size); }

int posix_memalign(void **block, size_t alignment, size_t size) {
    *block = add(__libc_memalign(alignment, size), size);
    return *block ? 0 : 12;
}

void free(void *block) {
    take(block);
    __libc_free(block);
}

static void tell(void) {
    is_told = 1;
    FILE *file = fopen(getenv("BLOCKS"), "w");
    for (size_t i = 0; file && i < PLACES; i++)
        if (blocks[i].block > 1)
            fprintf(file, "%zu\n", blocks[i].size);
    if (file)
        fclose(file);
}

ssize_t write(int fd, const void *bytes, size_t size) {
    if (fd == STDOUT_FILENO && !is_told)
        tell();
    return __write(fd, bytes, size);
}
