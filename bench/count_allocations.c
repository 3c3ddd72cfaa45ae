/* Put before the C library: counts the program's own calls for memory, and at its end writes into the file that
 * ALLOCATIONS names how many it had made at each write to standard output. */
#define _GNU_SOURCE
#include <link.h>
#include <stdio.h>
#include <stdlib.h>
#include <sys/syscall.h>
#include <unistd.h>

enum { WRITES = 1 << 20 };

static unsigned long low, high, made, at_write[WRITES];
static unsigned long writes;

/* The first object is the program: only its own calls count. */
static int note(struct dl_phdr_info *info, size_t size, void *data) {
    (void)size, (void)data;
    for (int i = 0; i < info->dlpi_phnum; i++) {
        unsigned long start = info->dlpi_addr + info->dlpi_phdr[i].p_vaddr;
        if (info->dlpi_phdr[i].p_type != PT_LOAD)
            continue;
        if (!low)
            low = start;
        high = start + info->dlpi_phdr[i].p_memsz;
    }
    return 1;
}

__attribute__((constructor)) static void begin(void) { dl_iterate_phdr(note, 0); }

__attribute__((destructor)) static void end(void) {
    FILE *file = fopen(getenv("ALLOCATIONS"), "w");
    for (unsigned long i = 0; file && i < writes; i++)
        fprintf(file, "%lu\n", at_write[i]);
    if (file)
        fclose(file);
}

/* A program that ends by this runs no destructors. */
void _exit(int status) {
    end();
    syscall(SYS_exit_group, status);
    __builtin_unreachable();
}

static void count(void *caller) {
    unsigned long at = (unsigned long)caller;
    made += at >= low && at < high;
}

void *__libc_malloc(size_t);
void *__libc_realloc(void *, size_t);
void *__libc_calloc(size_t, size_t);

void *malloc(size_t size) {
    count(__builtin_return_address(0));
    return __libc_malloc(size);
}

void *realloc(void *old, size_t size) {
    count(__builtin_return_address(0));
    return __libc_realloc(old, size);
}

void *calloc(size_t n, size_t size) {
    count(__builtin_return_address(0));
    return __libc_calloc(n, size);
}

ssize_t __write(int, const void *, size_t);

ssize_t write(int fd, const void *bytes, size_t size) {
    if (fd == STDOUT_FILENO && writes < WRITES)
        at_write[writes++] = made;
    return __write(fd, bytes, size);
}
