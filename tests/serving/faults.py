"""A server whose memory and system calls are refused or held up, by number, while it runs: a library before the C library
does it."""
import mmap
import pathlib
import struct
import subprocess
from typing import Dict

from checks import Failed

# Of each kind calls are counted, and those from the first to the last are refused with an error's number, or, where there
# are milliseconds, held up for so long.
KINDS = "memory", "receive", "send", "datagram", "bind", "words", "accept", "thread", "clock"
PLAN = struct.Struct("@5L")
FOR_EVER = (1 << 63) - 1

LIBRARY = r"""
#define _GNU_SOURCE
#include <dlfcn.h>
#include <errno.h>
#include <fcntl.h>
#include <link.h>
#include <pthread.h>
#include <stdlib.h>
#include <sys/mman.h>
#include <sys/socket.h>
#include <sys/syscall.h>
#include <time.h>
#include <unistd.h>

enum { MEMORY, RECEIVE, SEND, DATAGRAM, BIND, WORDS, ACCEPT, THREAD, CLOCK, KINDS };

/* As many random bytes are read at once. */
enum { POOL = 32 };

struct plan { unsigned long asked, first, last, error, milliseconds; };

static struct plan none[KINDS], *plans = none;
static unsigned long low, high;

/* The first object is the program: only its own allocations count. */
static int note(struct dl_phdr_info *info, size_t size, void *data) {
    (void)size, (void)data;
    for (int i = 0; i < info->dlpi_phnum; i++) {
        unsigned long start = info->dlpi_addr + info->dlpi_phdr[i].p_vaddr;
        if (info->dlpi_phdr[i].p_type != PT_LOAD)
            continue;
        if (!low)
            low = start;
        high = start + info->dlpi_phdr[i].p_memsz;
    }
    return 1;
}

__attribute__((constructor)) static void begin(void) {
    int file = open(getenv("FAULTS"), O_RDWR);
    void *mapped = mmap(0, sizeof none, PROT_READ | PROT_WRITE, MAP_SHARED, file, 0);
    close(file);
    if (mapped == MAP_FAILED)
        abort();
    plans = mapped;
    dl_iterate_phdr(note, 0);
}

static int is_refused(int kind) {
    unsigned long number = __atomic_add_fetch(&plans[kind].asked, 1, __ATOMIC_SEQ_CST);
    if (number < plans[kind].first || number > plans[kind].last)
        return 0;
    unsigned long milliseconds = plans[kind].milliseconds;
    if (milliseconds) {
        struct timespec time = {milliseconds / 1000, milliseconds % 1000 * 1000000};
        syscall(SYS_nanosleep, &time, 0);
        return 0;
    }
    errno = plans[kind].error;
    return 1;
}

static int has_none(void *caller) {
    unsigned long at = (unsigned long)caller;
    return low <= at && at < high && is_refused(MEMORY);
}

void *__libc_malloc(size_t);
void *__libc_realloc(void *, size_t);
void *__libc_calloc(size_t, size_t);

void *malloc(size_t size) { return has_none(__builtin_return_address(0)) ? 0 : __libc_malloc(size); }
void *realloc(void *old, size_t size) { return has_none(__builtin_return_address(0)) ? 0 : __libc_realloc(old, size); }
void *calloc(size_t n, size_t size) { return has_none(__builtin_return_address(0)) ? 0 : __libc_calloc(n, size); }

static int is_stream(int fd) {
    int type = 0;
    socklen_t size = sizeof type;
    getsockopt(fd, SOL_SOCKET, SO_TYPE, &type, &size);
    return type == SOCK_STREAM;
}

ssize_t recv(int fd, void *to, size_t size, int flags) {
    return is_refused(RECEIVE) ? -1 : syscall(SYS_recvfrom, fd, to, size, flags, 0, 0);
}

ssize_t send(int fd, const void *from, size_t size, int flags) {
    return is_refused(is_stream(fd) ? SEND : DATAGRAM) ? -1 : syscall(SYS_sendto, fd, from, size, flags, 0, 0);
}

int bind(int fd, const struct sockaddr *address, socklen_t size) {
    return !is_stream(fd) && is_refused(BIND) ? -1 : syscall(SYS_bind, fd, address, size);
}

/* Where words are refused, half of them come. */
ssize_t read(int fd, void *to, size_t size) {
    return syscall(SYS_read, fd, to, size == POOL && is_refused(WORDS) ? size / 2 : size);
}

int accept4(int fd, struct sockaddr *address, socklen_t *size, int flags) {
    return is_refused(ACCEPT) ? -1 : syscall(SYS_accept4, fd, address, size, flags);
}

int clock_gettime(clockid_t clock, struct timespec *time) {
    return is_refused(CLOCK) ? -1 : (int)syscall(SYS_clock_gettime, clock, time);
}

/* It returns the error's number, and makes a thread by the C library's own function, which is the next one. */
int pthread_create(pthread_t *made, const pthread_attr_t *how, void *(*body)(void *), void *with) {
    int (*next)(pthread_t *, const pthread_attr_t *, void *(*)(void *), void *) = dlsym(RTLD_NEXT, "pthread_create");
    return is_refused(THREAD) ? (int)plans[THREAD].error : next(made, how, body, with);
}
"""


class Faults:
    """What a server is refused. The files for it are in a folder of the test's."""

    def __init__(self, folder: pathlib.Path) -> None:
        library, plans = folder / "faults.so", folder / "faults"
        words = ["gcc", "-O2", "-shared", "-fPIC", "-x", "c", "-", "-o", library]
        if subprocess.run(words, input=LIBRARY.encode()).returncode:
            raise Failed("gcc didn't make the library that refuses calls")
        plans.write_bytes(bytes(PLAN.size * len(KINDS)))
        with open(plans, "r+b") as file:
            self.plans = mmap.mmap(file.fileno(), 0)
        self.environment: Dict[str, str] = {"LD_PRELOAD": str(library), "FAULTS": str(plans)}

    def refuse(self, kind: str, first: int, last: int = FOR_EVER, error: int = 0) -> None:
        """From now on counts the calls of a kind anew, and refuses those from the first to the last."""
        self._plan(kind, first, last, error, 0)

    def hold(self, kind: str, milliseconds: int, first: int = 1, last: int = 1) -> None:
        """From now on counts the calls of a kind anew; those from the first to the last stand for so long, and go on."""
        self._plan(kind, first, last, 0, milliseconds)

    def _plan(self, kind: str, first: int, last: int, error: int, milliseconds: int) -> None:
        at = KINDS.index(kind) * PLAN.size
        self.plans[at : at + PLAN.size] = PLAN.pack(0, 0, 0, error, milliseconds)
        self.plans[at : at + PLAN.size] = PLAN.pack(0, first, last, error, milliseconds)

    def stop(self) -> None:
        """Refuses nothing more."""
        for kind in KINDS:
            self.refuse(kind, 0, 0)

    def asked(self, kind: str) -> int:
        """How many calls of a kind there were since that was last asked for."""
        return PLAN.unpack_from(self.plans, KINDS.index(kind) * PLAN.size)[0]
