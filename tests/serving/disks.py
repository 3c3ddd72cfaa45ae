"""A server whose files of the journal meet a bad disk while it runs, or one of its media a slow one: a library before the
C library makes one of it."""
import mmap
import pathlib
import struct
import subprocess
from typing import Dict

from checks import Failed

# Of each kind calls are counted, and those from the first to the last are made late by milliseconds, and then refused
# with an error's number. Where there is a number of bytes the first of them takes so many at most, and without an error
# the others too. The milliseconds of the time of day are added to it.
# A read is one of the media slow.raw, of what wasn't read before: the system keeps what was, and 128 KiB about it. Of the
# media forgotten.raw it keeps nothing, nor of a file of users or the configuration. An opening is one of the media
# late.raw.
KINDS = "write", "create", "sync", "time of day", "read", "read of what is forgotten", "opening"
PLAN = struct.Struct("@5Lq")
FOR_EVER = (1 << 63) - 1

LIBRARY = r"""
#define _GNU_SOURCE
#include <errno.h>
#include <fcntl.h>
#include <stdarg.h>
#include <stdio.h>
#include <stdlib.h>
#include <string.h>
#include <sys/mman.h>
#include <sys/syscall.h>
#include <time.h>
#include <unistd.h>

enum { WRITE, CREATE, SYNC, TIME_OF_DAY, READ, FORGOTTEN, OPENING, KINDS };

struct plan { unsigned long asked, first, last, error, most; long milliseconds; };

static struct plan none[KINDS], *plans = none;

__attribute__((constructor)) static void begin(void) {
    int file = syscall(SYS_openat, AT_FDCWD, getenv("DISK"), O_RDWR);
    void *mapped = mmap(0, sizeof none, PROT_READ | PROT_WRITE, MAP_SHARED, file, 0);
    close(file);
    if (mapped == MAP_FAILED)
        abort();
    plans = mapped;
}

static int is_journal(const char *path) { return strstr(path, "/journal-") && strstr(path, ".txt"); }

static int is_named(const char *path, const char *wanted) {
    const char *name = strrchr(path, '/');
    return !strcmp(name ? name + 1 : path, wanted);
}

static int is_slow(const char *path) { return is_named(path, "slow.raw"); }

static int is_forgotten(const char *path) { return is_named(path, "forgotten.raw") || is_named(path, "users") || is_named(path, "server.toml"); }

/* Whether the path of what is open is one of these. */
static int is_one(int fd, int (*is_meant)(const char *path)) {
    char name[32], path[4096];
    snprintf(name, sizeof name, "/proc/self/fd/%d", fd);
    ssize_t length = readlink(name, path, sizeof path - 1);
    path[length < 0 ? 0 : length] = 0;
    return is_meant(path);
}

static int is_journals(int fd) { return is_one(fd, is_journal); }

/* Counts a call, makes it late, and takes something of its size. Whether it is refused. */
static int is_refused(int kind, size_t *size) {
    unsigned long number = __atomic_add_fetch(&plans[kind].asked, 1, __ATOMIC_SEQ_CST);
    struct plan plan = plans[kind];
    if (number < plan.first || number > plan.last)
        return 0;
    struct timespec time = {plan.milliseconds / 1000, plan.milliseconds % 1000 * 1000000};
    syscall(SYS_nanosleep, &time, 0);
    if (plan.error && !(plan.most && number == plan.first)) {
        errno = plan.error;
        return 1;
    }
    if (plan.most && plan.most < *size)
        *size = plan.most;
    return 0;
}

ssize_t write(int fd, const void *from, size_t size) {
    return is_journals(fd) && is_refused(WRITE, &size) ? -1 : syscall(SYS_write, fd, from, size);
}

/* Whether a read is the first one in a piece of the file. */
static int is_new(size_t size, off64_t at) {
    static char kept[1 << 16];
    int is_first = 0;
    for (off64_t piece = at >> 17; piece <= (off64_t)(at + size - 1) >> 17; piece++)
        is_first |= !__atomic_exchange_n(&kept[piece & 0xffff], 1, __ATOMIC_SEQ_CST);
    return is_first;
}

ssize_t pread64(int fd, void *to, size_t size, off64_t at) {
    int is_held = is_one(fd, is_slow) && is_new(size, at) && is_refused(READ, &size);
    is_held |= is_one(fd, is_forgotten) && is_refused(FORGOTTEN, &size);
    return is_held ? -1 : syscall(SYS_pread64, fd, to, size, at);
}

ssize_t pread(int fd, void *to, size_t size, off_t at) { return pread64(fd, to, size, at); }

int open(const char *path, int flags, ...) {
    size_t size = 0;
    va_list more;
    va_start(more, flags);
    int mode = flags & O_CREAT ? va_arg(more, int) : 0;
    va_end(more);
    if (flags & O_CREAT && is_journal(path) && is_refused(CREATE, &size))
        return -1;
    if (!(flags & O_CREAT) && is_named(path, "late.raw") && is_refused(OPENING, &size))
        return -1;
    return syscall(SYS_openat, AT_FDCWD, path, flags, mode);
}

static int synced(int number, int fd) {
    size_t size = 0;
    return is_journals(fd) && is_refused(SYNC, &size) ? -1 : (int)syscall(number, fd);
}

int fsync(int fd) { return synced(SYS_fsync, fd); }

int fdatasync(int fd) { return synced(SYS_fdatasync, fd); }

int clock_gettime(clockid_t clock, struct timespec *time) {
    int status = syscall(SYS_clock_gettime, clock, time);
    if (clock == CLOCK_REALTIME)
        time->tv_sec += plans[TIME_OF_DAY].milliseconds / 1000;
    return status;
}
"""


class Disk:
    """What a server's files of the journal, or one of its media, meet. Its own files are in a folder of the test's."""

    def __init__(self, folder: pathlib.Path) -> None:
        library, plans = folder / "disk.so", folder / "disk"
        words = ["gcc", "-O2", "-Wall", "-Werror", "-shared", "-fPIC", "-x", "c", "-", "-o", library]
        if subprocess.run(words, input=LIBRARY.encode()).returncode:
            raise Failed("gcc didn't make the library that makes a bad disk")
        plans.write_bytes(bytes(PLAN.size * len(KINDS)))
        with open(plans, "r+b") as file:
            self.plans = mmap.mmap(file.fileno(), 0)
        self.environment: Dict[str, str] = {"LD_PRELOAD": str(library), "DISK": str(plans)}

    def meet(
        self, kind: str, first: int = 1, last: int = FOR_EVER, error: int = 0, most: int = 0, late: int = 0
    ) -> None:
        """From now on counts the calls of a kind anew; those from the first to the last meet this."""
        at = KINDS.index(kind) * PLAN.size
        self.plans[at : at + PLAN.size] = PLAN.pack(0, 0, 0, error, most, late)
        self.plans[at : at + PLAN.size] = PLAN.pack(0, first, last, error, most, late)

    def mend(self) -> None:
        """Nothing is wrong any more."""
        for kind in KINDS:
            self.meet(kind, 0, 0)

    def asked(self, kind: str) -> int:
        """How many calls of a kind there were since it was last said what they meet."""
        return PLAN.unpack_from(self.plans, KINDS.index(kind) * PLAN.size)[0]
