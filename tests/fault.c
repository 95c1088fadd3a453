/* Refuses one call of a program: the request for memory, the read or the write of one number, counted from 0. It is loaded
   before the C library (LD_PRELOAD); tests/faults.py sets the variables and reads the counts.

   FAULT_KIND    memory, read, write, or none
   FAULT_AT      the number of the call that is refused
   FAULT_COUNTS  a file of three numbers of 8 bytes, in which the calls of each kind are counted as they come

   A refused request for memory gives no memory, a refused read or write fails with EIO. Calls that a program makes before
   it takes its first argument (the loader's own) go past this library and aren't counted. */
#define _GNU_SOURCE
#include <errno.h>
#include <fcntl.h>
#include <stdint.h>
#include <stdlib.h>
#include <string.h>
#include <sys/mman.h>
#include <sys/syscall.h>
#include <unistd.h>

enum kind { MEMORY, READ, WRITE, KINDS };

static uint64_t own[KINDS];
static volatile uint64_t *counts = own;
static int refused = KINDS;
static uint64_t refused_at;

extern void *__libc_malloc(size_t size);
extern void *__libc_realloc(void *old, size_t size);

__attribute__((constructor)) static void begin(void)
{
    static const char *const names[KINDS] = {"memory", "read", "write"};
    const char *kind = getenv("FAULT_KIND"), *at = getenv("FAULT_AT"), *path = getenv("FAULT_COUNTS");
    int kinds;
    if (path) {
        int fd = open(path, O_RDWR);
        void *shared = mmap(0, sizeof own, PROT_READ | PROT_WRITE, MAP_SHARED, fd, 0);
        if (shared != MAP_FAILED)
            counts = shared;
        close(fd);
    }
    for (kinds = 0; kinds < KINDS; kinds++) {
        counts[kinds] = 0;
        if (kind && at && !strcmp(kind, names[kinds])) {
            refused = kinds;
            refused_at = strtoull(at, 0, 10);
        }
    }
}

static int is_refused(enum kind kind)
{
    return counts[kind]++ == refused_at && refused == (int)kind;
}

void *malloc(size_t size)
{
    return is_refused(MEMORY) ? 0 : __libc_malloc(size);
}

void *realloc(void *old, size_t size)
{
    return is_refused(MEMORY) ? 0 : __libc_realloc(old, size);
}

ssize_t read(int fd, void *into, size_t size)
{
    if (is_refused(READ)) {
        errno = EIO;
        return -1;
    }
    return syscall(SYS_read, fd, into, size);
}

ssize_t write(int fd, const void *from, size_t size)
{
    if (is_refused(WRITE)) {
        errno = EIO;
        return -1;
    }
    return syscall(SYS_write, fd, from, size);
}

ssize_t __write(int fd, const void *from, size_t size)
{
    return write(fd, from, size);
}
