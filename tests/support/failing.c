/* Calls that fail: preloaded, the calls of one kind are counted from 1, and those from number FAILING_FROM to number FAILING_TO fail.
 * How many there were is written to the file FAILING_COUNTED at the end. The kind is FAILING_KIND:
 *     memory   allocations
 *     read     reads of input, sockets and files that are read from their start to their end
 *     write    writes of output, but for those of what tells of a fault, and of sockets
 *     store    reads, writes, cuts and syncs of files at a place
 *     sync     syncs of files
 * Where FAILING_BEHIND names a kind, too, none is counted before the first call of that. All but an allocation fail with the error
 * FAILING_ERROR; where that is 0 they read or write nothing, and fail not. What is random is the same in each run. */

#define _GNU_SOURCE
#include <errno.h>
#include <fcntl.h>
#include <stdio.h>
#include <stdlib.h>
#include <string.h>
#include <sys/socket.h>
#include <sys/syscall.h>
#include <unistd.h>

extern void *__libc_malloc(size_t);
extern void *__libc_calloc(size_t, size_t);
extern void *__libc_realloc(void *, size_t);

enum kind { NONE, MEMORY, READ, WRITE, STORE, SYNC };

static enum kind asked, behind;
static unsigned long from, to, count;
static int error;

static unsigned long number(const char *name)
{
    const char *text = getenv(name);
    return text ? strtoul(text, NULL, 10) : 0;
}

static enum kind kind_of(const char *name)
{
    static const char *const names[] = {"none", "memory", "read", "write", "store", "sync"};
    const char *text = getenv(name);
    for (enum kind kind = MEMORY; text && kind <= SYNC; kind++)
        if (strcmp(text, names[kind]) == 0)
            return kind;
    return NONE;
}

__attribute__((constructor)) static void begin(void)
{
    from = number("FAILING_FROM");
    to = number("FAILING_TO");
    error = (int)number("FAILING_ERROR");
    behind = kind_of("FAILING_BEHIND");
    asked = kind_of("FAILING_KIND");
}

__attribute__((destructor)) static void tell(void)
{
    const char *path = getenv("FAILING_COUNTED");
    char text[32];
    int size = snprintf(text, sizeof text, "%lu", count);
    int file = path ? (int)syscall(SYS_openat, AT_FDCWD, path, O_CREAT | O_TRUNC | O_WRONLY, 0600) : -1;
    if (file >= 0)
        syscall(SYS_write, file, text, size);
}

/* Whether this call of the kind is one that fails. */
static int fails(enum kind kind)
{
    if (kind == behind)
        behind = NONE;
    if (kind != asked || behind != NONE)
        return 0;
    count++;
    return from <= count && count <= to;
}

static void *no_memory(void)
{
    errno = ENOMEM;
    return NULL;
}

static long failed(void)
{
    errno = error;
    return error == 0 ? 0 : -1;
}

void *malloc(size_t size)
{
    return fails(MEMORY) ? no_memory() : __libc_malloc(size);
}

void *calloc(size_t items, size_t size)
{
    return fails(MEMORY) ? no_memory() : __libc_calloc(items, size);
}

void *realloc(void *place, size_t size)
{
    return fails(MEMORY) ? no_memory() : __libc_realloc(place, size);
}

ssize_t read(int file, void *buffer, size_t size)
{
    return fails(READ) ? failed() : syscall(SYS_read, file, buffer, size);
}

ssize_t recv(int file, void *buffer, size_t size, int flags)
{
    return fails(READ) ? failed() : syscall(SYS_recvfrom, file, buffer, size, flags, NULL, NULL);
}

ssize_t write(int file, const void *buffer, size_t size)
{
    return file != STDERR_FILENO && fails(WRITE) ? failed() : syscall(SYS_write, file, buffer, size);
}

ssize_t send(int file, const void *buffer, size_t size, int flags)
{
    return fails(WRITE) ? failed() : syscall(SYS_sendto, file, buffer, size, flags, NULL, 0);
}

ssize_t pread(int file, void *buffer, size_t size, off_t place)
{
    return fails(STORE) ? failed() : syscall(SYS_pread64, file, buffer, size, place);
}

ssize_t pwrite(int file, const void *buffer, size_t size, off_t place)
{
    return fails(STORE) ? failed() : syscall(SYS_pwrite64, file, buffer, size, place);
}

int ftruncate(int file, off_t size)
{
    return (int)(fails(STORE) ? failed() : syscall(SYS_ftruncate, file, size));
}

int fsync(int file)
{
    return (int)(fails(STORE) || fails(SYNC) ? failed() : syscall(SYS_fsync, file));
}

int fdatasync(int file)
{
    return (int)(fails(STORE) || fails(SYNC) ? failed() : syscall(SYS_fdatasync, file));
}

int getentropy(void *buffer, size_t size)
{
    memset(buffer, 0x5a, size);
    return 0;
}
