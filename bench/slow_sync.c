/* Slower syncs: preloaded, `fsync` and `fdatasync` do what they do, and then wait as many microseconds as SLOW_SYNC says.
 * Where COUNT_SYNCS names a file, its first 16 bytes are two numbers: how many syncs there were, of all processes that have this
 * preloaded, and how many nanoseconds they took with their waits. */

#define _GNU_SOURCE
#include <dlfcn.h>
#include <errno.h>
#include <fcntl.h>
#include <stdatomic.h>
#include <stdlib.h>
#include <sys/mman.h>
#include <time.h>
#include <unistd.h>

struct counts {
    _Atomic unsigned long long syncs, nanoseconds;
};

static struct counts *counts;

__attribute__((constructor)) static void find_counts(void)
{
    const char *path = getenv("COUNT_SYNCS");
    int file = path ? open(path, O_RDWR | O_CLOEXEC) : -1;
    if (file < 0)
        return;
    void *found = mmap(NULL, sizeof *counts, PROT_READ | PROT_WRITE, MAP_SHARED, file, 0);
    close(file);
    if (found != MAP_FAILED)
        counts = found;
}

static unsigned long long now(void)
{
    struct timespec found;
    clock_gettime(CLOCK_MONOTONIC, &found);
    return 1000000000ull * found.tv_sec + found.tv_nsec;
}

static int slow(const char *name, int file)
{
    int (*sync_file)(int) = (int (*)(int))dlsym(RTLD_NEXT, name);
    const char *micros = getenv("SLOW_SYNC");
    long wait = micros ? strtol(micros, NULL, 10) : 0;
    struct timespec left = {wait / 1000000, wait % 1000000 * 1000};
    unsigned long long began = now();
    int found = sync_file(file), fault = errno;
    while (wait > 0 && nanosleep(&left, &left) != 0 && errno == EINTR)
        ;
    if (counts) {
        counts->syncs++;
        counts->nanoseconds += now() - began;
    }
    errno = fault;
    return found;
}

int fsync(int file)
{
    return slow("fsync", file);
}

int fdatasync(int file)
{
    return slow("fdatasync", file);
}
