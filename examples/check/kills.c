// Ends the program that it is loaded into (LD_PRELOAD) at one of its calls on files, for kept.py: by
// SIGKILL before the call numbered AT, counted from 1, of write, pwrite, fsync, fdatasync, ftruncate
// and rename; or, where FAILS is set, that call fails and nothing is done, as on a bad disk. What goes to the standard
// streams isn't counted. Where TOLD is set, how many calls of fsync and fdatasync were made is written to that file
// descriptor when the program ends.
#define _GNU_SOURCE
#include <dlfcn.h>
#include <errno.h>
#include <signal.h>
#include <stdio.h>
#include <stdlib.h>
#include <sys/types.h>
#include <unistd.h>

static long calls, syncs;

// Whether this call fails.
static int counts(int file) {
    static long at = -1;
    if (file <= 2) return 0;
    if (at < 0) at = atol(getenv("AT"));
    if (++calls != at) return 0;
    if (!getenv("FAILS")) kill(getpid(), SIGKILL);
    errno = EIO;
    return 1;
}

#define NEXT(name) ((__typeof__(name) *)dlsym(RTLD_NEXT, #name))

ssize_t write(int file, const void *from, size_t size) {
    if (counts(file)) return -1;
    return NEXT(write)(file, from, size);
}

ssize_t pwrite(int file, const void *from, size_t size, off_t at) {
    if (counts(file)) return -1;
    return NEXT(pwrite)(file, from, size, at);
}

ssize_t pwrite64(int file, const void *from, size_t size, off64_t at) {
    if (counts(file)) return -1;
    return NEXT(pwrite64)(file, from, size, at);
}

int fsync(int file) {
    syncs++;
    if (counts(file)) return -1;
    return NEXT(fsync)(file);
}

int fdatasync(int file) {
    syncs++;
    if (counts(file)) return -1;
    return NEXT(fdatasync)(file);
}

int ftruncate(int file, off_t size) {
    if (counts(file)) return -1;
    return NEXT(ftruncate)(file, size);
}

int ftruncate64(int file, off64_t size) {
    if (counts(file)) return -1;
    return NEXT(ftruncate64)(file, size);
}

int rename(const char *from, const char *to) {
    if (counts(3)) return -1;
    return NEXT(rename)(from, to);
}

__attribute__((destructor)) static void told(void) {
    const char *to = getenv("TOLD");
    if (to) dprintf(atoi(to), "%ld\n", syncs);
}
