// Refuses one call of the program that it is loaded into (LD_PRELOAD), for faults.py.
//
//     CALL   malloc, read, write, tell, socket, bind, setsockopt, sendto or recvfrom
//     AT     the first call that is refused, counted from 1; malloc counts reallocations too, write
//            counts writes on standard output and tell those on standard error
//     MANY   how many are refused from there on
//     ERROR  the errno of a refusal; 0 lets sendto send all, and say that it took an octet less
//     SHORT  where it is set, reads and writes of the standard streams move one octet each
//
// For each refusal an octet is written to the file descriptor TOLD. Where WAITS is set, it is a file
// descriptor to which each receive that waits writes a line: how many microseconds the socket was last
// told to wait, 0 being without limit. Where STEP is set, the machine's clock stands at
// 2024-05-06T07:08:09 UTC, and goes on by so many hundredths of a second before each look at it.
#define _GNU_SOURCE
#include <dlfcn.h>
#include <errno.h>
#include <fcntl.h>
#include <stdio.h>
#include <stdlib.h>
#include <string.h>
#include <sys/socket.h>
#include <sys/syscall.h>
#include <sys/time.h>
#include <sys/types.h>
#include <time.h>
#include <unistd.h>

static long number(const char *name) {
    const char *text = getenv(name);
    return text ? atol(text) : 0;
}

static int refuses(const char *call) {
    static long calls;
    const char *asked = getenv("CALL");
    if (!asked || strcmp(asked, call) != 0) return 0;
    calls++;
    if (calls < number("AT") || calls >= number("AT") + number("MANY")) return 0;
    syscall(SYS_write, (int)number("TOLD"), "x", 1);
    errno = (int)number("ERROR");
    return 1;
}

// One octet of each transfer over the standard streams, if that is asked for.
static size_t moved(int file, size_t size) { return file <= 2 && size > 1 && getenv("SHORT") ? 1 : size; }

#define NEXT(name) ((__typeof__(name) *)dlsym(RTLD_NEXT, #name))

void *malloc(size_t size) {
    static __typeof__(malloc) *next;
    if (!next) next = NEXT(malloc);
    return refuses("malloc") ? NULL : next(size);
}

void *realloc(void *at, size_t size) {
    static __typeof__(realloc) *next;
    if (!next) next = NEXT(realloc);
    return refuses("malloc") ? NULL : next(at, size);
}

ssize_t read(int file, void *to, size_t size) {
    return refuses("read") ? -1 : NEXT(read)(file, to, moved(file, size));
}

ssize_t write(int file, const void *from, size_t size) {
    if (file == 1 && refuses("write")) return -1;
    if (file == 2 && refuses("tell")) return -1;
    return NEXT(write)(file, from, moved(file, size));
}

int socket(int domain, int type, int protocol) {
    return refuses("socket") ? -1 : NEXT(socket)(domain, type, protocol);
}

int bind(int file, const struct sockaddr *at, socklen_t size) {
    return refuses("bind") ? -1 : NEXT(bind)(file, at, size);
}

// What the socket was last told to wait.
static struct timeval waits;

int setsockopt(int file, int level, int name, const void *value, socklen_t size) {
    if (level == SOL_SOCKET && name == SO_RCVTIMEO && size == sizeof waits) memcpy(&waits, value, size);
    return refuses("setsockopt") ? -1 : NEXT(setsockopt)(file, level, name, value, size);
}

ssize_t sendto(int file, const void *octets, size_t size, int flags, const struct sockaddr *to,
               socklen_t length) {
    if (!refuses("sendto")) return NEXT(sendto)(file, octets, size, flags, to, length);
    if (errno) return -1;
    return NEXT(sendto)(file, octets, size, flags, to, length) - 1;
}

ssize_t recvfrom(int file, void *octets, size_t size, int flags, struct sockaddr *from,
                 socklen_t *length) {
    if (getenv("WAITS") && !(fcntl(file, F_GETFL) & O_NONBLOCK))
        dprintf((int)number("WAITS"), "%lld\n", (long long)waits.tv_sec * 1000000 + waits.tv_usec);
    return refuses("recvfrom") ? -1 : NEXT(recvfrom)(file, octets, size, flags, from, length);
}

int clock_gettime(clockid_t clock, struct timespec *now) {
    static long looks;
    if (clock != CLOCK_REALTIME || !getenv("STEP")) return (int)syscall(SYS_clock_gettime, clock, now);
    looks++;
    now->tv_sec = 1714979289 + looks * number("STEP") / 100;
    now->tv_nsec = looks * number("STEP") % 100 * 10000000;
    return 0;
}
