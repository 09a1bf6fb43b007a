/* A read and a write for the script program that misbehave, to be loaded before the C library's own. FAULTS says how:
 *     SEED CALL ERROR
 * By the seed, calls on standard input and output move fewer bytes than they could, are interrupted, or would have to wait. From the
 * CALL-th one on, counted from 1 over both, each fails with the error; 0 stands for none, and error 0 for a call that moves nothing. */
#define _GNU_SOURCE
#include <errno.h>
#include <stdio.h>
#include <stdlib.h>
#include <sys/syscall.h>
#include <unistd.h>

static unsigned long state, calls, failing;
static int error;

static unsigned long dice(unsigned long sides)
{
    state = state * 6364136223846793005ul + 1442695040888963407ul;
    return (state >> 33) % sides;
}

/* How many bytes a call moves: -1 for none, with errno set. */
static ssize_t moved(size_t most)
{
    if (!state && sscanf(getenv("FAULTS"), "%lu %lu %d", &state, &failing, &error) != 3)
        abort();
    if (++calls >= failing && failing) {
        errno = error;
        return error ? -1 : 0;
    }
    switch (dice(4)) {
    case 0: errno = EINTR; return -1;
    case 1: errno = EAGAIN; return -1;
    case 2: return most ? 1 + dice(most) : 0;
    default: return most;
    }
}

ssize_t read(int fd, void *bytes, size_t most)
{
    ssize_t some = fd == 0 ? moved(most) : (ssize_t)most;
    return some > 0 ? syscall(SYS_read, fd, bytes, some) : some;
}

ssize_t write(int fd, const void *bytes, size_t most)
{
    ssize_t some = fd == 1 ? moved(most) : (ssize_t)most;
    return some > 0 ? syscall(SYS_write, fd, bytes, some) : some;
}
