/* Preloaded (LD_PRELOAD), it sends signals into the reads and writes of the program that FAULT_IN names. FAULT is
 *   interrupted   each call is interrupted at first, then moves 100 bytes at most
 *   killed        the first write to standard output kills the program */
#define _GNU_SOURCE
#include <errno.h>
#include <signal.h>
#include <stdlib.h>
#include <string.h>
#include <sys/syscall.h>
#include <unistd.h>

static int has(const char *fault)
{
    const char *in = getenv("FAULT_IN"), *wanted = getenv("FAULT");

    return in && wanted && strcmp(in, program_invocation_short_name) == 0 && strcmp(wanted, fault) == 0;
}

static ssize_t moved(long call, int fd, void *bytes, size_t count)
{
    static int calls;

    if (!has("interrupted"))
        return syscall(call, fd, bytes, count);
    if (calls++ % 2 == 0) {
        errno = EINTR;
        return -1;
    }
    return syscall(call, fd, bytes, count < 100 ? count : 100);
}

ssize_t read(int fd, void *bytes, size_t count)
{
    return moved(SYS_read, fd, bytes, count);
}

ssize_t write(int fd, const void *bytes, size_t count)
{
    if (fd == STDOUT_FILENO && has("killed"))
        raise(SIGKILL);
    return moved(SYS_write, fd, (void *)bytes, count);
}
