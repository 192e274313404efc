/* reset PROGRAM [ARGUMENT..] <DATA
 *
 * Runs PROGRAM with a socket for standard input that gives DATA, at most 64 KiB, and then is reset, as by a peer that has
 * gone: the next read fails with ECONNRESET, and the one after it gives 0, as at an end. */
#include <stdio.h>
#include <sys/socket.h>
#include <unistd.h>

int main(int argc, char **argv)
{
    static char data[65536];
    int ends[2];
    ssize_t length = read(0, data, sizeof data);

    /* the end that is closed has a byte which it did not read: that makes it a reset */
    if (argc < 2 || length < 0 || socketpair(AF_UNIX, SOCK_STREAM, 0, ends) != 0
        || write(ends[0], data, (size_t)length) != length || write(ends[1], "", 1) != 1
        || close(ends[0]) != 0 || dup2(ends[1], 0) != 0 || close(ends[1]) != 0) {
        perror("reset");
        return 2;
    }
    execv(argv[1], argv + 1);
    perror(argv[1]);
    return 2;
}
