// Runs a program on the bytes of standard input; the read after them fails.
//
//     failing PROGRAM < FILE
//
// The program reads a socket. The other end is closed with a byte unread, which
// Linux reports as an error once all bytes sent have been read.
#define _POSIX_C_SOURCE 200809L
#include <stdio.h>
#include <sys/socket.h>
#include <unistd.h>

int main(int count, char **words)
{
    static char bytes[1 << 16];
    size_t length = fread(bytes, 1, sizeof bytes, stdin);
    if (count != 2 || length == 0 || length == sizeof bytes) {
        fprintf(stderr, "failing: a program and from 1 to %zu bytes are needed\n", sizeof bytes - 1);
        return 2;
    }
    enum { INPUT, OTHER };
    int sockets[2];
    if (socketpair(AF_UNIX, SOCK_STREAM, 0, sockets) == 0
        && write(sockets[OTHER], bytes, length) == (ssize_t)length
        && write(sockets[INPUT], bytes, 1) == 1
        && close(sockets[OTHER]) == 0
        && dup2(sockets[INPUT], STDIN_FILENO) == STDIN_FILENO
        && close(sockets[INPUT]) == 0) {
        execvp(words[1], words + 1);
    }
    perror("failing");
    return 1;
}
