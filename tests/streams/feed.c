// Copies standard input to a pipe, so many bytes at a time, each part only once
// the reader has taken the one before: each of its reads finds one part. Ends
// with status 1 where the reader goes before it has taken all.
//
//     feed BYTES < FILE | PROGRAM
#define _POSIX_C_SOURCE 200809L
#include <poll.h>
#include <signal.h>
#include <stdbool.h>
#include <stdio.h>
#include <stdlib.h>
#include <sys/ioctl.h>
#include <time.h>
#include <unistd.h>

// Whether the pipe has no reader any more, which poll reports as an error.
static bool reader_gone(void)
{
    struct pollfd pipe = {.fd = STDOUT_FILENO};
    return poll(&pipe, 1, 0) > 0;
}

// Answers whether all that was written is taken. What is left is looked at
// after the reader, which may have taken it and gone.
static bool wait_until_taken(void)
{
    for (;;) {
        bool gone = reader_gone();
        int left = 0;
        if (ioctl(STDOUT_FILENO, FIONREAD, &left) != 0) {
            return false;
        }
        if (gone || left == 0) {
            return left == 0;
        }
        nanosleep(&(struct timespec){.tv_nsec = 1000}, NULL);
    }
}

int main(int count, char **words)
{
    static char part[1 << 16];
    size_t size = count == 2 ? strtoul(words[1], NULL, 10) : 0;
    if (size == 0 || size > sizeof part) {
        fprintf(stderr, "feed: a number of bytes from 1 to %zu is needed\n", sizeof part);
        return 2;
    }
    // A write that finds no reader is to fail, and not to end the program.
    signal(SIGPIPE, SIG_IGN);
    for (;;) {
        size_t got = fread(part, 1, size, stdin);
        if (got == 0) {
            return 0;
        }
        if (write(STDOUT_FILENO, part, got) != (ssize_t)got || !wait_until_taken()) {
            fputs("feed: the reader has not taken all bytes\n", stderr);
            return 1;
        }
    }
}
