/* Runs a program on an input that breaks: broken FILE BYTES PROGRAM [WORD ...]
 * Its standard input gives the first BYTES bytes of FILE, and then every read of it fails (EIO). It is one side of a terminal whose other side is closed. */
#define _GNU_SOURCE
#include <fcntl.h>
#include <stdio.h>
#include <stdlib.h>
#include <termios.h>
#include <unistd.h>

static void stop(const char *what) {
    perror(what);
    exit(125);
}

int main(int argc, char **argv) {
    if (argc < 4) {
        fputs("usage: broken FILE BYTES PROGRAM [WORD ...]\n", stderr);
        return 125;
    }
    int file = open(argv[1], O_RDONLY), left = atoi(argv[2]), near = posix_openpt(O_RDWR | O_NOCTTY);
    if (file < 0) stop(argv[1]);
    if (near < 0 || grantpt(near) || unlockpt(near)) stop("a terminal");
    int far = open(ptsname(near), O_RDWR | O_NOCTTY);
    struct termios raw;
    if (far < 0 || tcgetattr(far, &raw)) stop("its other side");
    cfmakeraw(&raw);
    if (tcsetattr(far, TCSANOW, &raw)) stop("its other side");
    if (fork() == 0) {
        char block[512];
        close(near);
        while (left > 0) {
            ssize_t n = read(file, block, left < 512 ? (size_t)left : 512);
            if (n <= 0 || write(far, block, (size_t)n) != n) stop("writing");
            left -= (int)n;
        }
        return 0;
    }
    close(far);
    close(file);
    if (dup2(near, 0) < 0) stop("standard input");
    close(near);
    execvp(argv[3], argv + 3);
    stop(argv[3]);
}
