/* Runs a program on a file that is cut while it is read: shrink FILE BYTES PROGRAM [WORD ...]
 * FILE is its standard input, and is cut to BYTES bytes as soon as the program, or one that it starts, has read more than a page of it: what it reads then is no
 * file that ever was. The program is traced, system call by system call, up to there. */
#define _GNU_SOURCE
#include <fcntl.h>
#include <signal.h>
#include <stdio.h>
#include <stdlib.h>
#include <sys/ptrace.h>
#include <sys/syscall.h>
#include <sys/wait.h>
#include <unistd.h>

static void stop(const char *what) {
    perror(what);
    exit(125);
}

/* whether a call that has just ended was a read of standard input that gave more than a page; which call a process is in is kept by its number */
static int read_much(pid_t who, unsigned char *reading) {
    struct __ptrace_syscall_info info;
    if (ptrace(PTRACE_GET_SYSCALL_INFO, who, sizeof info, &info) <= 0) return 0;
    if (info.op == PTRACE_SYSCALL_INFO_ENTRY) reading[who % 65536] = info.entry.nr == SYS_read && info.entry.args[0] == 0;
    return info.op == PTRACE_SYSCALL_INFO_EXIT && reading[who % 65536] && info.exit.rval > 4096;
}

int main(int argc, char **argv) {
    static unsigned char reading[65536];
    int status, cut = 0, ended = 125, options = PTRACE_O_TRACESYSGOOD | PTRACE_O_TRACEFORK | PTRACE_O_TRACEVFORK | PTRACE_O_TRACECLONE | PTRACE_O_TRACEEXEC;
    if (argc < 4) {
        fputs("usage: shrink FILE BYTES PROGRAM [WORD ...]\n", stderr);
        return 125;
    }
    int file = open(argv[1], O_RDONLY);
    if (file < 0) stop(argv[1]);
    pid_t first = fork();
    if (first == 0) {
        if (dup2(file, 0) < 0 || ptrace(PTRACE_TRACEME, 0, 0, 0) < 0 || raise(SIGSTOP)) stop("tracing");
        execvp(argv[3], argv + 3);
        stop(argv[3]);
    }
    if (first < 0 || waitpid(first, &status, 0) < 0 || ptrace(PTRACE_SETOPTIONS, first, 0, options) < 0 || ptrace(PTRACE_SYSCALL, first, 0, 0) < 0) stop("tracing");
    for (pid_t who; (who = waitpid(-1, &status, __WALL)) > 0;) {
        if (WIFEXITED(status) || WIFSIGNALED(status)) {
            if (who == first) ended = WIFEXITED(status) ? WEXITSTATUS(status) : 128 + WTERMSIG(status);
            continue;
        }
        int signal = WSTOPSIG(status);
        if (signal == (SIGTRAP | 0x80)) {
            if (!cut && read_much(who, reading)) {
                if (truncate(argv[1], atol(argv[2]))) stop("cutting the file");
                cut = 1;
            }
            signal = 0;
        } else if (signal == SIGTRAP || signal == SIGSTOP) signal = 0; /* a new process, or a new program in one */
        ptrace(cut ? PTRACE_CONT : PTRACE_SYSCALL, who, 0, signal);
    }
    if (!cut) {
        fputs("shrink: nothing read the file\n", stderr);
        return 125;
    }
    return ended;
}
