/* failed_read PROGRAM: standard input that cannot be read is not the end of the input. The program's input is the
 * master side of a pseudo terminal: three whole lines and the front of a fourth arrive, then the slave side is closed
 * and reading fails. The whole lines are to be answered, the one that was cut off is not, and standard error is to say
 * something. The same with standard input closed, where there is nothing to answer. Ends with 0 if all hold. */
#define _GNU_SOURCE
#include <fcntl.h>
#include <stdio.h>
#include <stdlib.h>
#include <string.h>
#include <sys/wait.h>
#include <termios.h>
#include <unistd.h>

static const char whole[] = "4 1 NEW 7\n5 1 GRANT 1 7 2 50 200 y\nMAY 2 1 7 60\n";
static const char cut[] = "9 1 REVOKE 1";
static const char replies[] = "done 0 0\ndone 1 1\nyes\n";

static void need(int holds, const char *what)
{
    if (!holds) {
        perror(what);
        exit(2);
    }
}

static void give(int fd, const char *text)
{
    size_t n = strlen(text);
    need(write(fd, text, n) == (ssize_t)n, "write");
}

/* Reads up to `end` bytes into a text, or to the end; how many there are. */
static size_t take(int fd, char *text, size_t end)
{
    size_t n = 0;
    ssize_t got;
    while (n < end && (got = read(fd, text + n, end - n)) > 0)
        n += (size_t)got;
    text[n] = 0;
    return n;
}

/* Starts the program with its standard input at `in`, or closed where that is -1. */
static pid_t start(const char *program, int in, int out[2], int err[2])
{
    need(pipe2(out, O_CLOEXEC) == 0 && pipe2(err, O_CLOEXEC) == 0, "pipe2");
    pid_t child = fork();
    need(child >= 0, "fork");
    if (child == 0) {
        need(dup2(out[1], 1) == 1 && dup2(err[1], 2) == 2, "dup2");
        need(in < 0 ? close(0) == 0 : dup2(in, 0) == 0, "standard input");
        execl(program, program, (char *)0);
        _exit(127);
    }
    close(out[1]);
    close(err[1]);
    return child;
}

/* Takes what is left to the program's end; whether it wrote `expected` and something on standard error. */
static int ends_with(pid_t child, int out, int err, char *text, size_t had, size_t room, const char *expected)
{
    char said[4096];
    int status;
    take(out, text + had, room - had - 1);
    size_t told = take(err, said, sizeof said - 1);
    need(waitpid(child, &status, 0) == child, "waitpid");
    close(out);
    close(err);
    return WIFEXITED(status) && WEXITSTATUS(status) != 127 && strcmp(text, expected) == 0 && told > 0;
}

static int terminal(const char *program)
{
    int out[2], err[2];
    char text[4096];
    struct termios raw;
    int master = posix_openpt(O_RDWR | O_NOCTTY | O_CLOEXEC);
    need(master >= 0 && grantpt(master) == 0 && unlockpt(master) == 0, "a pseudo terminal");
    int slave = open(ptsname(master), O_RDWR | O_NOCTTY | O_CLOEXEC);
    need(slave >= 0 && tcgetattr(slave, &raw) == 0, "its slave side");
    cfmakeraw(&raw);
    need(tcsetattr(slave, TCSANOW, &raw) == 0, "raw mode");
    pid_t child = start(program, master, out, err);
    give(slave, whole);
    size_t had = take(out[0], text, strlen(replies));
    give(slave, cut);
    usleep(200000);
    close(slave);
    int holds = ends_with(child, out[0], err[0], text, had, sizeof text, replies);
    close(master);
    return holds;
}

static int closed(const char *program)
{
    int out[2], err[2];
    char text[4096];
    pid_t child = start(program, -1, out, err);
    return ends_with(child, out[0], err[0], text, 0, sizeof text, "");
}

int main(int count, char **words)
{
    if (count != 2) {
        fprintf(stderr, "usage: failed_read PROGRAM\n");
        return 2;
    }
    alarm(20);
    int first = terminal(words[1]);
    int second = closed(words[1]);
    if (!first)
        puts("does not hold: a line that a failed read cut off is not answered, and the rest is");
    if (!second)
        puts("does not hold: closed standard input is reported");
    return first && second ? 0 : 1;
}
