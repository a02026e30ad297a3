/*
 * measure OUT TIMES PROGRAM WORD ..: runs a program so many times, its standard output into OUT, which keeps that of the
 * last run. Prints the seconds of processor time of all runs, the most memory that one held, in bytes, and the exit
 * status of the last. It is small, since a program's peak counts what was held where it was started.
 */
#define _DEFAULT_SOURCE
#include <fcntl.h>
#include <stdio.h>
#include <stdlib.h>
#include <sys/resource.h>
#include <sys/wait.h>
#include <unistd.h>

static double seconds_of(struct timeval time)
{
    return (double)time.tv_sec + (double)time.tv_usec / 1e6;
}

/* Runs a program with its output into a file. Does not return. */
static void become(const char *out, char **words)
{
    int file = open(out, O_WRONLY | O_CREAT | O_TRUNC, 0666);
    if (file < 0 || dup2(file, STDOUT_FILENO) < 0)
        _exit(126);
    execv(words[0], words);
    _exit(127);
}

int main(int count, char **words)
{
    if (count < 4)
        return 2;
    double seconds = 0;
    long kilobytes = 0;
    int status = 0;
    for (int left = atoi(words[2]); left > 0; left--) {
        struct rusage used;
        pid_t child = fork();
        if (child == 0)
            become(words[1], words + 3);
        if (child < 0 || wait4(child, &status, 0, &used) != child)
            return 3;
        seconds += seconds_of(used.ru_utime) + seconds_of(used.ru_stime);
        if (used.ru_maxrss > kilobytes)
            kilobytes = used.ru_maxrss;
    }
    printf("%.6f %ld %d\n", seconds, kilobytes * 1024, WIFEXITED(status) ? WEXITSTATUS(status) : -WTERMSIG(status));
    return 0;
}
