/* Runs a program once on the standard input that it is given, and prints its seconds by the clock, its processor seconds, its peak memory in
 * kilobytes, and how many pages of memory it touched, as the system counts them for the program alone.
 *
 * A process that is made by fork begins with the memory of its parent, which the system counts as its own peak until it becomes another program, and
 * keeps. So the parent has to be small: of one that a Python program starts the peak is at least Python's.
 *
 * usage: launch PROGRAM [WORD..]
 */
#include <fcntl.h>
#include <stdio.h>
#include <sys/resource.h>
#include <sys/wait.h>
#include <time.h>
#include <unistd.h>

static double now(void)
{
    struct timespec at;
    clock_gettime(CLOCK_MONOTONIC, &at);
    return at.tv_sec + at.tv_nsec / 1e9;
}

static double seconds_of(struct timeval time)
{
    return time.tv_sec + time.tv_usec / 1e6;
}

int main(int count, char **words)
{
    if (count < 2) {
        fprintf(stderr, "usage: launch PROGRAM [WORD..]\n");
        return 2;
    }
    int nowhere = open("/dev/null", O_WRONLY);
    struct rusage usage;
    double start = now();
    pid_t child = fork();
    if (child == 0) {
        dup2(nowhere, 1);
        dup2(nowhere, 2);
        execvp(words[1], words + 1);
        _exit(127);
    }
    if (child < 0 || wait4(child, NULL, 0, &usage) < 0)
        return 2;
    printf("%.6f %.6f %ld %ld\n", now() - start, seconds_of(usage.ru_utime) + seconds_of(usage.ru_stime), usage.ru_maxrss, usage.ru_minflt);
    return 0;
}
