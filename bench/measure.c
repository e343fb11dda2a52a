// Runs a command some times and prints its least time, what that is in MB/s of the files that it reads, its greatest peak of
// memory, and its status. The command's lines are thrown away.
//
//     cc -O2 -o measure measure.c
//     ./measure LABEL STATUS FILE.. -- COMMAND WORD..
//     ./measure --once COMMAND WORD..
//
// STATUS is the exit status that is wanted. Where a run has another one, measure says so and ends with status 1.
//
// With --once the command runs once and keeps its standard output. The last line of standard error then has its status, or 128
// and the signal that ended it, the processor's seconds in user and system mode, and the peak in kilobytes.

#include <fcntl.h>
#include <stdio.h>
#include <stdlib.h>
#include <string.h>
#include <sys/resource.h>
#include <sys/stat.h>
#include <sys/types.h>
#include <sys/wait.h>
#include <time.h>
#include <unistd.h>

enum { RUNS = 3 };

static double seconds(struct timeval t) {
    return (double)t.tv_sec + (double)t.tv_usec / 1e6;
}

static double now(void) {
    struct timespec t;
    clock_gettime(CLOCK_MONOTONIC, &t);
    return (double)t.tv_sec + (double)t.tv_nsec / 1e9;
}

// A run: its status as a shell says it, its seconds by the clock and of a processor, and its peak of memory in kilobytes.
struct run {
    int status;
    double took, processor;
    long peak;
};

static struct run run(char **command, int is_quiet) {
    double start = now();
    pid_t child = fork();
    if (child < 0) {
        perror("measure");
        exit(1);
    }
    if (child == 0) {
        if (is_quiet) dup2(open("/dev/null", O_WRONLY), 1);
        execvp(command[0], command);
        perror(command[0]);
        _exit(127);
    }
    int status;
    struct rusage used;
    wait4(child, &status, 0, &used);
    return (struct run){
        .status = WIFEXITED(status) ? WEXITSTATUS(status) : 128 + WTERMSIG(status),
        .took = now() - start,
        .processor = seconds(used.ru_utime) + seconds(used.ru_stime),
        .peak = used.ru_maxrss,
    };
}

int main(int argc, char **argv) {
    if (argc > 2 && !strcmp(argv[1], "--once")) {
        struct run it = run(argv + 2, 0);
        fprintf(stderr, "\n%d %.3f %ld\n", it.status, it.processor, it.peak);
        return 0;
    }
    if (argc < 3) {
        fprintf(stderr, "usage: measure LABEL STATUS FILE.. -- COMMAND WORD..\n       measure --once COMMAND WORD..\n");
        return 6;
    }
    double bytes = 0, least = 0;
    long peak = 0;
    int wanted = atoi(argv[2]), at = 3;
    for (; at < argc && strcmp(argv[at], "--"); ++at) {
        struct stat it;
        if (!stat(argv[at], &it)) bytes += (double)it.st_size;
    }
    if (at + 1 >= argc) {
        fprintf(stderr, "measure: no command\n");
        return 6;
    }
    for (int n = 0; n < RUNS; ++n) {
        struct run it = run(argv + at + 1, 1);
        if (it.status != wanted) {
            printf("%-42s ended with status %d, and not with status %d\n", argv[1], it.status, wanted);
            return 1;
        }
        if (n == 0 || it.took < least) least = it.took;
        if (it.peak > peak) peak = it.peak;
    }
    printf("%-42s %9.3f s %9.1f MB/s %9.1f MB\n", argv[1], least, bytes / 1e6 / least, (double)peak * 1024 / 1e6);
    return 0;
}
