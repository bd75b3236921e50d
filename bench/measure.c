/* measure: runs a program several times, and says what it cost.

   measure TIMES INPUT OUTPUT ERRORS PROGRAM [WORD ..]

   Prints: status, best wall time in microseconds, best processor time in microseconds, greatest resident size in KiB, number of calls
   of write (each kind of it, as the system counts them; -1 where it does not say). The program's environment is this one's. */

#define _GNU_SOURCE
#include <fcntl.h>
#include <stdio.h>
#include <stdlib.h>
#include <string.h>
#include <sys/resource.h>
#include <sys/wait.h>
#include <time.h>
#include <unistd.h>

static long long now(void) {
    struct timespec t;
    clock_gettime(CLOCK_MONOTONIC, &t);
    return t.tv_sec * 1000000LL + t.tv_nsec / 1000;
}

static void take_over(const char *path, int flags, int as) {
    int file = open(path, flags, 0600);
    if (file < 0 || dup2(file, as) < 0) {
        fprintf(stderr, "measure: can't open %s\n", path);
        _exit(127);
    }
    close(file);
}

/* The calls of write of a process that has ended and is not yet waited for. */
static long long writes_of(pid_t child) {
    char path[64], line[128];
    long long count = -1;
    snprintf(path, sizeof path, "/proc/%d/io", (int)child);
    FILE *io = fopen(path, "r");
    while (io != NULL && fgets(line, sizeof line, io) != NULL) sscanf(line, "syscw: %lld", &count);
    if (io != NULL) fclose(io);
    return count;
}

int main(int argc, char **argv) {
    long long best = -1, best_cpu = -1, writes = -1;
    long resident = 0;
    int status = 0;
    if (argc < 6) return 2;
    for (int k = 0; k < atoi(argv[1]); k++) {
        long long start = now();
        pid_t child = fork();
        if (child == 0) {
            take_over(argv[2], O_RDONLY, 0);
            take_over(argv[3], O_WRONLY | O_CREAT | O_TRUNC, 1);
            take_over(argv[4], O_WRONLY | O_CREAT | O_TRUNC, 2);
            execv(argv[5], argv + 5);
            _exit(127);
        }
        siginfo_t info;
        struct rusage used;
        waitid(P_PID, (id_t)child, &info, WEXITED | WNOWAIT);
        long long wall = now() - start;
        writes = writes_of(child);
        wait4(child, &status, 0, &used);
        long long cpu = (used.ru_utime.tv_sec + used.ru_stime.tv_sec) * 1000000LL + used.ru_utime.tv_usec + used.ru_stime.tv_usec;
        if (best < 0 || wall < best) best = wall;
        if (best_cpu < 0 || cpu < best_cpu) best_cpu = cpu;
        if (used.ru_maxrss > resident) resident = used.ru_maxrss;
    }
    printf("%d %lld %lld %ld %lld\n", WIFEXITED(status) ? WEXITSTATUS(status) : 128 + WTERMSIG(status), best, best_cpu, resident, writes);
    return 0;
}
