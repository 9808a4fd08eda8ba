/*
 * Runs a program, and writes to a file its status, the microseconds of the processor and the kilobytes of memory that it took at most.
 * A process counts as its own what its maker had when it began, and this one has little. SPDX: MIT OR Apache-2.0
 *
 * usage: measured FILE PROGRAM [WORD ..]
 */
#define _DEFAULT_SOURCE
#include <stdio.h>
#include <sys/resource.h>
#include <sys/wait.h>
#include <unistd.h>

static long long microseconds(struct timeval time) { return (long long)time.tv_sec * 1000000 + time.tv_usec; }

int main(int count, char **words) {
    if (count < 3) return 2;
    int status = 0;
    struct rusage usage;
    const pid_t child = fork();
    if (child == 0) {
        execvp(words[2], words + 2);
        _exit(127);
    }
    if (child < 0 || wait4(child, &status, 0, &usage) != child) return 2;
    FILE *const file = fopen(words[1], "w");
    if (!file) return 2;
    fprintf(file, "%d %lld %ld\n", WIFEXITED(status) ? WEXITSTATUS(status) : -1,
            microseconds(usage.ru_utime) + microseconds(usage.ru_stime), usage.ru_maxrss);
    return fclose(file) ? 2 : 0;
}
