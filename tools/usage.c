/* usage NUMBER WORD ..: runs a program and writes to the file descriptor of that number its seconds, its processor seconds, and the most memory that
   it took, in kilobytes. A child of a larger process would be counted with the memory that it had before it became the program. */
#include <stdio.h>
#include <stdlib.h>
#include <sys/resource.h>
#include <sys/wait.h>
#include <time.h>
#include <unistd.h>

static double now(void) {
    struct timespec it;
    clock_gettime(CLOCK_MONOTONIC, &it);
    return it.tv_sec + it.tv_nsec / 1e9;
}

static double seconds(struct timeval it) {
    return it.tv_sec + it.tv_usec / 1e6;
}

int main(int count, char **words) {
    struct rusage used;
    int status = 1;
    double start = now();
    int told = count > 2 ? atoi(words[1]) : -1;
    pid_t child = count > 2 ? fork() : -1;
    if (child == 0) {
        close(told);
        execv(words[2], words + 2);
        _exit(127);
    }
    if (child < 0 || wait4(child, &status, 0, &used) < 0)
        return 127;
    dprintf(told, "%.6f %.6f %ld\n", now() - start, seconds(used.ru_utime) + seconds(used.ru_stime), used.ru_maxrss);
    return WIFEXITED(status) ? WEXITSTATUS(status) : 128;
}
