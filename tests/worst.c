// For tests/worst.py. Loaded with the program, it runs that once for each byte that it reads: a process is forked, and goes on as the
// program, with so many seconds of processor time. When that has ended, its status, its microseconds and the most KiB that it had are
// written.
#include <stdint.h>
#include <stdlib.h>
#include <sys/resource.h>
#include <sys/wait.h>
#include <unistd.h>

static int number(const char *name) {
    const char *digits = getenv(name);
    return digits ? atoi(digits) : -1;
}

static uint64_t microseconds(struct timeval time) {
    return (uint64_t)time.tv_sec * 1000000 + (uint64_t)time.tv_usec;
}

__attribute__((constructor)) static void serve(void) {
    const int asked = number("CDDLSEQ_ASKED"), told = number("CDDLSEQ_TOLD");
    const struct rlimit seconds = {(rlim_t)number("CDDLSEQ_SECONDS"), RLIM_INFINITY};
    char byte;
    while (read(asked, &byte, 1) == 1) {
        const pid_t child = fork();
        if (child == 0) {
            close(asked), close(told), setrlimit(RLIMIT_CPU, &seconds);
            return;
        }
        int status;
        struct rusage used;
        if (child < 0 || wait4(child, &status, 0, &used) != child)
            break;
        const uint64_t answer[3] = {
            (uint64_t)status, microseconds(used.ru_utime) + microseconds(used.ru_stime), (uint64_t)used.ru_maxrss};
        if (write(told, answer, sizeof answer) != sizeof answer)
            break;
    }
    _exit(0);
}
