// Runs a command with no input and its output thrown away, and prints what it cost: the wall clock's nanoseconds, the
// processor's microseconds with those of its children, its peak memory in kilobytes, and its status. It is small because
// a process begins with the memory of the one that starts it, and Linux counts that for its peak.
//
//     measure COMMAND ARGUMENTS

#define _GNU_SOURCE
#include <fcntl.h>
#include <stdio.h>
#include <sys/resource.h>
#include <sys/wait.h>
#include <time.h>
#include <unistd.h>

static long long nanoseconds(void) {
    struct timespec now;
    clock_gettime(CLOCK_MONOTONIC, &now);
    return now.tv_sec * 1000000000LL + now.tv_nsec;
}

static long long microseconds(struct timeval time) { return time.tv_sec * 1000000LL + time.tv_usec; }

int main(int argc, char **argv) {
    if (argc < 2)
        return 125;
    long long begin = nanoseconds();
    pid_t child = fork();
    if (child == 0) {
        int null = open("/dev/null", O_RDWR);
        dup2(null, 0);
        dup2(null, 1);
        dup2(null, 2);
        execvp(argv[1], argv + 1);
        _exit(127);
    }
    int status;
    struct rusage used;
    if (child < 0 || wait4(child, &status, 0, &used) != child)
        return 125;
    long long wall = nanoseconds() - begin;
    long long processor = microseconds(used.ru_utime) + microseconds(used.ru_stime);
    printf("%lld %lld %ld %d\n", wall, processor, used.ru_maxrss, WIFEXITED(status) ? WEXITSTATUS(status) : 128);
    return 0;
}
