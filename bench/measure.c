/* Runs a program with its output thrown away, and prints what it took: measure PROGRAM WORD..
   One line: seconds of processor time, user's and system's, and peak memory in KB. */

#define _DEFAULT_SOURCE
#include <fcntl.h>
#include <stdio.h>
#include <sys/resource.h>
#include <sys/types.h>
#include <sys/wait.h>
#include <unistd.h>

static double seconds(struct timeval time)
{
    return time.tv_sec + time.tv_usec / 1e6;
}

int main(int count, char **words)
{
    struct rusage usage;
    int status;
    pid_t child;
    if (count < 2)
        return 2;
    child = fork();
    if (child < 0)
        return 2;
    if (child == 0) {
        int nowhere = open("/dev/null", O_WRONLY);
        if (nowhere < 0 || dup2(nowhere, 1) < 0)
            _exit(127);
        execv(words[1], words + 1);
        _exit(127);
    }
    if (wait4(child, &status, 0, &usage) != child || !WIFEXITED(status) || WEXITSTATUS(status))
        return 1;
    printf("%.6f %ld\n", seconds(usage.ru_utime) + seconds(usage.ru_stime), usage.ru_maxrss);
    return 0;
}
