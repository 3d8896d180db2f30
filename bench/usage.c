/* Runs a program, and then writes to standard error how many microseconds of processor time it took,
   user and system, and how many KiB of memory it had at most. It is small itself, since a process
   that is begun counts the memory of the one that began it. */
#include <stdio.h>
#include <sys/resource.h>
#include <sys/wait.h>
#include <unistd.h>

static long microseconds(struct timeval time)
{
    return time.tv_sec * 1000000L + time.tv_usec;
}

int main(int words, char **word)
{
    struct rusage usage;
    int status;
    pid_t child = words < 2 ? -1 : fork();
    if (child == 0) {
        execv(word[1], word + 1);
        _exit(127);
    }
    if (child < 0 || wait4(child, &status, 0, &usage) < 0)
        return 126;
    fprintf(stderr, "%ld %ld\n", microseconds(usage.ru_utime) + microseconds(usage.ru_stime),
            usage.ru_maxrss);
    return WIFEXITED(status) ? WEXITSTATUS(status) : 125;
}
