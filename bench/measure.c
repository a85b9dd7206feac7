/* measure INPUT OUTPUT COMMAND WORD..
 *
 * Runs a command from one file to another, and prints its user, system and
 * elapsed time in microseconds and its peak memory in kilobytes of 1024 bytes.
 * Ends with the command's status. (The command `time` is not on every machine,
 * and a shell's own tells no memory.) */

#define _XOPEN_SOURCE 700
#define _DEFAULT_SOURCE

#include <fcntl.h>
#include <stdio.h>
#include <stdlib.h>
#include <sys/resource.h>
#include <sys/time.h>
#include <sys/types.h>
#include <sys/wait.h>
#include <time.h>
#include <unistd.h>

static long long microseconds(struct timeval time)
{
    return time.tv_sec * 1000000LL + time.tv_usec;
}

static void start(char **words)
{
    int input = open(words[0], O_RDONLY);
    int output = open(words[1], O_WRONLY | O_CREAT | O_TRUNC, 0666);

    if (input >= 0 && output >= 0 && dup2(input, STDIN_FILENO) >= 0 && dup2(output, STDOUT_FILENO) >= 0) {
        close(input);
        close(output);
        execvp(words[2], words + 2);
    }
    perror("measure");
    _exit(126);
}

int main(int count, char **words)
{
    struct timespec begun, ended;
    struct rusage used;
    int status;

    if (count < 4) {
        fprintf(stderr, "measure INPUT OUTPUT COMMAND WORD..\n");
        return 125;
    }
    clock_gettime(CLOCK_MONOTONIC, &begun);
    pid_t child = fork();
    if (child == 0)
        start(words + 1);
    if (child < 0 || wait4(child, &status, 0, &used) != child) {
        perror("measure");
        return 125;
    }
    clock_gettime(CLOCK_MONOTONIC, &ended);
    printf("%lld %lld %lld %ld\n", microseconds(used.ru_utime), microseconds(used.ru_stime),
           (ended.tv_sec - begun.tv_sec) * 1000000LL + (ended.tv_nsec - begun.tv_nsec) / 1000, used.ru_maxrss);
    return WIFEXITED(status) ? WEXITSTATUS(status) : 128 + WTERMSIG(status);
}
