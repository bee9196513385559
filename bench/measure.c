/* Runs a program to its end and says what it took.

       measure FILE PROGRAM [WORD ..]

   Into FILE it writes one line: the seconds from start to end, those of the processors, and the peak of memory in KiB. It ends with
   the program's status, or with 70 where it did not run or was ended by a signal. The peak that the system tells of a program is never
   below that of the process that started it. So what starts it here is small. It runs on Linux. */
#include <stdio.h>
#include <sys/resource.h>
#include <sys/types.h>
#include <sys/wait.h>
#include <time.h>
#include <unistd.h>

static double now(void)
{
    struct timespec time;
    clock_gettime(CLOCK_MONOTONIC, &time);
    return (double)time.tv_sec + (double)time.tv_nsec / 1e9;
}

static double seconds(struct timeval time)
{
    return (double)time.tv_sec + (double)time.tv_usec / 1e6;
}

int main(int count, char **words)
{
    if (count < 3)
        return 70;
    double begun = now();
    pid_t child = fork();
    if (child == 0) {
        execvp(words[2], words + 2);
        _exit(70);
    }
    int status;
    struct rusage used;
    if (child < 0 || wait4(child, &status, 0, &used) != child)
        return 70;
    double spent = now() - begun;
    FILE *file = fopen(words[1], "w");
    if (file == NULL || fprintf(file, "%.9f %.6f %ld\n", spent, seconds(used.ru_utime) + seconds(used.ru_stime), used.ru_maxrss) < 0 || fclose(file) != 0)
        return 70;
    return WIFEXITED(status) ? WEXITSTATUS(status) : 70;
}
