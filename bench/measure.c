// measure INPUT COMMAND..: runs the command once on the file, its answers thrown away, and prints
// the seconds of processor time and of the clock that it took, and the most memory it held, in
// kilobytes. It is small itself, because a process counts the memory of the one that started it.

#include <fcntl.h>
#include <stdio.h>
#include <sys/resource.h>
#include <sys/wait.h>
#include <time.h>
#include <unistd.h>

static double now(void)
{
    struct timespec t;
    clock_gettime(CLOCK_MONOTONIC, &t);
    return (double)t.tv_sec + (double)t.tv_nsec / 1e9;
}

static double seconds(struct timeval t)
{
    return (double)t.tv_sec + (double)t.tv_usec / 1e6;
}

static void become(const char *input, char **command)
{
    int from = open(input, O_RDONLY), to = open("/dev/null", O_WRONLY);
    if (from < 0 || to < 0 || dup2(from, STDIN_FILENO) < 0 || dup2(to, STDOUT_FILENO) < 0)
        _exit(126);
    execvp(command[0], command);
    _exit(127);
}

int main(int count, char **words)
{
    if (count < 3)
        return 2;
    double start = now();
    pid_t child = fork();
    if (child < 0)
        return 2;
    if (child == 0)
        become(words[1], words + 2);
    int status;
    struct rusage used;
    if (wait4(child, &status, 0, &used) != child)
        return 2;
    double passed = now() - start;
    printf("%.6f %.6f %ld\n", seconds(used.ru_utime) + seconds(used.ru_stime), passed, used.ru_maxrss);
    return status == 0 ? 0 : 1;
}
