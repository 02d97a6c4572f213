/* clock ROUNDS FOLDER INPUT COMMAND..: runs the command so often, in this folder and on this input, and prints the milliseconds of processor
   time that the quickest run took, start and end of its process included. What it writes is dropped. */
#define _GNU_SOURCE
#include <fcntl.h>
#include <stdio.h>
#include <stdlib.h>
#include <sys/resource.h>
#include <sys/wait.h>
#include <unistd.h>

static void become(char **argv)
{
    int input = open(argv[3], O_RDONLY), output = open("/dev/null", O_WRONLY);
    if (input < 0 || output < 0 || dup2(input, 0) < 0 || dup2(output, 1) < 0 || chdir(argv[2]) != 0) _exit(127);
    execvp(argv[4], argv + 4);
    _exit(127);
}

static double milliseconds(struct timeval t)
{
    return (double)t.tv_sec * 1e3 + (double)t.tv_usec / 1e3;
}

int main(int argc, char **argv)
{
    double best = 1e18;
    if (argc < 5) {
        fprintf(stderr, "usage: clock ROUNDS FOLDER INPUT COMMAND..\n");
        return 2;
    }
    for (int round = atoi(argv[1]); round > 0; round--) {
        struct rusage used;
        int status;
        double t;
        pid_t child = fork();
        if (child == 0) become(argv);
        if (child < 0 || wait4(child, &status, 0, &used) != child || !WIFEXITED(status) || WEXITSTATUS(status) != 0) {
            fprintf(stderr, "clock: can't run %s\n", argv[4]);
            return 1;
        }
        t = milliseconds(used.ru_utime) + milliseconds(used.ru_stime);
        if (t < best) best = t;
    }
    printf("%.3f\n", best);
    return 0;
}
