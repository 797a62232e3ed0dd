// Runs a command and writes the peak of its memory, in KB, and its processor time, in
// microseconds, to a file: peak FILE COMMAND WORD..
// A process counts what its parent held when it started it; this one holds next to nothing.
#define _GNU_SOURCE
#include <stdio.h>
#include <sys/resource.h>
#include <sys/wait.h>
#include <unistd.h>

int main(int argc, char **argv) {
    struct rusage used;
    int status;
    if (argc < 3) return 125;
    pid_t child = fork();
    if (child == 0) {
        execv(argv[2], argv + 2);
        _exit(127);
    }
    if (child < 0 || wait4(child, &status, 0, &used) != child) return 125;
    FILE *file = fopen(argv[1], "w");
    if (!file) return 125;
    long seconds = used.ru_utime.tv_sec + used.ru_stime.tv_sec;
    long micros = used.ru_utime.tv_usec + used.ru_stime.tv_usec;
    fprintf(file, "%ld %ld\n", used.ru_maxrss, seconds * 1000000 + micros);
    fclose(file);
    return WIFEXITED(status) ? WEXITSTATUS(status) : 128 + WTERMSIG(status);
}
