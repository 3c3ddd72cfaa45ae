/* Runs the words after the first and writes into the file that the first names: the processor time in seconds, user
 * and system, and the greatest resident size in KiB. It is a program of its own because a process counts what stood in
 * its memory before it became the program, so a large one can't measure a small one. */
#include <stdio.h>
#include <sys/resource.h>
#include <sys/wait.h>
#include <unistd.h>

int main(int count, char **words) {
    pid_t child = count > 2 ? fork() : -1;
    if (child == 0) {
        execv(words[2], words + 2);
        _exit(127);
    }
    struct rusage spent;
    int status;
    if (child < 0 || wait4(child, &status, 0, &spent) != child)
        return 126;
    FILE *file = fopen(words[1], "w");
    if (!file)
        return 126;
    double micros = (spent.ru_utime.tv_sec + spent.ru_stime.tv_sec) * 1e6 + spent.ru_utime.tv_usec + spent.ru_stime.tv_usec;
    fprintf(file, "%.6f %ld\n", micros / 1e6, spent.ru_maxrss);
    fclose(file);
    return WIFEXITED(status) ? WEXITSTATUS(status) : 125;
}
