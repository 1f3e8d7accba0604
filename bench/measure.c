/* `measure SOURCE TARGET PROGRAM WORD..` runs a program five times from a file to a file, and prints the least
   processor time in seconds and the greatest resident memory in KiB. */
#include <fcntl.h>
#include <stdio.h>
#include <sys/resource.h>
#include <sys/wait.h>
#include <unistd.h>

int main(int argc, char **argv) {
    double best = 1e9;
    long most = 0;
    if (argc < 4) return 2;
    for (int i = 0; i < 5; i++) {
        pid_t child = fork();
        if (child == 0) {
            dup2(open(argv[1], O_RDONLY), 0);
            dup2(open(argv[2], O_WRONLY | O_CREAT | O_TRUNC, 0600), 1);
            execv(argv[3], argv + 3);
            _exit(127);
        }
        int status;
        struct rusage used;
        if (wait4(child, &status, 0, &used) != child || (status != 0 && status != 7 << 8)) return 1;
        double time = (double)(used.ru_utime.tv_sec + used.ru_stime.tv_sec) + 1e-6 * (double)(used.ru_utime.tv_usec + used.ru_stime.tv_usec);
        if (time < best) best = time;
        if (used.ru_maxrss > most) most = used.ru_maxrss;
    }
    printf("%.3f %ld\n", best, most);
    return 0;
}
