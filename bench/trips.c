/* `trips PORT COUNT INPUT PROGRAM WORD..` runs a program that listens on a port of this machine, with standard input from a
   file, and asks it so many times over one connection, each time after the answer to the time before: a collect command of
   27 bytes, for the records of a table under another signature than that of the script in examples/. Prints the processor
   time of the program in seconds, the round trips a second, and its resident memory in KiB after the first tenth of them
   and before the last one. */
#include <arpa/inet.h>
#include <fcntl.h>
#include <netinet/tcp.h>
#include <signal.h>
#include <stdint.h>
#include <stdio.h>
#include <stdlib.h>
#include <sys/resource.h>
#include <sys/socket.h>
#include <sys/wait.h>
#include <time.h>
#include <unistd.h>

static const uint8_t command[] = "\xBD\xA0\x0A\x5F\xFE\x10\x0A\x0F\xFE\x09\x01\x00\x00\x04\x00\x01\x8A\x5F\x00\x00\x00\x00\x00\x00\x01\x9D\xBD";

static double now(void) {
    struct timespec t;
    clock_gettime(CLOCK_MONOTONIC, &t);
    return (double)t.tv_sec + 1e-9 * (double)t.tv_nsec;
}

static long resident(pid_t child) {
    char path[64], line[256];
    long kib = 0;
    snprintf(path, sizeof path, "/proc/%d/status", (int)child);
    FILE *status = fopen(path, "r");
    while (status && fgets(line, sizeof line, status))
        if (sscanf(line, "VmRSS: %ld", &kib) == 1) break;
    if (status) fclose(status);
    return kib;
}

/* A connection to the program, which may not listen yet. */
static int connected(int port) {
    struct sockaddr_in at = {.sin_family = AF_INET, .sin_port = htons((uint16_t)port), .sin_addr.s_addr = htonl(INADDR_LOOPBACK)};
    for (int tries = 0; tries < 100; tries++) {
        int stream = socket(AF_INET, SOCK_STREAM, 0), yes = 1;
        if (connect(stream, (struct sockaddr *)&at, sizeof at) == 0) {
            setsockopt(stream, IPPROTO_TCP, TCP_NODELAY, &yes, sizeof yes);
            return stream;
        }
        close(stream);
        usleep(50000);
    }
    return -1;
}

/* One command, and its answer up to the second flag. */
static int trip(int stream) {
    uint8_t answer[4096];
    if (write(stream, command, sizeof command - 1) != sizeof command - 1) return 0;
    for (int flags = 0; flags < 2;) {
        ssize_t n = read(stream, answer, sizeof answer);
        if (n <= 0) return 0;
        for (ssize_t i = 0; i < n; i++) flags += answer[i] == 0xBD;
    }
    return 1;
}

int main(int argc, char **argv) {
    if (argc < 5) return 2;
    long count = atol(argv[2]), before = 0, after = 0;
    pid_t child = fork();
    if (child == 0) {
        dup2(open(argv[3], O_RDONLY), 0);
        execv(argv[4], argv + 4);
        _exit(127);
    }
    int stream = connected(atoi(argv[1]));
    double start = now();
    for (long done = 0; done < count; done++) {
        if (done == count / 10) before = resident(child);
        if (done == count - 1) after = resident(child);
        if (!trip(stream)) {
            kill(child, SIGKILL);
            return 1;
        }
    }
    double passed = now() - start;
    int status;
    struct rusage used;
    if (wait4(child, &status, 0, &used) != child || status != 0) return 1;
    double time = (double)(used.ru_utime.tv_sec + used.ru_stime.tv_sec) + 1e-6 * (double)(used.ru_utime.tv_usec + used.ru_stime.tv_usec);
    printf("%.3f %.0f %ld %ld\n", time, (double)count / passed, before, after);
    return 0;
}
