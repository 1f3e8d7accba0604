// Reads a journal once in blocks of 65,536 bytes and walks from length to length; prints the number of its entries.
// Usage: walk FILE
#include <fcntl.h>
#include <stdint.h>
#include <stdio.h>
#include <unistd.h>

static unsigned char block[65536];
static int file;
static size_t at, held;

static int next(void) {
    if (at == held) {
        ssize_t n = read(file, block, sizeof block);
        if (n <= 0)
            return -1;
        held = n;
        at = 0;
    }
    return block[at++];
}

static void pass(size_t n) {
    while (n > held - at) {
        n -= held - at;
        at = held;
        if (next() < 0)
            return;
        n--;
    }
    at += n;
}

int main(int argc, char **argv) {
    if (argc != 2 || (file = open(argv[1], O_RDONLY)) < 0)
        return 2;
    unsigned long entries = 0;
    pass(8);
    while (next() == 0x5A) {
        uint32_t len = 0;
        for (int i = 0; i < 4; i++)
            len = len << 8 | (uint32_t)next();
        pass(len);
        entries++;
    }
    printf("%lu\n", entries);
}
