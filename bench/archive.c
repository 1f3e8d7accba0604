// Writes an archive of at least SIZE bytes in entries of 1,000 bytes: a plan of one station, one table of events with two
// field bytes, and advances of 99 records each. Usage: archive SIZE > FILE
#include <stdint.h>
#include <stdio.h>
#include <stdlib.h>

static void bytes(const void *from, size_t n) {
    if (fwrite(from, 1, n, stdout) != n)
        exit(1);
}

static void number(uint32_t value, int n) {
    for (int i = n - 1; i >= 0; i--)
        putchar(value >> 8 * i & 0xFF);
}

// an open gate, and the length of the body that follows
static void entry(uint32_t len) {
    putchar(0x5A);
    number(len, 4);
}

int main(int argc, char **argv) {
    if (argc != 2)
        return 2;
    long size = atol(argv[1]);
    bytes("\xA5PBKARC1", 8);
    entry(16);
    bytes("\x50\x0F\xFE\x00\x01\x01\x00\x0A\x00\x00north\x00", 16);
    // a table `T` of size 10 with the FP2 field `V`
    static const char definition[] =
        "T\0\0\0\0\x0A\x0E\0\0\0\0\0\0\0\0\0\0\0\0\0\0\0\0"
        "\x07V\0\0\0\0\0\0\0\0\x01\0\0\0\x01\0\0\0\0\0";
    entry(4 + sizeof definition - 1);
    bytes("\x54\x00\x00\x01", 4);
    bytes(definition, sizeof definition - 1);
    uint32_t next = 0;
    for (long at = 0; at < size; at += 1005) {
        entry(1000);
        bytes("\x41\x00\x00\x00", 4);
        number(next, 4);
        number(99, 2);
        for (int k = 0; k < 99; k++, next++) {
            number(next, 4);
            number(0, 4);
            number(next & 0x1FFF, 2);
        }
    }
    putchar(0);
    return ferror(stdout) || fflush(stdout);
}
