// Writes an archive of at least SIZE bytes as `collect` makes it: a plan of one station, one table of events with ten FP2
// values, and advances of as many records as a reply brings, 34. Usage: records SIZE > FILE
#include <stdint.h>
#include <stdio.h>
#include <stdlib.h>
#include <string.h>

enum { RECORDS = 34, VALUES = 10 };

static void number(uint32_t value, int n) {
    for (int i = n - 1; i >= 0; i--)
        putchar(value >> 8 * i & 0xFF);
}

static void entry(const void *body, size_t n) {
    putchar(0x5A);
    number((uint32_t)n, 4);
    if (fwrite(body, 1, n, stdout) != n)
        exit(1);
}

// values as they are measured: two or one decimals, some below 0, a few that aren't there
static uint32_t value(void) {
    static uint32_t x = 1;
    x = (x * 1103515245 + 12345) & 0x7FFFFFFF;
    uint32_t d = x >> 16;
    if (d % 97 == 0)
        return 0x9FFE;
    return (d & 1 ? 0x4000 : 0x2000) | (d % 11 == 0 ? 0x8000 : 0) | d % 6000;
}

int main(int argc, char **argv) {
    if (argc != 2)
        return 2;
    long size = atol(argv[1]);
    // a table `T` of size 10 with the FP2 field `V` of dimension 10
    static const char definition[] =
        "\x54\0\0\x01T\0\0\0\0\x0A\x0E\0\0\0\0\0\0\0\0\0\0\0\0\0\0\0\0"
        "\x07V\0\0\0\0\0\0\0\0\x01\0\0\0\x0A\0\0\0\0\0";
    fwrite("\xA5PBKARC1", 1, 8, stdout);
    entry("\x50\x0F\xFE\x00\x01\x01\x00\x0A\x00\x00north\x00", 16);
    entry(definition, sizeof definition - 1);
    uint32_t next = 0;
    long len = 10 + RECORDS * (8 + 2 * VALUES);
    for (long at = 0; at < size; at += 5 + len) {
        putchar(0x5A);
        number((uint32_t)len, 4);
        number(0x41000000, 4);
        number(next, 4);
        number(RECORDS, 2);
        for (int k = 0; k < RECORDS; k++, next++) {
            number(1000000000 + 60 * next, 4);
            number(0, 4);
            for (int v = 0; v < VALUES; v++)
                number(value(), 2);
        }
    }
    putchar(0);
    return ferror(stdout) || fflush(stdout);
}
