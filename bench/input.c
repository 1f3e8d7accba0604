/* Makes framed input for the benchmark: `input mixed N` packets with messages of all types, of bodies of 14 to 1,000 bytes up to N bytes,
   `input long N` collect replies in bodies of 1,000 bytes, `input tiny N` a link-state packet N times. */
#include <stdint.h>
#include <stdio.h>
#include <stdlib.h>
#include <string.h>

static uint32_t x = 1;
static unsigned draw(void) { x = x * 1103515245u + 12345u; return x >> 16; }

static unsigned step(unsigned s, unsigned b) {
    unsigned low = s << 1 & 0x1FF;
    if (low >= 0x100) low++;
    return ((low + (s >> 8) + b) & 0xFF) | (s & 0xFF) << 8;
}

static size_t put(unsigned b) {
    if (b == 0xBC || b == 0xBD) { putchar(0xBC); putchar((int)b + 0x20); return 2; }
    putchar((int)b);
    return 1;
}

int main(int argc, char **argv) {
    if (argc != 3) return 2;
    size_t n = strtoull(argv[2], 0, 10), done = 1;
    putchar(0xBD);
    if (strcmp(argv[1], "tiny") == 0) {
        for (size_t i = 0; i < n; i++) fwrite("\x90\x01\x0F\xFE\x71\xD2\xBD", 1, 7, stdout);
        return 0;
    }
    while (done < n) {
        /* Messages of all types of both protocols, a time in eight of an unknown one, and of a third protocol. */
        static const unsigned types[] = {0x09, 0x89, 0x0D, 0x0E, 0x81, 0x0F, 0x8F, 0x10, 0x90, 0x17, 0x97, 0x18, 0x98, 0x1C, 0x9C, 0x1D, 0x9D, 0xA1};
        int is_long = strcmp(argv[1], "long") == 0;
        size_t content = is_long ? 998 : 12 + draw() % 987;
        unsigned proto = is_long ? 1 : draw() % 8 ? draw() & 1 : 2, s = 0xAAAA;
        for (size_t i = 0; i < content; i++) {
            static const unsigned head[] = {0xA0, 0x01, 0x9F, 0xFE, 0x00, 0x01, 0x0F, 0xFE};
            unsigned b = i == 4 ? proto << 4 : i < 8 ? head[i] : draw() & 0xFF;
            if (i == 8) b = is_long ? 0x89 : draw() % 8 ? types[draw() % 18] : draw() & 0xFF;
            if (i == 10 && (is_long || draw() % 2)) b = 0;
            s = step(s, b);
            done += put(b);
        }
        unsigned low = s << 1 & 0x1FF;
        if (low >= 0x100) low++;
        done += put((0x100 - (low + (s >> 8))) & 0xFF);
        done += put((0x100 - (s & 0xFF)) & 0xFF);
        putchar(0xBD);
        done++;
    }
    return 0;
}
