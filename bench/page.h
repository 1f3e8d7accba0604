/* A page of text that is written to standard output when it is full: what the yardsticks that print share. */
#include <stdint.h>
#include <string.h>
#include <unistd.h>

enum { PAGE = 65536 };

static char page[PAGE];
static size_t page_len;

static void flush(void) {
    size_t done = 0;
    while (done < page_len) {
        ssize_t n = write(1, page + done, page_len - done);
        if (n <= 0) _exit(4);
        done += (size_t)n;
    }
    page_len = 0;
}

static void text(const char *s, size_t n) {
    memcpy(page + page_len, s, n);
    page_len += n;
}
#define TEXT(s) text(s, sizeof s - 1)

static void decimal(uint64_t n) {
    char digits[20];
    size_t at = sizeof digits;
    do {
        digits[--at] = (char)('0' + n % 10);
        n /= 10;
    } while (n);
    text(digits + at, sizeof digits - at);
}
