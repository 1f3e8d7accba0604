// What `pakbus FILE - export north T` prints of an archive of `records`, as a plain C program: it walks over the entries once
// and prints each record. Usage: export FILE
#include <fcntl.h>
#include <stdint.h>
#include <string.h>
#include <unistd.h>

#include "page.h"

enum { BLOCK = 65536, ROW = 512, BODY = 65536, VALUES = 10 };

static uint8_t block[BLOCK], body[BODY];
static size_t at, held;
static int file;

static void padded(uint32_t n, int width) {
    for (int k = width - 1; k >= 0; k--, n /= 10)
        page[page_len + (size_t)k] = (char)('0' + n % 10);
    page_len += (size_t)width;
}

static uint32_t number(const uint8_t *from, int n) {
    uint32_t value = 0;
    for (int i = 0; i < n; i++)
        value = value << 8 | from[i];
    return value;
}

// the date of a day from 1990-01-01 on
static void date(int64_t day) {
    day += 719468 + 7305;
    int64_t era = day / 146097, of_era = day - era * 146097;
    int64_t year = (of_era - of_era / 1460 + of_era / 36524 - of_era / 146096) / 365;
    int64_t of_year = of_era - (365 * year + year / 4 - year / 100);
    int64_t month = (5 * of_year + 2) / 153;
    padded((uint32_t)(year + era * 400 + (month >= 10)), 4);
    TEXT("-");
    padded((uint32_t)(month < 10 ? month + 3 : month - 9), 2);
    TEXT("-");
    padded((uint32_t)(of_year - (153 * month + 2) / 5 + 1), 2);
}

static void time_of(const uint8_t *from) {
    int64_t sec = (int32_t)number(from, 4);
    uint32_t nano = number(from + 4, 4);
    int64_t day = sec >= 0 ? sec / 86400 : -((86399 - sec) / 86400);
    uint32_t rest = (uint32_t)(sec - day * 86400);
    date(day);
    TEXT(" ");
    padded(rest / 3600, 2);
    TEXT(":");
    padded(rest / 60 % 60, 2);
    TEXT(":");
    padded(rest % 60, 2);
    if (nano) {
        TEXT(".");
        padded(nano, 9);
    }
}

static void fp2(uint32_t bits) {
    if (bits == 0x1FFF) { TEXT("INF"); return; }
    if (bits == 0x9FFF) { TEXT("-INF"); return; }
    if (bits == 0x9FFE) { TEXT("NAN"); return; }
    static const uint32_t powers[] = {1, 10, 100, 1000};
    uint32_t decimals = bits >> 13 & 3, mantissa = bits & 0x1FFF;
    if (bits & 0x8000) TEXT("-");
    decimal(mantissa / powers[decimals]);
    if (decimals) {
        TEXT(".");
        padded(mantissa % powers[decimals], (int)decimals);
    }
}

static int take(uint8_t *to, size_t n) {
    while (n) {
        if (at == held) {
            ssize_t got = read(file, block, sizeof block);
            if (got <= 0) return 0;
            held = (size_t)got;
            at = 0;
        }
        size_t part = n < held - at ? n : held - at;
        memcpy(to, block + at, part);
        to += part;
        at += part;
        n -= part;
    }
    return 1;
}

int main(int argc, char **argv) {
    if (argc != 2 || (file = open(argv[1], O_RDONLY)) < 0) return 2;
    uint8_t head[8];
    if (!take(head, 8)) return 7;
    TEXT("record,time");
    for (uint32_t k = 1; k <= VALUES; k++) {
        TEXT(",V(");
        decimal(k);
        TEXT(")");
    }
    TEXT("\n");
    while (take(head, 1) && head[0] == 0x5A) {
        uint32_t len;
        if (!take(head, 4) || (len = number(head, 4)) > BODY || !take(body, len)) return 7;
        if (body[0] != 0x41) continue;
        uint32_t first = number(body + 4, 4), count = number(body + 8, 2);
        const uint8_t *from = body + 10;
        for (uint32_t k = 0; k < count; k++, from += 8 + 2 * VALUES) {
            if (page_len + ROW > PAGE) flush();
            decimal(first + k);
            TEXT(",");
            time_of(from);
            for (int v = 0; v < VALUES; v++) {
                TEXT(",");
                fp2(number(from + 8 + 2 * v, 2));
            }
            TEXT("\n");
        }
    }
    flush();
    return 0;
}
