/* The yardstick: what `pakbus - - show` prints, from standard input, as a plain C program. */
#include <stdint.h>
#include <string.h>
#include <unistd.h>

#include "page.h"

enum { PIECE = 65536, LINE = 4250, BODY = 1010 };
enum state { SKIPPING, BETWEEN, PLAIN, QUOTING };

static uint8_t input[PIECE], body[BODY];
static size_t body_len;
static uint64_t count, piece;
static uint16_t sig;
static int damaged;

static void hex(const uint8_t *bytes, size_t n) {
    static const char digits[] = "0123456789ABCDEF";
    for (size_t i = 0; i < n; i++) {
        page[page_len++] = digits[bytes[i] >> 4];
        page[page_len++] = digits[bytes[i] & 15];
    }
}

static unsigned word(size_t k) { return (unsigned)body[2 * k] << 8 | body[2 * k + 1]; }

/* What is left of a message, and the place in it where it broke off. */
static const uint8_t *left, *message;
static size_t left_len, message_len;
static long broken;

static void room(size_t n) { if (page_len + n > PAGE) flush(); }

static const uint8_t *take(size_t n) {
    if (broken >= 0) return message;
    if (left_len < n) { broken = (long)(left - message); return message; }
    const uint8_t *at = left;
    left += n;
    left_len -= n;
    return at;
}
static uint32_t number(const uint8_t *at, size_t n) {
    uint32_t v = 0;
    while (n--) v = v << 8 | *at++;
    return v;
}
static void plain(const uint8_t *bytes, size_t n) {
    if (n == 0) { TEXT("-"); return; }
    hex(bytes, n);
}
static void escaped(const uint8_t *bytes, size_t n) {
    if (n == 0) { TEXT("-"); return; }
    for (size_t i = 0; i < n; i++) {
        uint8_t c = bytes[i];
        if (c == '\\') TEXT("\\\\");
        else if (c > 32 && c < 127) page[page_len++] = c;
        else { TEXT("\\x"); hex(&c, 1); }
    }
}
static void time_of(const uint8_t *at) {
    for (int k = 0; k < 2; k++) {
        int64_t v = (int32_t)number(at + 4 * k, 4);
        if (k) TEXT(".");
        if (v < 0) { TEXT("-"); v = -v; }
        decimal((uint64_t)v);
    }
}

/* A key of each letter: b, h and w numbers of 1, 2 and 4 bytes, s a signature, t a time, z a text, d the rest, c at most
   8 bytes, n numbers, e settings, r a response code behind which a refused reply ends, m a mode, p its parameters, q and
   v four and twelve bits of a word. `print` is 0 while the keys are only looked through. */
static int keys(const char *kinds, const char *const *names, int print) {
    unsigned mode = 0, bits = 0;
    for (size_t i = 0; kinds[i]; i++) {
        const uint8_t *at;
        char k = kinds[i];
        if (k == 'p') {
            size_t n = mode == 3 ? 0 : mode == 4 || mode == 5 ? 4 : mode == 7 ? 16 : 8;
            for (size_t j = 0; j * (mode == 7 ? 8 : 4) < n; j++) {
                at = take(mode == 7 ? 8 : 4);
                if (broken >= 0) return 0;
                if (!print) continue;
                text(j ? " p2 " : " p1 ", 4);
                if (mode == 7) time_of(at); else decimal(number(at, 4));
            }
            continue;
        }
        if (print && k != 'q') { TEXT(" "); text(names[i], strlen(names[i])); TEXT(" "); }
        switch (k) {
        case 'b': case 'r': at = take(1); break;
        case 'm': at = take(1); if (broken < 0 && (*at < 3 || *at > 8)) { broken = (long)(at - message); return 0; } break;
        case 'h': case 's': case 'q': at = take(2); break;
        case 'w': at = take(4); break;
        case 't': at = take(8); break;
        case 'z': {
            const uint8_t *end = broken < 0 ? memchr(left, 0, left_len) : 0;
            if (!end) { if (broken < 0) broken = (long)(left - message); return 0; }
            at = left;
            size_t n = (size_t)(end - at);
            if (print) escaped(at, n);
            left += n + 1;
            left_len -= n + 1;
            continue;
        }
        case 'd': case 'c': {
            size_t n = k == 'c' && left_len > 8 ? 8 : left_len;
            if (print) plain(left, n);
            left += n;
            left_len -= n;
            continue;
        }
        case 'n': {
            int any = 0;
            for (;;) {
                at = take(2);
                if (broken >= 0) return 0;
                unsigned v = number(at, 2);
                if (v == 0) break;
                if (print) { if (any) TEXT(","); decimal(v); }
                any = 1;
            }
            if (print && !any) TEXT("-");
            continue;
        }
        case 'e': {
            int any = 0;
            while (left_len) {
                unsigned v = number(take(2), 2);
                if (broken >= 0) return 0;
                unsigned n = number(take(2), 2);
                if (broken >= 0) return 0;
                at = take(n);
                if (broken >= 0) return 0;
                if (print) { room(2 * n + 16); if (any) TEXT(","); decimal(v); TEXT(":"); plain(at, n); }
                any = 1;
            }
            if (print && !any) TEXT("-");
            continue;
        }
        default: at = message;
        }
        if (broken >= 0) return 0;
        if (k == 'q') {
            bits = number(at, 2);
            if (print) { TEXT(" "); text(names[i], strlen(names[i])); TEXT(" "); decimal(bits >> 12); }
            continue;
        }
        if (k == 'm') mode = *at;
        if (!print) { if (k == 'r' && *at) return 1; continue; }
        if (k == 's') hex(at, 2);
        else if (k == 't') time_of(at);
        else decimal(number(at, k == 'b' || k == 'r' || k == 'm' ? 1 : k == 'h' ? 2 : 4));
        if (k == 'r' && *at) return 1;
    }
    return 1;
}

struct form { uint8_t type; const char *name, *kinds; const char *names[10]; };
static const struct form ctrl[] = {
    {0x09, "hello", "bbh", {"router", "metric", "verify"}},
    {0x89, "hello-reply", "bbh", {"router", "metric", "verify"}},
    {0x0D, "bye", "", {0}},
    {0x0E, "hello-request", "", {0}},
    {0x0F, "get-settings", "hh", {"code", "first"}},
    {0x8F, "get-settings-reply", "bbe", {"outcome", "more", "settings"}},
    {0x10, "set-settings", "he", {"code", "settings"}},
    {0x90, "set-settings-reply", "bh", {"outcome", "number"}},
    {0, 0, 0, {0}}};
static const struct form bmp5[] = {
    {0x09, "collect", "hmhspn", {"code", "mode", "table", "sig", "", "fields"}},
    {0x89, "collect-reply", "rd", {"resp", "bytes"}},
    {0x17, "clock", "ht", {"code", "adjust"}},
    {0x97, "clock-reply", "rt", {"resp", "time"}},
    {0x18, "stats", "h", {"code"}},
    {0x98, "stats-reply", "rzhzzbzhtz", {"resp", "osver", "ossig", "serial", "powerup", "state", "prog", "progsig", "time", "result"}},
    {0x1C, "download", "hzbbwd", {"code", "name", "attr", "close", "offset", "bytes"}},
    {0x9C, "download-reply", "rw", {"resp", "offset"}},
    {0x1D, "upload", "hzbwh", {"code", "name", "close", "offset", "swath"}},
    {0x9D, "upload-reply", "rwd", {"resp", "offset", "bytes"}},
    {0xA1, "wait", "bh", {"kind", "seconds"}},
    {0, 0, 0, {0}}};

static void begin(const uint8_t *m, size_t n) { message = left = m; message_len = left_len = n; broken = -1; }

static void malformed(long at) {
    TEXT("malformed at ");
    decimal((uint64_t)at);
    damaged = 1;
}

/* A failure: two words of four and twelve bits. */
static void failure(const uint8_t *m, size_t n) {
    static const size_t at[] = {2, 3, 5};
    for (size_t i = 0; i < 3; i++)
        if (n < at[i] + (i ? 2u : 1u)) { malformed((long)at[i]); return; }
    TEXT("failure tran "); decimal(m[1]);
    TEXT(" err "); decimal(m[2]);
    TEXT(" proto "); decimal(m[3] >> 4);
    TEXT(" dst "); decimal((unsigned)(m[3] & 15) << 8 | m[4]);
    TEXT(" hops "); decimal(m[5] >> 4);
    TEXT(" src "); decimal((unsigned)(m[5] & 15) << 8 | m[6]);
    TEXT(" carried ");
    plain(m + 7, n - 7 > 8 ? 8 : n - 7);
}

static void print_message(unsigned proto, const uint8_t *m, size_t n) {
    if (proto > 1) { TEXT("bytes "); plain(m, n); return; }
    if (n < 2) { malformed((long)n); return; }
    if (proto == 0 && *m == 0x81) { failure(m, n); return; }
    const struct form *f = proto ? bmp5 : ctrl;
    while (f->name && f->type != *m) f++;
    if (!f->name) { TEXT("unknown "); hex(m, 1); TEXT(" bytes "); plain(m + 1, n - 1); return; }
    begin(m, n);
    take(2);
    if (!keys(f->kinds, f->names, 0)) { malformed(broken); return; }
    begin(m, n);
    take(2);
    text(f->name, strlen(f->name));
    TEXT(" tran ");
    decimal(m[1]);
    keys(f->kinds, f->names, 1);
}

static void packet(size_t n) {
    static const char *const states[] = {"offline", "ring", "ready", "finished", "pause"};
    unsigned state = word(0) >> 12;
    size_t words = n == 4 ? 2 : 4;
    if (state < 8 || state > 12) {
        TEXT("bad packet state ");
        decimal(state);
        damaged = 1;
        return;
    }
    for (size_t k = 0; k < words; k++)
        if ((word(k) & 4095) == 0) {
            TEXT("bad packet address ");
            decimal(k);
            damaged = 1;
            return;
        }
    text(states[state - 8], strlen(states[state - 8]));
    TEXT(" ");
    decimal(word(1) & 4095);
    TEXT(">");
    decimal(word(0) & 4095);
    TEXT(" more ");
    decimal(word(1) >> 14);
    TEXT(" pri ");
    decimal(word(1) >> 12 & 3);
    if (n == 4) return;
    unsigned proto = word(2) >> 12;
    TEXT(" ");
    if (proto == 0) TEXT("pakctrl");
    else if (proto == 1) TEXT("bmp5");
    else { TEXT("proto"); decimal(proto); }
    TEXT(" ");
    decimal(word(3) & 4095);
    TEXT(">");
    decimal(word(2) & 4095);
    TEXT(" hops ");
    decimal(word(3) >> 12);
    TEXT(" ");
    print_message(proto, body + 8, n - 8);
}

static void begin_line(void) {
    if (page_len + LINE > PAGE) flush();
    decimal(piece);
    TEXT(" ");
}

static void bad(const char *why) {
    begin_line();
    TEXT("bad ");
    text(why, strlen(why));
    TEXT(" at ");
    decimal(count);
    TEXT("\n");
    damaged = 1;
}

static void end(void) {
    if (body_len < 10 && body_len != 6) bad("short");
    else if (sig != 0) bad("signature");
    else {
        begin_line();
        packet(body_len - 2);
        TEXT("\n");
    }
}

/* Keeps and signs a body byte; 0 where the body is too long. */
static int keep(uint8_t x) {
    if (body_len == BODY) return 0;
    body[body_len++] = x;
    unsigned low = (unsigned)sig << 1 & 0x1FF;
    if (low >= 0x100) low++;
    sig = (uint16_t)(((low + (sig >> 8) + x) & 0xFF) | (sig & 0xFF) << 8);
    return 1;
}

int main(void) {
    enum state state = SKIPPING;
    uint64_t room = 1073741824;
    for (;;) {
        ssize_t n = read(0, input, PIECE);
        if (n < 0) { TEXT("pakbus: read fault\n"); flush(); return 3; }
        if (n == 0) break;
        size_t take = (uint64_t)n > room ? (size_t)room : (size_t)n;
        for (size_t i = 0; i < take; i++, count++) {
            uint8_t x = input[i];
            if (state == SKIPPING) {
                if (x == 0xBD) state = BETWEEN;
                continue;
            }
            if (state == BETWEEN) {
                if (x == 0xBD) continue;
                piece = count;
                body_len = 0;
                sig = 0xAAAA;
                state = PLAIN;
            }
            if (state == QUOTING) {
                if (x == 0xDC || x == 0xDD) {
                    state = PLAIN;
                    if (!keep((uint8_t)(x - 0x20))) { bad("long"); state = SKIPPING; }
                } else {
                    bad("quote");
                    state = x == 0xBD ? BETWEEN : SKIPPING;
                }
            } else if (x == 0xBD) {
                end();
                state = BETWEEN;
            } else if (x == 0xBC) {
                state = QUOTING;
            } else if (!keep(x)) {
                bad("long");
                state = SKIPPING;
            }
        }
        flush();
        room -= take;
        if (take < (size_t)n) { TEXT("pakbus: format at byte 1073741824\n"); flush(); return 7; }
    }
    if (state == PLAIN || state == QUOTING) {
        decimal(piece);
        TEXT(" unfinished\n");
        flush();
        damaged = 1;
    }
    return damaged ? 7 : 0;
}
