/* `collect PORT ARCHIVE` as a plain program: asks the logger on this port of this machine for the records of
   its table 1 from 0 on, and appends them to the archive by the calls that `pakbus FILE PEER collect` makes: the entry, a sync,
   its gate, a sync. It trusts what it hears but for the signatures, and ends at the first answer without more to come. */
#include <arpa/inet.h>
#include <fcntl.h>
#include <netinet/in.h>
#include <netinet/tcp.h>
#include <stdint.h>
#include <stdio.h>
#include <stdlib.h>
#include <string.h>
#include <sys/socket.h>
#include <sys/stat.h>
#include <sys/uio.h>
#include <unistd.h>

static uint16_t sign(const uint8_t *bytes, size_t len, uint16_t seed) {
    for (size_t i = 0; i < len; i++) {
        uint16_t low = (uint16_t)(seed << 1) & 0x1ff;
        if (low >= 0x100) low++;
        seed = (uint16_t)(seed << 8 | ((low + (seed >> 8) + bytes[i]) & 0xff));
    }
    return seed;
}

static size_t frame(uint8_t *out, const uint8_t *body, size_t len) {
    uint8_t whole[64];
    size_t at = 0;
    memcpy(whole, body, len);
    for (int k = 0; k < 2; k++) {
        uint16_t seed = sign(whole, len + (size_t)k, 0xaaaa);
        uint16_t low = (uint16_t)(seed << 1) & 0x1ff;
        if (low >= 0x100) low++;
        whole[len + (size_t)k] = (uint8_t)(0x100 - ((low + (seed >> 8)) & 0xff));
    }
    out[at++] = 0xbd;
    for (size_t i = 0; i < len + 2; i++) {
        if (whole[i] == 0xbc || whole[i] == 0xbd) {
            out[at++] = 0xbc;
            out[at++] = whole[i] + 0x20;
        } else {
            out[at++] = whole[i];
        }
    }
    out[at++] = 0xbd;
    return at;
}

static void put(uint8_t *at, uint32_t value, int bytes) {
    for (int i = bytes - 1; i >= 0; i--, value >>= 8) at[i] = (uint8_t)value;
}

static uint32_t get(const uint8_t *at, int bytes) {
    uint32_t value = 0;
    for (int i = 0; i < bytes; i++) value = value << 8 | at[i];
    return value;
}

static uint8_t chunk[4096], content[4096];
static size_t have, next;

/* the next good frame, without its flags */
static size_t hear(int stream) {
    size_t len = 0;
    int quoted = 0;
    for (;;) {
        if (next == have) {
            ssize_t got = recv(stream, chunk, sizeof chunk, 0);
            if (got <= 0) return 0;
            have = (size_t)got;
            next = 0;
        }
        uint8_t byte = chunk[next++];
        if (byte == 0xbd) {
            if (len >= 2 && sign(content, len, 0xaaaa) == 0) return len - 2;
            len = 0;
            quoted = 0;
        } else if (byte == 0xbc) {
            quoted = 1;
        } else if (len < sizeof content) {
            content[len++] = quoted ? byte - 0x20 : byte;
            quoted = 0;
        }
    }
}

int main(int argc, char **argv) {
    if (argc != 3) return 2;
    int file = open(argv[2], O_RDWR);
    struct stat found;
    if (file < 0 || fstat(file, &found) != 0) return 1;
    static uint8_t archive[65536], table[4096];
    if (found.st_size > (off_t)sizeof archive || pread(file, archive, sizeof archive, 0) != found.st_size) return 1;
    /* the second entry is the table's: its definition is behind four bytes */
    size_t plan = 8 + 5 + get(archive + 9, 4), len = get(archive + plan + 1, 4) - 4;
    memcpy(table, archive + plan + 5 + 4, len);
    uint16_t signature = sign(table, len, 0xaaaa);
    off_t gate = found.st_size - 1;

    int stream = socket(AF_INET, SOCK_STREAM, 0), one = 1;
    struct sockaddr_in peer = {.sin_family = AF_INET, .sin_port = htons((uint16_t)strtol(argv[1], 0, 10)), .sin_addr.s_addr = htonl(INADDR_LOOPBACK)};
    if (connect(stream, (struct sockaddr *)&peer, sizeof peer) != 0) return 1;
    setsockopt(stream, IPPROTO_TCP, TCP_NODELAY, &one, sizeof one);

    uint32_t front = 0, asked = 0;
    uint8_t tran = 1;
    for (;;) {
        uint8_t ask[] = {0xa0, 0x0a, 0x5f, 0xfe, 0x10, 0x0a, 0x0f, 0xfe, 0x09, tran++, 0, 0, 4, 0, 1, 0, 0, 0, 0, 0, 0, 0, 0};
        put(ask + 15, signature, 2);
        put(ask + 17, front, 4);
        uint8_t framed[128];
        size_t size = frame(framed, ask, sizeof ask);
        if (send(stream, framed, size, 0) != (ssize_t)size) return 1;
        asked++;
        size_t got = hear(stream);
        if (got < 20 || content[8] != 0x89 || content[10] != 0) return 1;
        uint32_t first = get(content + 13, 4), count = get(content + 17, 2);
        size_t records = got - 20;
        if (count > 0) {
            uint8_t head[15] = {0}, closed = 0, open = 0x5a;
            put(head + 1, (uint32_t)(10 + records), 4);
            head[5] = 0x41;
            put(head + 9, first, 4);
            put(head + 13, count, 2);
            struct iovec parts[] = {{head + 1, 14}, {content + 19, records}, {&closed, 1}};
            if (pwritev(file, parts, 3, gate + 1) != (ssize_t)(15 + records) || fsync(file) != 0) return 1;
            if (pwrite(file, &open, 1, gate) != 1 || fsync(file) != 0) return 1;
            gate += (off_t)(15 + records);
            front = first + count;
        }
        if (content[got - 1] == 0) break;
    }
    printf("0 %u asked %u\n", front, asked);
    return 0;
}
