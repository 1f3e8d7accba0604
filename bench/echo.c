/* The yardstick of `serve`: sends each frame back that it hears, over one connection on the loopback address, and ends
   after so many of them. Its calls wait a second at most, as those of `pakbus` do. Usage: echo PORT FRAMES */
#include <arpa/inet.h>
#include <stdint.h>
#include <stdlib.h>
#include <string.h>
#include <sys/socket.h>
#include <sys/time.h>
#include <unistd.h>

enum { CHUNK = 4096, FRAME = 2022, FLAG = 0xBD };

static uint8_t chunk[CHUNK], frame[FRAME];

int main(int argc, char **argv) {
    if (argc != 3) return 2;
    long left = atol(argv[2]);
    int port = socket(AF_INET, SOCK_STREAM, 0), yes = 1;
    struct sockaddr_in at = {.sin_family = AF_INET, .sin_port = htons((uint16_t)atoi(argv[1])), .sin_addr.s_addr = htonl(INADDR_LOOPBACK)};
    setsockopt(port, SOL_SOCKET, SO_REUSEADDR, &yes, sizeof yes);
    if (bind(port, (struct sockaddr *)&at, sizeof at) || listen(port, 1)) return 1;
    int stream = accept(port, 0, 0);
    struct timeval second = {.tv_sec = 1};
    setsockopt(stream, SOL_SOCKET, SO_RCVTIMEO, &second, sizeof second);
    setsockopt(stream, SOL_SOCKET, SO_SNDTIMEO, &second, sizeof second);
    size_t len = 0;
    while (left > 0) {
        ssize_t n = read(stream, chunk, CHUNK);
        if (n <= 0) return 1;
        for (ssize_t i = 0; i < n && left > 0; i++) {
            if (len == 0) {
                frame[0] = FLAG;
                len = chunk[i] == FLAG;
                continue;
            }
            if (chunk[i] == FLAG && len == 1) continue;
            if (len == FRAME) return 1;
            frame[len++] = chunk[i];
            if (chunk[i] != FLAG) continue;
            if (write(stream, frame, len) != (ssize_t)len) return 1;
            len = 1;
            left--;
        }
    }
    return 0;
}
