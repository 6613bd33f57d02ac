/* What windows take without anything but the network and the copy of their samples: a library that floor.py calls, window by window.
 *
 * It sends the requests of a window at once over one connection, receives each answer where it stays in the image, and cuts the window out of
 * it, into memory of the caller's. It checks nothing. */
#include <arpa/inet.h>
#include <netinet/tcp.h>
#include <stdio.h>
#include <stdlib.h>
#include <string.h>
#include <sys/socket.h>
#include <unistd.h>

enum { MOST = 100 };

struct floor {
    unsigned char *image;
    unsigned across, side, window, *offsets;
    unsigned short port;
    int stream, answered;
};

/* Of a file of this length, with so many tiles in a row; the sides of tiles and windows; the offsets of the tiles. */
struct floor *floor_new(unsigned short port, size_t length, unsigned across, unsigned side, unsigned window, const unsigned *offsets,
                        size_t tiles) {
    struct floor *f = malloc(sizeof *f);
    *f = (struct floor){malloc(length), across, side, window, malloc(tiles * sizeof *offsets), port, -1, MOST};
    memcpy(f->offsets, offsets, tiles * sizeof *offsets);
    return f;
}

static void join(struct floor *f) {
    struct sockaddr_in place = {.sin_family = AF_INET, .sin_port = htons(f->port), .sin_addr.s_addr = htonl(INADDR_LOOPBACK)};
    int on = 1;
    if (f->stream >= 0) close(f->stream);
    f->stream = socket(AF_INET, SOCK_STREAM, 0);
    if (connect(f->stream, (struct sockaddr *)&place, sizeof place)) exit(1);
    setsockopt(f->stream, IPPROTO_TCP, TCP_NODELAY, &on, sizeof on);
    f->answered = 0;
}

static void receive(struct floor *f) {
    char head[4097], *end = NULL, *range;
    unsigned first, last;
    while (!end) {
        ssize_t n = recv(f->stream, head, 4096, MSG_PEEK);
        if (n <= 0) exit(2);
        head[n] = 0;
        end = strstr(head, "\r\n\r\n");
    }
    range = strstr(head, "bytes ");
    if (!range || sscanf(range, "bytes %u-%u", &first, &last) != 2) exit(3);
    recv(f->stream, head, end + 4 - head, MSG_WAITALL);
    for (size_t at = first; at <= last;) {
        ssize_t n = recv(f->stream, f->image + at, last + 1 - at, MSG_WAITALL);
        if (n <= 0) exit(4);
        at += n;
    }
    f->answered++;
}

/* The window at this column and row, behind so many requests. */
void floor_read(struct floor *f, const char *requests, size_t length, int asked, unsigned x, unsigned y, unsigned char *out) {
    if (asked && f->answered + asked > MOST) join(f);
    if (asked && send(f->stream, requests, length, 0) < 0) exit(5);
    for (; asked > 0; asked--) receive(f);
    for (unsigned row = y; row < y + f->window; row++)
        for (unsigned column = x, n; column < x + f->window; column += n) {
            n = f->side - column % f->side < x + f->window - column ? f->side - column % f->side : x + f->window - column;
            memcpy(out + (size_t)(row - y) * f->window + column - x,
                   f->image + f->offsets[row / f->side * f->across + column / f->side] + row % f->side * f->side + column % f->side, n);
        }
}

void floor_free(struct floor *f) {
    if (f->stream >= 0) close(f->stream);
    free(f->image);
    free(f->offsets);
    free(f);
}
