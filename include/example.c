/* example ADDRESS:PORT/NAME X Y W H LEVEL: reads a window of a server's file. Writes its samples to standard output, and a line about the
 * report to standard error. */
#include "delgunsai.h"
#include <arpa/inet.h>
#include <poll.h>
#include <stdio.h>
#include <stdlib.h>
#include <string.h>
#include <unistd.h>

struct line { int peer; size_t begin, end; uint8_t bytes[65536]; };    /* a connection; the bytes from begin to end came and aren't taken */

static void need(bool holds, const char *what) {
    if (!holds) { fprintf(stderr, "example: %s\n", what); exit(1); }
}

/* Does what a step says. Returns how the connection was lost by it, or 0. */
static uint32_t move(struct cog_client *client, uint32_t kind, const struct sockaddr_in *host, struct line *line) {
    uint8_t text[16 * COG_REQUEST_ROOM];
    ssize_t count = 1;
    if (kind == DELGUNSAI_CONNECT) {
        if (line->peer >= 0) close(line->peer);
        line->peer = socket(AF_INET, SOCK_STREAM, 0);
        if (connect(line->peer, (const struct sockaddr *)host, sizeof *host) < 0) return DELGUNSAI_FAILED;
        need(delgunsai_client_connected(client) == 0, "out of memory");
    } else if (kind == DELGUNSAI_WRITE) {
        size_t length = delgunsai_client_waiting(client, text, sizeof text);
        count = send(line->peer, text, length < sizeof text ? length : sizeof text, MSG_NOSIGNAL);
        if (count > 0) delgunsai_client_wrote(client, count);
    } else if (kind == DELGUNSAI_READ || kind == DELGUNSAI_LOOK) {
        if (poll(&(struct pollfd){line->peer, POLLIN, 0}, 1, kind == DELGUNSAI_LOOK ? 0 : 10000) <= 0)    /* milliseconds */
            return kind == DELGUNSAI_LOOK ? delgunsai_client_silent(client), 0 : DELGUNSAI_LATE;
        count = recv(line->peer, line->bytes, sizeof line->bytes, 0);
        line->begin = 0, line->end = count > 0 ? count : 0;
    }
    return count > 0 ? 0 : count == 0 ? DELGUNSAI_ENDED : DELGUNSAI_FAILED;
}

/* Makes exchanges until a report stands, or no exchange is left. Ends the program if an answer with a whole head can't be used, as a 404,
 * and no other request was sent with its own. */
static void run(struct cog_client *client, const struct sockaddr_in *host) {
    static struct line line = {.peer = -1};
    struct delgunsai_step step = {.kind = DELGUNSAI_MORE};
    while (step.kind != DELGUNSAI_OVER) {
        need(delgunsai_client_go_on(client, line.bytes + line.begin, line.end - line.begin, &step) == 0, "out of memory");
        line.begin += step.taken;
        uint32_t lost = move(client, step.kind, host, &line);
        need(!lost || delgunsai_client_gone(client, lost, &step) == 0, "out of memory");
        need(step.kind != DELGUNSAI_EXCHANGED || !step.alone || step.said.kind != COG_IGNORED || !step.status, "an answer isn't used");
    }
}

int main(int count, char **words) {
    struct cog_client client = {0};
    struct cog_report report = {0};
    struct sockaddr_in host = {.sin_family = AF_INET};
    uint8_t tag[COG_TAG_ROOM], *place = (uint8_t *)words[1];
    char address[32];
    int name = 0;
    need(count == 7, "example ADDRESS:PORT/NAME X Y W H LEVEL");
    need(sscanf(words[1], "%31[0-9.]:%hu/%n", address, &host.sin_port, &name) == 2 && name > 0 && inet_pton(AF_INET, address, &host.sin_addr) == 1,
         "no ADDRESS:PORT/NAME");
    host.sin_port = htons(host.sin_port);
    need(cog_client_new(place, name - 1, place + name, strlen(words[1]) - name, 66, &client) == 0, "no client of this host and name");
    cog_client_keep_open(&client);
    cog_client_look_ahead(&client, 64);
    delgunsai_client_exchanges(&client, 100);
    cog_client_open_window(&client, atoi(words[2]), atoi(words[3]), atoi(words[4]), atoi(words[5]), atoi(words[6]));
    run(&client, &host);
    int64_t length = cog_client_report(&client, &report, tag, sizeof tag);
    need(length > 0, "no report");
    fprintf(stderr, "kind %u width %u height %u samples %u bits %u fault %u field %u tag %.*s\n", report.kind, report.width, report.height,
            report.samples, report.bits, report.fault, report.field, (int)length, (char *)tag);
    length = (int64_t)report.width * report.height * report.samples * report.bits / 8;
    uint8_t *pixels = malloc(length + 1);
    need(report.kind != COG_WINDOW || (pixels && cog_client_pixels(&client, pixels, length) == length), "no pixels");
    fwrite(pixels, 1, length, stdout);
    free(pixels);
    cog_client_free(&client);
    return report.kind == COG_FAULT ? 3 : 0;
}
