/* fuzz [COUNT [SEED]]: the calls of a driver against a server that changes answers. Both are in this process, and no socket is used.
 *
 * Each run reads a window or the info of a file whose samples are equal. The server changes one answer of it at random. Answers of a forged
 * file may follow, which has the same ETag and other samples. The file may be replaced by another revision. Then the run is checked:
 *
 *   - A window has the samples of its revision, and never those of the forged file. Only a changed head leads to a fault, or to no report.
 *   - An answer that isn't used, a loss, a query that is given up and a check end their connection. It is neither written nor read any more.
 *   - A run ends within a bounded number of steps: with a report, or where no exchange is left.
 *   - A check whether the file is the same has the right outcome.
 *   - No byte past a buffer is read or written. A buffer ends at a page without access, or malloc gave it in its exact size.
 *
 * The runs are made in groups of 16, each with a client and a seed of its own. Where something is wrong, the line before last has the seed of
 * the group, and `fuzz 16 SEED` shows it again. The last line is `fuzz: N runs, M wrong`, and the status is 0 where nothing was wrong. */
#include "delgunsai.h"
#include <stdio.h>
#include <stdlib.h>
#include <string.h>
#include <sys/mman.h>
#include <time.h>
typedef unsigned long long number;
enum { FRONT = 65536, SIDE = 16, ACROSS = 16, TILES = ACROSS * ACROSS, STRIDE = 32768, INSIDE = 4096, LENGTH = FRONT + TILES * STRIDE,
       OFFSETS = 1024, COUNTS = OFFSETS + 4 * TILES, GROUP = 16, EXCHANGES = 24, WALL = 1 << 20, MOST_PIECE = 65536, MOST_STEPS = 1000000 };
enum { OLD, NEW, FORGED, FILES };
static const uint8_t samples[FILES] = {7, 9, 238};
static uint8_t fronts[FILES][FRONT];                                          /* what follows in a file is its sample alone */
/* How an answer is changed. After the last four ways, its connection brings the forged file. */
enum way { PLAIN, EDITED, CUT, MORE, TWICE, REORDERED, INTERIM, RESTART, SHORT, SHORT_LATER, REFUSAL, REFUSAL_LATER, WAYS };
static const char *const ways[WAYS] = {"plain", "edited", "cut", "more", "twice", "reordered", "interim", "restart", "short", "short, then more",
                                       "refusal", "refusal, then more"};
static const char *const words[] = {"", "\r\n", "\n", ":", "\r\n\r\n", " ", "C", "0", "9", "\"u\"", "HTTP/1.0", "Content-Length: 3\r\n",
    "Connection: close\r\n", "Transfer-Encoding: chunked\r\n", "HTTP/1.1 206 Partial Content\r\n", "HTTP/1.1 100 Continue\r\n\r\n"};
static const char *const refusals[] = {"404 Not Found", "408 Request Timeout", "500 Internal Server Error", "304 Not Modified", "204 No Content"};
/* An answer: its head, and which part of which file follows. After a last one its connection brings nothing. */
struct answer { char head[512]; size_t head_length; uint32_t first, count, file; bool is_last; };
/* A connection: the requests that came, and what was sent. What stands from `pause` on comes later. A read may end at `edge`. */
static struct { bool is_open, is_over, is_forged, is_last, has_ended; size_t asked, begin, end, edge, pause; char requests[16384]; uint8_t sent[WALL]; } line;
static struct { enum way way; int left; uint32_t revision; bool is_changed; } server;
static struct {
    struct cog_client client;
    struct delgunsai_step step;
    uint8_t *piece, *piece_wall, *room_wall;                                  /* what was read; the ends of memory for it, and for rooms */
    size_t length, taken;                                                     /* of the piece */
    bool is_allocated, is_slow, is_lost;
    uint32_t exchanges, connections, steps, idle, give_up_at;
    char tag[COG_TAG_ROOM + 1];                                               /* of the report */
} driver;
static number state, seed, done, windows, changed, faults, unread, checks;
static uint32_t below(number bound) {
    state ^= state << 13, state ^= state >> 7, state ^= state << 17;
    return (state >> 32) % bound;
}
static number group_seed(void) { return seed ^ done / GROUP * 0x9e3779b97f4a7c15; }
static void print_place(void) {
    fprintf(stderr, "fuzz: seed %llu, run %llu of its group, %s, exchange %u, step %u, which says %u\n", group_seed(), done % GROUP, ways[server.way],
            driver.exchanges, driver.steps, driver.step.kind);
}
static void need(bool holds, const char *what) {
    if (holds) return;
    fprintf(stderr, "fuzz: wrong: %s\n", what);
    print_place();
    exit(printf("fuzz: %llu runs, 1 wrong\n", done + 1) > 0);
}
/* ---- the files */
static void lay_front(uint8_t *front, uint8_t sample) {
    static const struct { uint16_t tag, type; uint32_t count, value; } entries[] = {{254, 4, 1, 0}, {256, 4, 1, SIDE * ACROSS},
        {257, 4, 1, SIDE * ACROSS}, {258, 3, 1, 8}, {259, 3, 1, 1}, {262, 3, 1, 1}, {277, 3, 1, 1}, {322, 4, 1, SIDE}, {323, 4, 1, SIDE},
        {324, 4, TILES, OFFSETS}, {325, 4, TILES, COUNTS}};
    uint32_t arrays[2 * TILES];
    memset(front, sample, FRONT);
    memcpy(front, "II*\0\10\0\0\0\13\0", 10);
    memcpy(front + 10, entries, sizeof entries);
    memset(front + 10 + sizeof entries, 0, 4);
    for (uint32_t tile = 0; tile < TILES; tile++) arrays[tile] = FRONT + tile * STRIDE + INSIDE, arrays[TILES + tile] = SIDE * SIDE;
    memcpy(front + OFFSETS, arrays, sizeof arrays);
}
/* ---- the server */
static uint8_t *room_to_send(size_t length) {
    need(line.end + length <= sizeof line.sent, "the server has no room");
    return line.sent + (line.end += length) - length;
}
static void send_answer(const struct answer *answer) {
    if (line.is_last) return;
    memcpy(room_to_send(answer->head_length), answer->head, answer->head_length);
    uint8_t *place = room_to_send(answer->count);
    uint32_t of_front = answer->first >= FRONT ? 0 : answer->count < FRONT - answer->first ? answer->count : FRONT - answer->first;
    if (of_front) memcpy(place, fronts[answer->file] + answer->first, of_front);
    memset(place + of_front, samples[answer->file], answer->count - of_front);
    line.is_last = answer->is_last;
}
static const char *tag_of_server(void) { return server.revision == OLD ? "\"t\"" : "\"u\""; }
/* Returns whether a request has this field with the server's tag. */
static bool has_tag(const char *request, const char *field) {
    const char *found = strstr(request, field);
    return found && strncmp(found + strlen(field), tag_of_server(), 3) == 0;
}
static void lay_head(struct answer *answer, const char *status, const char *range, uint32_t length) {
    const char *format = "HTTP/1.1 %s\r\nETag: %s\r\n%sContent-Length: %u\r\n\r\n";
    answer->head_length = snprintf(answer->head, sizeof answer->head, format, status, tag_of_server(), range, length);
}
/* Returns the answer that has a front of the whole file. */
static struct answer whole(uint32_t file, const char *request) {
    struct answer answer = {.file = file, .count = request[0] == 'H' ? 0 : FRONT + below(2000), .is_last = true};
    return lay_head(&answer, "200 OK", "", LENGTH), answer;
}
/* Returns the answer that has a part of the file. */
static struct answer part(uint32_t first, uint32_t count, uint32_t file) {
    struct answer answer = {.first = first, .count = count, .file = file};
    char field[80];
    snprintf(field, sizeof field, "Content-Range: bytes %u-%u/%u\r\n", first, first + count - 1, LENGTH);
    return lay_head(&answer, "206 Partial Content", field, count), answer;
}
/* Returns the answer of a server that has this file under the current tag. */
static struct answer answer_to(const char *request, uint32_t file) {
    struct answer answer = {.file = file};
    unsigned first = 0, last = 0;
    const char *range = strstr(request, "\r\nRange: bytes=");
    if (request[0] == 'H')
        return lay_head(&answer, has_tag(request, "\r\nIf-None-Match: ") ? "304 Not Modified" : "200 OK", "", LENGTH), answer;
    need(range && sscanf(range, "\r\nRange: bytes=%u-%u", &first, &last) == 2 && first <= last, "a request has no range");
    if (strstr(request, "\r\nIf-Range: ") && !has_tag(request, "\r\nIf-Range: ")) return whole(file, request);
    if (first >= LENGTH) return lay_head(&answer, "416 Range Not Satisfiable", "", 0), answer;
    return part(first, (last < LENGTH ? last : LENGTH - 1) + 1 - first, file);
}
/* Changes a head in up to three places. */
static void edit(struct answer *answer) {
    for (uint32_t edits = 1 + below(3); edits > 0; edits--) {
        char byte[] = {below(256), 0};
        const char *word = below(3) ? words[below(sizeof words / sizeof *words)] : byte;
        size_t length = word == byte ? 1 : strlen(word), at = below(answer->head_length + 1), removed = below(3), rest = answer->head_length - at;
        if (removed > rest) removed = rest;
        memmove(answer->head + at + length, answer->head + at + removed, rest - removed);
        memcpy(answer->head + at, word, length);
        answer->head_length += length - removed;
    }
}
/* Sends an answer that announces ten bytes alone, or a refusal with ten or none. The connection brings the forged file from then on. */
static void send_unused(struct answer *answer, const struct answer *forged) {
    char *last = strstr(answer->head, "Content-Length");
    uint32_t is_refusal = server.way >= REFUSAL || answer->is_last, most = is_refusal && below(2) ? 0 : 10;
    if (is_refusal) lay_head(answer, refusals[below(sizeof refusals / sizeof *refusals)], "", most);
    else if (answer->count && below(2)) *answer = part(answer->first, most, answer->file);
    else answer->head_length = last - answer->head + sprintf(last, "Content-Length: 10\r\n\r\n");
    answer->count = answer->count < most ? answer->count : most, answer->is_last = false;
    send_answer(answer);
    if (server.way == SHORT_LATER || server.way == REFUSAL_LATER) line.pause = line.end;
    line.is_forged = true, send_answer(forged);
}
static void send_cut(const struct answer *answer) {
    size_t begin = line.end;
    send_answer(answer);
    line.end = begin + below(below(2) && line.end - begin > 300 ? 300 : line.end - begin);
    line.is_last = true, line.has_ended = below(2);
}
/* Sends a changed answer to the first of these requests. Returns how many of them it answered. A forged answer may be that to a request
 * which isn't made yet. */
static size_t send_changed(char **requests, size_t length) {
    bool is_alone = length == 1 && line.begin == line.end, is_early = is_alone && (server.way == MORE || (server.way == EDITED && below(2)));
    struct answer own = answer_to(requests[0], server.revision), forged = answer_to(requests[length > 1], FORGED);
    if (is_early && own.count && !own.is_last && own.first + STRIDE < LENGTH) forged = part(own.first + STRIDE, own.count, FORGED);
    server.is_changed = server.way != PLAIN, changed += server.is_changed;
    if (server.way == CUT) return send_cut(&own), length;
    if (server.way == RESTART) own = whole(server.revision ^= 1, requests[0]);
    if (server.way >= SHORT) return send_unused(&own, &forged), 1;
    if (server.way == EDITED) edit(&own);
    for (uint32_t k = server.way == INTERIM ? below(21) : 0; k > 0; k--) memcpy(room_to_send(28), "HTTP/1.1 103 Early Hints\r\n\r\n", 28);
    if (server.way == REORDERED && length > 1) {
        struct answer next = answer_to(requests[1], server.revision);
        return send_answer(&next), send_answer(&own), 2;
    }
    send_answer(&own), line.edge = line.end;
    if (server.way == TWICE) send_answer(&own);
    if ((server.way == MORE || server.way == EDITED) && length == 1) send_answer(&forged);
    return 1;
}
/* Answers the requests that came whole. */
static void serve(void) {
    char *requests[64], *text = line.requests, *end;
    size_t length = line.requests[line.asked] = 0;
    for (; length < 64 && (end = strstr(text, "\r\n\r\n")); text = end + 4) requests[length++] = text, end[2] = 0;
    for (size_t at = 0; at < length && !line.is_last;) {
        struct answer answer = answer_to(requests[at], line.is_forged ? FORGED : server.revision);
        if (server.left-- == 0) at += send_changed(requests + at, length - at);
        else send_answer(&answer), at++;
    }
    memmove(line.requests, text, line.asked -= text - line.requests);
}
/* ---- the driver */
/* Returns the end of memory after which no byte can be read or written. */
static uint8_t *make_wall(void) {
    uint8_t *place = mmap(NULL, WALL + 65536, PROT_READ | PROT_WRITE, MAP_PRIVATE | MAP_ANONYMOUS, -1, 0);
    need(place != MAP_FAILED && mprotect(place + WALL, 65536, PROT_NONE) == 0, "no memory is left");
    return place + WALL;
}
static void drop_piece(void) {
    if (driver.is_allocated) free(driver.piece);
    driver.piece = driver.piece_wall, driver.is_allocated = false, driver.length = driver.taken = 0;
}
static void read_piece(size_t ready) {
    static const size_t limits[] = {MOST_PIECE, MOST_PIECE, MOST_PIECE, MOST_PIECE, 5000, 200, 8, 1};
    size_t limit = driver.is_slow && driver.steps < 500 ? 3 : limits[below(8)], length = ready < limit ? ready : limit;
    if (line.edge > line.begin && length > line.edge - line.begin && below(2)) length = line.edge - line.begin;
    else if (below(2)) length = 1 + below(length);
    driver.piece = (driver.is_allocated = below(4) == 0) ? malloc(length) : driver.piece_wall - length;
    need(driver.piece != NULL, "no memory is left");
    memcpy(driver.piece, line.sent + line.begin, length);
    driver.length = length, driver.taken = 0, line.begin += length;
    if (line.begin == line.end) line.begin = line.end = line.edge = line.pause = 0;
}
static uint32_t connect_anew(void) {
    need(driver.taken == driver.length, "bytes of the old connection are left at a new one");
    need(driver.connections++ <= 2 * EXCHANGES, "too many connections");
    memset(&line, 0, (uint8_t *)line.requests - (uint8_t *)&line);
    if (below(64) == 0) return DELGUNSAI_FAILED;
    return line.is_open = true, need(delgunsai_client_connected(&driver.client) == 0, "a connection isn't taken"), 0;
}
static uint32_t write_some(void) {
    size_t room = below(4) ? DELGUNSAI_REQUEST_ROOM : 1 + below(40);
    int64_t all = delgunsai_client_waiting(&driver.client, driver.room_wall - room, room);
    size_t length = (size_t)all < room ? (size_t)all : room;
    need(all > 0, "nothing waits to be written");
    need(line.is_open && !line.is_over, "bytes are written on a connection that is over");
    if (line.has_ended && below(2)) return DELGUNSAI_FAILED;
    if (below(8) == 0) length = 1 + below(length);
    need(line.asked + length < sizeof line.requests, "too many requests");
    memcpy(line.requests + line.asked, driver.room_wall - room, length), line.asked += length;
    return need(delgunsai_client_wrote(&driver.client, length) == 0, "what was written isn't taken"), 0;
}
static uint32_t read_some(bool is_look) {
    need(driver.taken == driver.length, "bytes are left where more are asked for");
    need(line.is_open && !line.is_over, "bytes are read from a connection that is over");
    if (!line.has_ended) serve();
    size_t ready = (line.pause ? line.pause : line.end) - line.begin;
    if (ready) return read_piece(ready), 0;
    if (line.has_ended) return DELGUNSAI_ENDED;
    line.pause = 0;
    if (!is_look) return line.end > line.begin ? read_piece(line.end - line.begin), 0 : DELGUNSAI_LATE;
    return need(delgunsai_client_silent(&driver.client) == 0, "silence isn't taken"), 0;
}
/* Does what the step says. */
static void move(void) {
    uint32_t kind = driver.step.kind, lost = 0;
    if (kind == DELGUNSAI_CONNECT) lost = connect_anew();
    if (kind == DELGUNSAI_WRITE) lost = write_some();
    if (kind == DELGUNSAI_READ || kind == DELGUNSAI_LOOK) lost = read_some(kind == DELGUNSAI_LOOK);
    if (lost) {
        line.is_over = driver.is_lost = true, drop_piece();
        need(delgunsai_client_gone(&driver.client, lost, &driver.step) == 0, "a loss isn't taken");
    }
    if (driver.step.kind != DELGUNSAI_EXCHANGED) return;
    need(++driver.exchanges <= EXCHANGES, "too many exchanges");
    line.is_over |= driver.step.said.kind == COG_IGNORED || (driver.step.said.kind == COG_TOOK && driver.step.said.number == 0);
}
/* Begins a query, or the one that is under way anew. The connection is over where an exchange is under way. */
static void open_query(bool is_under_way) {
    uint32_t width = 1 + below(24), height = 1 + below(4), x = below(SIDE * ACROSS + 1 - width), y = below(SIDE * ACROSS + 1 - height), kind = below(16);
    if (kind == 0) cog_client_open_info(&driver.client);
    else if (kind == 1) cog_client_open_columns(&driver.client, x, y, width, height, width);
    else if (kind == 2 && is_under_way) cog_client_forget(&driver.client);
    else if (kind == 3 && is_under_way) delgunsai_client_exchanges(&driver.client, EXCHANGES);
    else cog_client_open_window(&driver.client, x, y, width, height, 0);
    line.is_over |= is_under_way;
    driver.exchanges = driver.connections = driver.steps = driver.idle = 0;
}
/* Goes on until the step is `last`. After some steps another query is begun, where that was chosen. */
static void drive(uint32_t last) {
    struct delgunsai_step *step = &driver.step;
    for (step->kind = DELGUNSAI_MORE; step->kind != last;) {
        size_t left = driver.length - driver.taken;
        need(delgunsai_client_go_on(&driver.client, driver.piece + driver.taken, left, step) == 0, "no memory is left");
        need(step->taken <= left, "more bytes are taken than came");
        driver.taken += step->taken;
        if (driver.taken == driver.length) drop_piece();
        driver.idle = step->taken == 0 && step->kind >= DELGUNSAI_LOOK ? driver.idle + 1 : 0;
        need(driver.idle < 8 && ++driver.steps < MOST_STEPS, "the steps don't end");
        move();
        need(step->kind != DELGUNSAI_OVER || last == DELGUNSAI_OVER, "a check ends as a query");
        if (driver.give_up_at > 0 && --driver.give_up_at == 0 && step->kind != last) open_query(step->kind != DELGUNSAI_EXCHANGED);
    }
    driver.give_up_at = 0;
}
/* ---- the runs */
static void judge_window(size_t length, uint32_t file, bool is_edited) {
    uint8_t *pixels = memset(driver.room_wall - length, samples[FORGED], length);
    need(cog_client_pixels(&driver.client, pixels, length) == (int64_t)length, "a window has another length");
    for (size_t k = 0; k < length; k++)
        need(pixels[k] != samples[FORGED] && (pixels[k] == samples[file] || is_edited), pixels[k] == samples[FORGED] ? "forged samples" : "other samples");
}
static void judge(bool is_edited) {
    struct cog_report report = {0};
    int64_t length = cog_client_report(&driver.client, &report, (uint8_t *)driver.tag, COG_TAG_ROOM);
    uint32_t file = length == 3 && driver.tag[1] == 'u' ? NEW : OLD;
    driver.tag[length] = 0;
    need(is_edited || length == 0 || strcmp(driver.tag, file == NEW ? "\"u\"" : "\"t\"") == 0, "another tag");
    need(length > 0 || (is_edited && driver.exchanges == EXCHANGES), "no report, though the server is there");
    need(report.kind != COG_FAULT || is_edited, "a fault of a file that has none");
    if (report.kind == COG_WINDOW) judge_window((size_t)report.width * report.height, file, is_edited);
    if (report.kind == COG_INFO) need(cog_client_info(&driver.client, driver.room_wall - 4096, 4096) > 0, "no info");
    windows += report.kind == COG_WINDOW, faults += report.kind == COG_FAULT, unread += length == 0;
}
/* Asks whether the file is the one that was read last. Now and then it was replaced. */
static void check(void) {
    if (below(4) == 0) server.revision ^= 1;
    uint32_t wanted = strcmp(driver.tag, tag_of_server()) == 0 ? COG_SAME : COG_OTHER;
    server.left = below(3), server.is_changed = driver.is_lost = false;
    need(delgunsai_client_ask_same(&driver.client) == 1, "nothing is known of a file that was read");
    line.is_over = true;                                        /* what it left is handed on, and dropped at CONNECT */
    drive(DELGUNSAI_CHECKED);
    uint32_t kind = driver.step.said.kind;
    line.is_over = true, checks++;
    need(kind == wanted || server.is_changed || (kind == COG_UNKNOWN && driver.is_lost), "a check is wrong");
}
static void begin_group(void) {
    static const uint32_t ahead[] = {64, 64, 3, 0};
    state = group_seed() * 0xbf58476d1ce4e5b9 | 1;
    memset(&line, 0, (uint8_t *)line.requests - (uint8_t *)&line), server.revision = OLD;
    need(cog_client_new((const uint8_t *)"h", 1, (const uint8_t *)"a", 1, 66, &driver.client) == 0, "no memory is left");
    cog_client_keep_open(&driver.client);
    cog_client_look_ahead(&driver.client, ahead[below(4)]);
    delgunsai_client_exchanges(&driver.client, EXCHANGES);
    drop_piece();
}
static void run(void) {
    if (done % GROUP == 0) begin_group();
    else if (below(16) == 0 || (server.is_changed && server.way == EDITED)) cog_client_forget(&driver.client);
    server.way = below(4) ? below(WAYS) : EDITED, server.left = below(3), server.is_changed = false;
    driver.is_slow = below(128) == 0, driver.give_up_at = below(16) ? 0 : 1 + below(40);
    line.has_ended |= below(32) == 0;
    if (below(64) == 0) delgunsai_client_add_field(&driver.client, (const uint8_t *)"A", 1, (const uint8_t *)"b", 1);
    open_query(false);
    drive(DELGUNSAI_OVER);
    bool is_edited = server.is_changed && server.way == EDITED;
    judge(is_edited);
    if (!is_edited && below(8) == 0) check();
}
/* With the address sanitizer, what it finds is printed with its place. A short history of memory makes it faster. */
extern void __sanitizer_set_death_callback(void (*callback)(void)) __attribute__((weak));
const char *__asan_default_options(void) { return "malloc_context_size=1:quarantine_size_mb=1:thread_local_quarantine_size_kb=64"; }
int main(int length, char **arguments) {
    number count = length > 1 ? strtoull(arguments[1], NULL, 10) : 20000;
    seed = length > 2 ? strtoull(arguments[2], NULL, 10) : (number)time(NULL);
    if (__sanitizer_set_death_callback) __sanitizer_set_death_callback(print_place);
    driver.piece_wall = make_wall(), driver.room_wall = make_wall();
    for (uint32_t file = 0; file < FILES; file++) lay_front(fronts[file], samples[file]);
    for (; done < count; done++) run();
    cog_client_free(&driver.client);
    printf("fuzz: seed %llu: %llu windows, %llu changed answers, %llu faults, %llu without a report, %llu checks; %.0f runs a second of a processor\n", seed,
           windows, changed, faults, unread, checks, count / ((double)clock() / CLOCKS_PER_SEC));
    printf("fuzz: %llu runs, 0 wrong\n", count);
    return 0;
}
