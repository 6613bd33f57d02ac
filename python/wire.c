/* Moves bytes between the core and a socket without the interpreter, as far as nothing has to be waited for long. What is to be done is
 * the core's to say (include/delgunsai.h). A step that can't be done here is left to the loop of _sources.py, which goes on from there. */
#include "delgunsai.h"
#include <errno.h>
#include <poll.h>
#include <string.h>
#include <sys/socket.h>
#include <time.h>

enum { ABI = 3 };                     /* of this file's calls and structs: a change of theirs changes it here and in _core.py */
enum { SLICE = 100, WAIT = 20 };      /* milliseconds: until the interpreter is let look for signals; of one wait */

struct wire {
    int32_t socket;                   /* -1: none that bytes are moved over here */
    uint32_t goes_on;                 /* whether it goes on after an exchange that brought blocks */
    uint32_t lost;                    /* how the connection was lost, as delgunsai_client_gone takes it; 0: it wasn't */
    int32_t error;                    /* why it failed */
    struct delgunsai_step step;       /* what is to be done next */
    uint8_t *room;                    /* what came: the bytes from begin to end aren't taken */
    size_t size, begin, end;
};

/* A window of many, and the place for its samples. */
struct want { uint32_t x, y, width, height; uint8_t *place; };
_Static_assert(sizeof(struct want) == 16 + sizeof(uint8_t *), "as WANT of _core.py has it");

/* Windows of a level, whose reports are to have these samples, bits and tag. */
struct many {
    const struct want *wants;
    uint32_t count, level, swapped;   /* swapped: whether samples of two bytes have the least significant one first */
    uint32_t done, is_asked;          /* how many are read, and whether the next one is asked for */
    struct cog_report like;
    const uint8_t *tag;
    size_t tag_length;
};

/* What the package compares with its own when it loads the library. */
uint32_t delgunsai_abi(void) { return ABI; }
size_t delgunsai_wire_size(void) { return sizeof(struct wire); }
size_t delgunsai_many_size(void) { return sizeof(struct many); }

/* Milliseconds. */
static int64_t now(void) {
    struct timespec time;
    clock_gettime(CLOCK_MONOTONIC, &time);
    return (int64_t)time.tv_sec * 1000 + time.tv_nsec / 1000000;
}

/* Notes that the connection was lost where a call of the socket moved no byte, unless that has to be waited for. */
static bool fail(struct wire *wire, ssize_t count) {
    wire->error = count == 0 ? 0 : errno;
    if (wire->error != EAGAIN && wire->error != EINTR) wire->lost = count == 0 ? DELGUNSAI_ENDED : DELGUNSAI_FAILED;
    return false;
}

/* Writes what waits, or the first of it, and says whether it did. */
static bool write_some(struct cog_client *client, struct wire *wire) {
    uint8_t text[4 * DELGUNSAI_REQUEST_ROOM];
    int64_t length = delgunsai_client_waiting(client, text, sizeof text);
    ssize_t count = send(wire->socket, text, length < (int64_t)sizeof text ? (size_t)length : sizeof text, MSG_NOSIGNAL | MSG_DONTWAIT);
    return count > 0 ? delgunsai_client_wrote(client, (size_t)count) == 0 : fail(wire, count);
}

/* Reads what is there, or comes soon, and says whether something came. */
static bool read_some(struct wire *wire) {
    struct pollfd ready = {wire->socket, POLLIN, 0};
    ssize_t count = recv(wire->socket, wire->room, wire->size, MSG_DONTWAIT);
    if (count < 0 && errno == EAGAIN && poll(&ready, 1, WAIT) > 0) count = recv(wire->socket, wire->room, wire->size, MSG_DONTWAIT);
    wire->begin = 0;
    wire->end = count > 0 ? (size_t)count : 0;
    return count > 0 || fail(wire, count);
}

/* Looks whether the connection is silent, and says whether it is. */
static bool is_silent(struct cog_client *client, struct wire *wire) {
    struct pollfd ready = {wire->socket, POLLIN, 0};
    return poll(&ready, 1, 0) == 0 && delgunsai_client_silent(client) == 0;
}

/* Does what the step says, and says whether it did. */
static bool is_done(struct cog_client *client, struct wire *wire) {
    const struct delgunsai_step *step = &wire->step;
    if (step->kind == DELGUNSAI_MORE) return true;
    if (step->kind == DELGUNSAI_EXCHANGED) return wire->goes_on && step->said.kind == COG_TOOK && step->said.number > 0;
    if (wire->socket < 0) return false;
    if (step->kind == DELGUNSAI_WRITE) return write_some(client, wire);
    if (step->kind == DELGUNSAI_READ) return read_some(wire);
    return step->kind == DELGUNSAI_LOOK && is_silent(client, wire);
}

static int32_t carry(struct cog_client *client, struct wire *wire, int64_t until) {
    wire->lost = 0;
    do {
        int32_t result = delgunsai_client_go_on(client, wire->room + wire->begin, wire->end - wire->begin, &wire->step);
        if (result < 0) return result;
        wire->begin += wire->step.taken;
        if (!is_done(client, wire)) return 0;
    } while (now() < until);
    wire->step.kind = DELGUNSAI_MORE;
    return 0;
}

/* Goes on as far as it can, or for a slice. */
int32_t delgunsai_carry(struct cog_client *client, struct wire *wire) { return carry(client, wire, now() + SLICE); }

/* Whether the report that stands is of the next window, with these samples, bits and tag, and its samples are laid into their place. */
static bool take_window(struct cog_client *client, const struct many *many) {
    const struct want *want = many->wants + many->done;
    struct cog_report report, wanted = many->like;
    uint8_t tag[COG_TAG_ROOM];
    size_t length = (size_t)want->width * want->height * wanted.samples * (wanted.bits / 8);
    wanted.width = want->width;
    wanted.height = want->height;
    if (cog_client_report(client, &report, tag, sizeof tag) != (int64_t)many->tag_length || memcmp(tag, many->tag, many->tag_length)) return false;
    if (memcmp(&report, &wanted, sizeof report) || cog_client_pixels(client, want->place, length) != (int64_t)length) return false;
    if (many->swapped) cog_swap_pairs(want->place, length);
    return true;
}

/* Does the same, window by window. The step is DELGUNSAI_OVER where all are read, or the report that stands is of another kind. */
int32_t delgunsai_read(struct cog_client *client, struct wire *wire, struct many *many) {
    for (int64_t until = now() + SLICE; many->done < many->count; many->done++, many->is_asked = 0) {
        const struct want *want = many->wants + many->done;
        if (!many->is_asked++) cog_client_open_window(client, want->x, want->y, want->width, want->height, many->level);
        int32_t result = carry(client, wire, until);
        if (result < 0 || wire->step.kind != DELGUNSAI_OVER || !take_window(client, many)) return result;
    }
    wire->step.kind = DELGUNSAI_OVER;
    return 0;
}
