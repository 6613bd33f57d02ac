/* The client's core of Delgunsai for C: it reads windows of Cloud Optimized GeoTIFF files over HTTP byte ranges, and needs no
 * socket. It gives the texts of requests, takes the bytes of answers, and reports.
 *
 * Link with libdelgunsai, which include/install makes of what `rt lib` proves and builds. It needs the C library alone.
 * docs/C.md has the commands. include/example.c is a program over it:
 *
 *     struct cog_client client = {0};
 *     struct delgunsai_step step = {0};
 *     struct cog_report report;
 *     uint8_t text[16384], tag[COG_TAG_ROOM], bytes[65536];
 *     size_t begin = 0, end = 0;
 *     if (cog_client_new(host, host_length, name, name_length, 256, &client) < 0) ..
 *     cog_client_keep_open(&client);
 *     cog_client_look_ahead(&client, 64);
 *     cog_client_open_window(&client, 3000, 2000, 256, 256, 0);
 *     while (step.kind != DELGUNSAI_OVER) {
 *         if (delgunsai_client_go_on(&client, bytes + begin, end - begin, &step) < 0) ..      no memory was left
 *         begin += step.taken;
 *         switch (step.kind) {
 *         case DELGUNSAI_CONNECT: ..            end the connection, make a new one
 *             delgunsai_client_connected(&client); break;
 *         case DELGUNSAI_WRITE:                 at most sizeof text bytes of it
 *             length = delgunsai_client_waiting(&client, text, sizeof text);
 *             delgunsai_client_wrote(&client, write(socket, text, length < sizeof text ? length : sizeof text)); break;
 *         case DELGUNSAI_LOOK:                  poll() without a wait, and where something is there go on as for DELGUNSAI_READ
 *             delgunsai_client_silent(&client); break;
 *         case DELGUNSAI_READ:                  into the front of `bytes`; without bytes the connection ended or failed (below)
 *             count = read(socket, bytes, sizeof bytes), begin = 0, end = count > 0 ? count : 0; break;
 *         case DELGUNSAI_EXCHANGED: ..          as step.said says: go on, or give up, as after a 404
 *         }
 *         ..                                    where a connection ends, fails or is late: delgunsai_client_gone(&client, how, &step)
 *     }
 *     if (cog_client_report(&client, &report, tag, sizeof tag) <= 0 || report.kind != COG_WINDOW) ..
 *     ..                                        pixels of report.width * report.height * report.samples * report.bits / 8 bytes
 *     cog_client_pixels(&client, pixels, pixels_length);
 *     cog_client_free(&client);
 *
 * The calls of the section "A driver" keep all rules of HTTP. A caller with exchanges of its own, as one that answers the requests from
 * a file, makes them by cog_client_request, cog_client_begin, cog_client_feed and cog_client_end.
 *
 * For each call:
 *
 *   - A pointer is to as many bytes as the length after it says, or to the struct. It isn't NULL, not even where the length is 0.
 *     The library keeps no pointer of the caller's: it uses none of this memory after the call returns. Memory that a call writes to
 *     doesn't overlap the memory of another pointer of the same call.
 *   - A handle has no client before cog_client_new or delgunsai_client_by_url returns 0, and after cog_client_free. Any other call on it
 *     then returns COG_NO_CLIENT and does nothing else.
 *   - A handle is used by one call at a time. It may be moved to another place in memory, and isn't copied to be used twice.
 *   - The thread that makes a client makes all further calls of that handle, cog_client_free too. Threads with clients of their own
 *     call at the same time: two clients share nothing. Any thread calls cog_swap_pairs. The Python package calls one client from
 *     several threads, one at a time under a lock. That is tested, and not proved.
 *   - malloc, realloc and free are of one allocator. No call is made from a signal handler, nor in the forked child of a process with
 *     threads.
 *   - A negative result is one of the errors COG_.. or DELGUNSAI_.. below. The comment of each call says what its other results mean.
 *   - `room` is a buffer of the caller's, and the result is the length in bytes of what is to be written there. If the buffer is shorter,
 *     nothing is written to it: call again with a buffer of that length. Only delgunsai_client_waiting writes as much as fits.
 *
 * What is reported is proved as the contracts of crates/delgunsai_c say, for callers that keep these rules. */
#ifndef DELGUNSAI_H
#define DELGUNSAI_H

#include <stdbool.h>
#include <stddef.h>
#include <stdint.h>

#ifdef __cplusplus
extern "C" {
#endif

/* The version of this header, and of the library that is installed with it. */
#define DELGUNSAI_VERSION "0.1.0"

/* delgunsai_version: returns that version, of the header that the program was compiled with. */
static inline const char *delgunsai_version(void) { return DELGUNSAI_VERSION; }

/* Why a call gives no answer. */
enum {
    COG_HOST = -1,         /* the host isn't 1 to 64 letters, digits, '.', '-', ':' */
    COG_NAME = -2,         /* the name isn't 1 to 200 bytes of A-Z a-z 0-9 . _ - / */
    COG_BLOCKS = -3,       /* not 66 to 4,096 blocks */
    COG_MEMORY = -4,       /* no memory was left */
    COG_NO_CLIENT = -5,    /* the handle has no client */
    COG_NO_REPORT = -6,    /* no report stands */
    COG_OTHER_REPORT = -7, /* the report is of another kind */
    COG_ORDER = -8,        /* the call doesn't fit what is under way */
    DELGUNSAI_AUTHORITY = -9,       /* not host and port of a URL, 1 to 255 bytes without userinfo */
    DELGUNSAI_TARGET = -10,         /* not path and query of a URL, at most 2,048 bytes */
    DELGUNSAI_FIELD_NAME = -11,     /* the name of a field isn't a token */
    DELGUNSAI_FIELD_RESERVED = -12, /* a field that the library writes itself, or that changes the connection or the answer */
    DELGUNSAI_FIELD_VALUE = -13,    /* the value of a field isn't visible ASCII with spaces and tabs inside */
    DELGUNSAI_FIELD_LINES = -14,    /* more than 16 fields */
    DELGUNSAI_FIELD_BYTES = -15     /* fields of more than 1,024 bytes */
};

/* delgunsai_error: returns what a negative result says, as a sentence without a full stop. Any other number is "no error". */
static inline const char *delgunsai_error(int32_t result) {
    switch (result) {
    case COG_HOST: return "the host isn't 1 to 64 letters, digits, '.', '-', ':'";
    case COG_NAME: return "the name isn't 1 to 200 bytes of A-Z a-z 0-9 . _ - /";
    case COG_BLOCKS: return "not 66 to 4,096 blocks";
    case COG_MEMORY: return "no memory was left";
    case COG_NO_CLIENT: return "the handle has no client";
    case COG_NO_REPORT: return "no report stands";
    case COG_OTHER_REPORT: return "the report is of another kind";
    case COG_ORDER: return "the call doesn't fit what is under way";
    case DELGUNSAI_AUTHORITY: return "not host and port of a URL, 1 to 255 bytes without userinfo";
    case DELGUNSAI_TARGET: return "not path and query of a URL, at most 2,048 bytes";
    case DELGUNSAI_FIELD_NAME: return "the name of a field isn't a token";
    case DELGUNSAI_FIELD_RESERVED: return "a field that the library writes itself, or that changes the connection or the answer";
    case DELGUNSAI_FIELD_VALUE: return "the value of a field isn't visible ASCII with spaces and tabs inside";
    case DELGUNSAI_FIELD_LINES: return "more than 16 fields";
    case DELGUNSAI_FIELD_BYTES: return "fields of more than 1,024 bytes";
    default: return result < 0 ? "an error of another version" : "no error";
    }
}

/* Lengths of buffers in bytes: for a request of a client made by cog_client_new without added fields, for any request, for any ETag. */
#define COG_REQUEST_ROOM 1024
#define DELGUNSAI_REQUEST_ROOM 4096
#define COG_TAG_ROOM 64

/* A handle: what holds a client. The caller owns it, and makes it of zeros: struct cog_client client = {0}. The client in it is the
 * library's, from cog_client_new or delgunsai_client_by_url to cog_client_free. The fields are the library's too. */
struct cog_client {
    void *at;
    bool full;
};

/* cog_client_new: makes a client of a file's name at a host, with a cache of `blocks` blocks of 16,384 bytes. Frees the handle's old client.
 *
 *   - host, name: text, as it stands in requests: a host with its port, and a path without the slash it begins with
 *   - blocks: 66 to 4,096. Unpacked tiles are kept, too, up to `blocks` * 16,384 bytes, and a buffer of at most 1,048,576 bytes
 *   - client: the handle; where the result is negative, it is as it was
 *
 * Returns 0; the first of COG_HOST, COG_NAME and COG_BLOCKS that applies; or COG_MEMORY. */
int32_t cog_client_new(const uint8_t *host, size_t host_length, const uint8_t *name, size_t name_length, uint32_t blocks,
                       struct cog_client *client);

/* delgunsai_client_by_url: makes a client of the file that a URL of http or https names, with a cache as cog_client_new. Frees the
 * handle's old client.
 *
 *   - authority: host and port, as they stand in the URL: a name, an IPv4 address or an IPv6 address in brackets, with a port or none
 *   - target: path and query, from the slash on; what isn't allowed there is percent-encoded (RFC 3986, section 2.1)
 *   - client: the handle; where the result is negative, it is as it was
 *
 * Returns 0; the first of DELGUNSAI_AUTHORITY, DELGUNSAI_TARGET and COG_BLOCKS that applies; or COG_MEMORY. */
int32_t delgunsai_client_by_url(const uint8_t *authority, size_t authority_length, const uint8_t *target, size_t target_length,
                                uint32_t blocks, struct cog_client *client);

/* delgunsai_client_add_field: adds a field, such as Authorization, to each request and check from here on. It follows the fields that were
 * added before. The name is a token (RFC 9110, section 5.6.2). The value is visible ASCII, with spaces and tabs inside (section 5.5). There are at most 16 fields.
 * Names, values and four bytes for each field are at most 1,024 bytes in all. Unless the result is 0, the client is as it was.
 *
 * Call it before the first query. If you call it later, the request that is under way stays as it was written, and its answer is taken.
 * Requests that were sent early have no such field, and are made once more. A driver makes a new connection for them.
 *
 * Returns 0; the first of DELGUNSAI_FIELD_.. that applies; COG_MEMORY or COG_NO_CLIENT. */
int32_t delgunsai_client_add_field(struct cog_client *client, const uint8_t *name, size_t name_length, const uint8_t *value,
                                   size_t value_length);

/* cog_client_free: frees the client of a handle, if it has one; the handle is then as one of zeros. */
void cog_client_free(struct cog_client *client);

/* cog_client_forget: drops the report, all that is known of the file, and what is under way. Host, name, added fields and query stay, and
 * so does what cog_client_keep_open and cog_client_look_ahead set. Returns 0 or COG_NO_CLIENT. */
int32_t cog_client_forget(struct cog_client *client);

/* cog_client_keep_open: writes all requests but the check without `Connection: close` from here on, so that a connection may be kept from
 * one to the next. The caller then has to know where an answer ends (RFC 9112, section 6.3), and feeds no byte after it. The caller also
 * has to end the connection after an answer that isn't used: if cog_client_end says COG_IGNORED, or COG_TOOK with the number 0. What is
 * left of such an answer could be read as the next one, and pixels can look like an answer. The caller has to end it, too, if bytes come
 * that no request asked for. Returns 0 or COG_NO_CLIENT. */
int32_t cog_client_keep_open(struct cog_client *client);

/* cog_client_look_ahead: lets each request from here on ask for up to `blocks` blocks that are needed later, 0 without this call. They
 * follow the first run of missing blocks of the range that is needed next, without a gap, and each of them is missing, too. A request has
 * at most 65 blocks in all, and no more than the cache has room for. Returns 0 or COG_NO_CLIENT. */
int32_t cog_client_look_ahead(struct cog_client *client, uint32_t blocks);

/* cog_client_open_window: asks for the samples of w columns from x and h rows from y, in pixels of the level of this number, instead
 * of the query before. What is known of the file stays. Returns 0 or COG_NO_CLIENT. */
int32_t cog_client_open_window(struct cog_client *client, uint32_t x, uint32_t y, uint32_t w, uint32_t h, uint32_t level);

/* cog_client_open_columns: asks for the samples of a window that is given in pixels of level 0. They are of the smallest level in which the
 * window is at least `columns` columns wide, before it is rounded outwards. If there is none, they are of level 0. Returns 0 or
 * COG_NO_CLIENT. */
int32_t cog_client_open_columns(struct cog_client *client, uint32_t x, uint32_t y, uint32_t w, uint32_t h, uint32_t columns);

/* cog_client_open_info: asks for the sides of the levels and what georeferences the image. Returns 0 or COG_NO_CLIENT. */
int32_t cog_client_open_info(struct cog_client *client);

/* cog_client_request: goes on as far as the known bytes reach, and writes the text of the next request to the room: a GET with a Range.
 * Returns the text's length; 0 if a report stands, or there is no query; COG_MEMORY or COG_NO_CLIENT. If it is called again before an
 * answer, the text is the same, except for what cog_client_keep_open, cog_client_look_ahead and added fields changed since. An unfinished
 * answer is dropped, as by cog_client_open_.. and cog_client_forget: don't feed what is left of it. After COG_MEMORY there is no request,
 * and the room is as it was. What is known of the file stays, and the call may be made again. */
int64_t cog_client_request(struct cog_client *client, uint8_t *room, size_t length);

/* cog_client_later: writes the text of an early request to the room. That is one that may be sent before the answer to the last request
 * of cog_client_request came, on the same connection, too. `index` counts them in their order, from 0. Its answer is taken once
 * cog_client_request returns the same text. That call may return another text instead, as after a replaced file or a cut answer. Returns
 * the text's length; 0 if there is no early request at this index; COG_MEMORY or COG_NO_CLIENT. There is none until cog_client_request,
 * cog_client_keep_open and cog_client_look_ahead with a number above 0 were all called. After them the result is 0 only if each later
 * block in reach is in the cache, or an early request of a smaller `index` asks for it. In reach are the byte ranges that are known to be needed, in
 * their order. The first one that lies before an earlier one, ends after the file, or has no room in the cache isn't in reach, nor is any
 * after it. The client stays as it was. */
int64_t cog_client_later(struct cog_client *client, uint32_t index, uint8_t *room, size_t length);

/* cog_client_begin: begins an answer to the request. An unfinished one is dropped. Returns 0 or COG_NO_CLIENT. */
int32_t cog_client_begin(struct cog_client *client);

/* cog_client_feed: takes the next bytes of the answer, from its status line on, as many as there are. If no answer is unfinished, one
 * begins here. After COG_MEMORY the rest of the answer is dropped: what is fed of it changes nothing. That holds until cog_client_end, or
 * until a call that drops an unfinished answer: cog_client_begin, cog_client_request, cog_client_open_.. or cog_client_forget. Returns 0,
 * COG_MEMORY or COG_NO_CLIENT. */
int32_t cog_client_feed(struct cog_client *client, const uint8_t *piece, size_t length);

/* What is said of an answer. */
struct cog_said {
    uint32_t kind;
    uint32_t number;
};

enum {
    COG_TOOK = 1,      /* it was taken; the number is of the blocks that were stored */
    COG_RESTARTED = 2, /* it was a whole file of another revision, which is read from now on */
    COG_IGNORED = 3    /* it changed nothing, but for one whose rest was dropped (cog_client_end); the reason has this number:
                        * docs/PROFILE.md, 1 to 12; 3: the status isn't 200 or 206 */
};

/* cog_client_end: ends the answer, whole or cut, and goes on as far as the known bytes reach. Writes to `said` what the answer did, if the
 * result is 0. Of an answer whose rest was dropped it says COG_IGNORED with the number 1 (cut). Blocks of that answer may be stored all the
 * same, and its revision may be the one that is read from now on. Returns 0, COG_MEMORY or COG_NO_CLIENT. After COG_MEMORY the answer has
 * ended, too: go on with cog_client_request, and don't repeat this call. Blocks of that answer may be stored, and its revision is the one
 * that is read from now on. */
int32_t cog_client_end(struct cog_client *client, struct cog_said *said);

/* What is reported; 0 in what isn't of its kind. */
struct cog_report {
    uint32_t kind;
    uint32_t width;   /* of a window: columns, rows, samples of a pixel (1 or 3), bits of a sample (8 or 16) */
    uint32_t height;
    uint32_t samples;
    uint32_t bits;
    uint32_t fault;   /* of a fault: its number, 1 to 18 (COG_FAULT_HEADER ..), and the field it is about, or 0 */
    uint32_t field;
};

enum { COG_WINDOW = 1, COG_INFO = 2, COG_FAULT = 3 };

/* `fault` of a report: what is wrong with the file, or with what is asked of it. docs/PROFILE.md has the rules. */
enum {
    COG_FAULT_HEADER = 1,        /* no classic TIFF: the byte order or the number 42 is wrong */
    COG_FAULT_PAST_END = 2,      /* bytes that are needed end after the file */
    COG_FAULT_DIR_PLACE = 3,     /* a directory's offset is odd or below 8 */
    COG_FAULT_DIR_COUNT = 4,     /* a directory has no entries, or more than 256 */
    COG_FAULT_TAG_ORDER = 5,     /* the tags of a directory don't ascend */
    COG_FAULT_TOO_MANY_DIRS = 6, /* more than 16 directories */
    COG_FAULT_MISSING = 7,       /* a level lacks this field */
    COG_FAULT_FIELD_TYPE = 8,    /* this field has another type or count */
    COG_FAULT_UNSUPPORTED = 9,   /* a value of this field isn't read */
    COG_FAULT_LEVEL_SHAPE = 10,  /* a side is 0, the first image is a reduced one, or a level isn't smaller than the one before */
    COG_FAULT_TILE_ARRAY = 11,   /* the array of tiles has not as many values as there are tiles, or more than 65536 */
    COG_FAULT_TILE_SIZE = 12,    /* a tile's side, plain size or byte count is wrong */
    COG_FAULT_PACKET = 13,       /* the packed bytes of a tile are no packets that fill it exactly, row by row */
    COG_FAULT_OUTSIDE = 14,      /* the window is empty or passes its level, there is no such level, or 0 columns are asked for */
    COG_FAULT_TOO_LARGE = 15,    /* more than 4194304 samples, or a geo field of more than 65536 bytes */
    COG_FAULT_KEY_HEAD = 16,     /* the geo keys' version, revision or length is wrong */
    COG_FAULT_KEY_ORDER = 17,    /* the geo keys don't ascend */
    COG_FAULT_KEY_PLACE = 18,    /* a geo key's values aren't where it says */
};

/* cog_client_report: writes the numbers of the report to `report`, and the file's ETag, with its quotes, to the room. The report stands
 * until the next query or cog_client_forget. Returns the ETag's length; 0 if no report stands, and then nothing is written; COG_NO_CLIENT.
 * `report` is written even if the room is too small for the ETag. */
int64_t cog_client_report(struct cog_client *client, struct cog_report *report, uint8_t *room, size_t length);

/* cog_client_pixels: writes the samples of the reported window to the room, row by row, and in a row pixel by pixel. A sample has one byte,
 * or two with the most significant one first. Returns the number of bytes, COG_NO_REPORT, COG_OTHER_REPORT or COG_NO_CLIENT. */
int64_t cog_client_pixels(struct cog_client *client, uint8_t *room, size_t length);

/* cog_swap_pairs: exchanges the bytes of each pair in the room: bytes 0 and 1, 2 and 3, and so on. So a computer that has the least
 * significant byte first can use samples of 16 bits. A last byte without a pair stays. The call needs no client. */
void cog_swap_pairs(uint8_t *room, size_t length);

/* cog_client_info: writes the text of the reported Info to the room: the lines of `cogread info`. Returns its length,
 * COG_NO_REPORT, COG_OTHER_REPORT, COG_MEMORY or COG_NO_CLIENT. */
int64_t cog_client_info(struct cog_client *client, uint8_t *room, size_t length);

/* cog_client_check: writes to the room a request that asks whether the file still has the known ETag. It is a HEAD with If-None-Match and
 * `Connection: close`. Returns its length; 0 if nothing is known of the file; COG_MEMORY or COG_NO_CLIENT. The client stays as it was. */
int64_t cog_client_check(struct cog_client *client, uint8_t *room, size_t length);

enum { COG_SAME = 1, COG_OTHER = 2, COG_UNKNOWN = 3 /* for this reason: 1 to 6 or 9 as COG_IGNORED, or 12: nothing is known */ };

/* cog_client_current: writes to `said` what the answer to a check, or its first bytes, say of the ETag: `kind` is COG_SAME, COG_OTHER or
 * COG_UNKNOWN. It changes nothing of the client. Returns 0 or COG_NO_CLIENT. */
int32_t cog_client_current(struct cog_client *client, const uint8_t *answer, size_t length, struct cog_said *said);

/* ---- A driver: the library says what to do, and the caller moves bytes.
 *
 * These calls keep all rules of a connection. They decide which request is sent and when, and which answer is taken for it. They find
 * where an answer ends. They also decide when the connection goes on after it, and what is sent once more. A driver has one connection at a time, plain or with TLS. It calls
 * delgunsai_client_go_on with the bytes that it read and that weren't taken so far, and does what the step says, until it is
 * DELGUNSAI_OVER. Call cog_client_keep_open first, so that connections can be kept. example.c is such a driver. A driver doesn't call
 * cog_client_request, cog_client_begin, cog_client_feed and cog_client_end. */

/* What a driver is to do next. */
enum {
    DELGUNSAI_CONNECT = 1,   /* end the connection, if there is one, make a new one, and call delgunsai_client_connected. All bytes that
                              * were handed on are taken: they are of the connection that ended */
    DELGUNSAI_WRITE = 2,     /* send what delgunsai_client_waiting writes, and call delgunsai_client_wrote */
    DELGUNSAI_READ = 3,      /* read bytes, at least one, and hand them on */
    DELGUNSAI_LOOK = 4,      /* see whether bytes are there without waiting for them: hand them on, or call delgunsai_client_silent */
    DELGUNSAI_EXCHANGED = 5, /* an exchange is over: `said`, `status` and `alone` say what it brought; go on */
    DELGUNSAI_CHECKED = 6,   /* the check is over: `said` is as cog_client_current writes it */
    DELGUNSAI_OVER = 7,      /* a report stands, there is no query, or no exchange is left: call cog_client_report */
    DELGUNSAI_MORE = 8       /* go on */
};

/* How a connection was lost. */
enum {
    DELGUNSAI_ENDED = 1,     /* the other end ended it */
    DELGUNSAI_FAILED = 2,    /* it failed, or couldn't be made */
    DELGUNSAI_LATE = 3       /* it brought nothing in time */
};

/* A step. */
struct delgunsai_step {
    uint64_t taken;          /* how many of the bytes were taken, from the first on; the others are handed on with the next call. None are
                              * left at DELGUNSAI_CONNECT, DELGUNSAI_READ and DELGUNSAI_LOOK */
    uint32_t kind;           /* what to do next */
    struct cog_said said;    /* after an exchange, what the answer did, as cog_client_end writes it; after a check, what it says */
    uint32_t status;         /* after an exchange or a check, the status code of the answer; 0 where no whole head came */
    uint32_t alone;          /* after an exchange, 1 where no other request was sent with its request; no contract says so */
};

/* delgunsai_client_go_on: takes bytes that came, and writes to `step` what to do next. `bytes` are those that earlier calls didn't take,
 * and after them those that came since; `length` is 0 if there are none. Bytes that nothing asked for end the connection, and are taken.
 * Returns 0, COG_MEMORY or COG_NO_CLIENT. After COG_MEMORY an exchange that was under way is over, with its connection; what was taken of
 * its answer stays. If only the text of the next request couldn't be made, a kept connection stays. */
int32_t delgunsai_client_go_on(struct cog_client *client, const uint8_t *bytes, size_t length, struct delgunsai_step *step);

/* delgunsai_client_waiting: writes to the room the first of the bytes that are to be sent, as many as it holds. Returns how many there are
 * in all, or COG_NO_CLIENT. */
int64_t delgunsai_client_waiting(struct cog_client *client, uint8_t *room, size_t length);

/* delgunsai_client_wrote: notes that the first `count` bytes that waited were written. Returns 0; COG_ORDER if fewer waited, or if neither a
 * check nor an exchange with a connection is under way; or COG_NO_CLIENT. */
int32_t delgunsai_client_wrote(struct cog_client *client, size_t count);

/* delgunsai_client_connected: notes that a new connection is there. Returns 0; COG_ORDER, where a check has one already, or neither a check
 * nor an exchange is under way; COG_MEMORY or COG_NO_CLIENT. */
int32_t delgunsai_client_connected(struct cog_client *client);

/* delgunsai_client_silent: notes that nothing came on the connection before the request is written. Returns 0 or COG_NO_CLIENT. */
int32_t delgunsai_client_silent(struct cog_client *client);

/* delgunsai_client_gone: notes that the connection is gone, or couldn't be made. `how` is one of DELGUNSAI_ENDED, _FAILED and _LATE. Bytes that weren't taken are dropped. The step is
 * DELGUNSAI_MORE, or DELGUNSAI_EXCHANGED where the exchange is over by it. Returns 0, COG_MEMORY or COG_NO_CLIENT. */
int32_t delgunsai_client_gone(struct cog_client *client, uint32_t how, struct delgunsai_step *step);

/* delgunsai_client_exchanges: lets each query from here on take at most `exchanges` exchanges: any number, 65,536 without this call. What is under way
 * is dropped with its connection, as by cog_client_open_.. and cog_client_forget. Returns 0 or COG_NO_CLIENT. */
int32_t delgunsai_client_exchanges(struct cog_client *client, uint32_t exchanges);

/* delgunsai_client_ask_same: begins the check whether the file still is the one that was read last. The next steps are of the check, up to
 * DELGUNSAI_CHECKED. The check has a connection of its own. Whatever it brings, what is under way is dropped, and that connection ends. Returns 1;
 * 0 if nothing is known of the file; COG_MEMORY or COG_NO_CLIENT. */
int32_t delgunsai_client_ask_same(struct cog_client *client);

#ifdef __cplusplus
}
#endif

#endif
