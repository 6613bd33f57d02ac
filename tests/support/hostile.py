"""What hostile servers do, and what a reader may make of it: one table for all readers.

A row names the behaviour, the rule that decides, which requests are answered so, and the way of the answer. Its outcomes are those of
`cogread` by a URL, of `cogread` by SERVER NAME, of the driver in C and of the Python package, in this order:

- reads: a window comes, of one revision
- fails: no window comes, and no fault of the file
- either: one of these two
- waits: the reader has no limit of time, and reads on
- `-`: the behaviour can't be shown to it

The bytes that HTTP/1.1 lets a client take under a tag are always of the revision with this tag. So a window of neither revision is wrong
in each row, and so is a fault."""
from typing import Callable, NamedTuple, Optional, Tuple

from answers import head, part_of
from hostile_server import ENDS, FILE, HOLDS, RESETS, SPENT, TAG
from hostile_ways import (
    COMPLETE, LENGTH, after, always, always_replaced, at_place, baited, body_in_bytes, by_turns, crowded, cut, cut_in_head,
    dripping_body, dripping_head, each_second, edited, endless, endless_file, fifth, first, followed, from_fifth, half, head_in_bytes,
    in_chunks, in_wrong_order, line_of, lines_of_lf, long, moved, never, next_part, next_part_untagged, next_revision,
    next_whole_weakly, of_length, one_of_many, repeated, replaced, sent, shorter, tagged_anew, true, true_and_endless, twice, whole,
    with_field, with_forged_directory, with_lengths, with_more, with_tag, without)

READS, FAILS = ('reads',) * 4, ('fails',) * 4
KEPT = 'reads', '-', 'reads', 'reads'
"""SERVER NAME keeps no connection."""
AGAIN = 'reads', 'reads', 'fails', 'fails'
"""`cogread` asks again after an answer that isn't used. The example in C ends (C.md), and the package raises `NotUsed` (PYTHON.md)."""
LASTING = 'fails', 'reads', 'fails', 'fails'
"""For a URL `cogread` ends, too, where the first answer is of a kind that stays (READING.md)."""


class Row(NamedTuple):
    name: str
    rule: str
    when: Callable
    way: Callable
    outcomes: Tuple[str, ...]
    greets: Optional[Callable] = None


CONTINUE = head(b'100 Continue')
HINTS = head(b'103 Early Hints', b'Link: </a>')
TIMEOUT = head(b'408 Request Timeout', b'Content-Length: 0', b'Connection: close')
REFUSED = head(b'400 Bad Request', b'Content-Length: 0', b'Connection: close')
MOVED = head(b'301 Moved Permanently', b'Location: /b', b'Content-Length: 0')
NOT_FOUND = head(b'404 Not Found', b'Content-Length: 0')
CLOSE, SEVERAL = b'Connection: close', b'Content-Type: multipart/byteranges; boundary=x\r\n'

CONNECTIONS = [
    Row('keeps', 'RFC 9112, 9.3', always, true(), READS),
    Row('ends after each answer', 'RFC 9112, 9.5', always, true(ENDS), READS),
    Row('says close, and ends', 'RFC 9112, 9.6', always, with_field(CLOSE, ENDS), READS),
    Row('says close, and goes on', 'RFC 9112, 9.6', always, with_field(CLOSE, SPENT), READS),
    Row('says close among others, and goes on', 'RFC 9110, 7.6.1', always, with_field(b'Connection: a, CLOSE', SPENT), READS),
    Row('says close in the midst, and goes on', 'RFC 9112, 9.6', fifth, with_field(CLOSE, SPENT), READS),
    Row('of HTTP/1.0, and goes on', 'RFC 9112, 9.3', always, edited(b'HTTP/1.1', b'HTTP/1.0', SPENT), READS),
    Row('of HTTP/1.0 in the midst, and goes on', 'RFC 9112, 9.3', fifth, edited(b'HTTP/1.1', b'HTTP/1.0', SPENT), READS),
    Row('ends after each third answer', 'RFC 9112, 9.5', at_place(2), true(ENDS), KEPT),
    Row('resets after each third answer', 'RFC 9112, 9.5', at_place(2), true(0.05, RESETS), KEPT),
    Row('ends before each second answer of a connection', 'RFC 9112, 9.5', at_place(1), sent(ENDS), KEPT),
    Row('resets before each second answer of a connection', 'RFC 9112, 9.5', at_place(1), sent(RESETS), KEPT),
    Row('ends before each answer', 'PROFILE, cut', always, sent(ENDS), FAILS),
    Row('resets before each answer', 'PROFILE, cut', always, sent(RESETS), FAILS),
    Row('ends in each head', 'PROFILE, cut', always, cut_in_head(ENDS), FAILS),
    Row('ends in each second head', 'PROFILE, cut', each_second, cut_in_head(ENDS), READS),
    Row('resets in each second head', 'PROFILE, cut', each_second, cut_in_head(0.05, RESETS), READS),
    Row('ends in each second body', 'PROFILE, taken', each_second, half(ENDS), READS),
    Row('resets in each second body', 'PROFILE, taken', each_second, half(0.05, RESETS), READS),
    Row('ends in each body after a block', 'PROFILE, taken', always, cut(20000, ENDS), READS),
    Row('ends in each body before the end of a block', 'PROFILE, taken', always, cut(16383, ENDS), FAILS),
    Row('never answers', 'READING, time', always, sent(HOLDS), ('waits', 'waits', 'fails', 'fails')),
    Row('falls silent in a head', 'READING, time', fifth, cut_in_head(HOLDS), ('waits', 'waits', 'reads', 'reads')),
    Row('falls silent in a body', 'READING, time', fifth, half(HOLDS), ('waits', 'waits', 'reads', 'reads')),
]
"""Rows about where connections and answers end."""

REQUESTS = [
    Row('drops requests that came early', 'RFC 9112, 9.3.2', followed, one_of_many, ('waits', '-', 'reads', 'reads')),
    Row('refuses requests that came early', 'RFC 9112, 9.3.2', followed, sent(REFUSED, ENDS), KEPT),
    Row('answers early requests in the wrong order', 'PROFILE, beside', followed, in_wrong_order, KEPT),
    Row('answers each request twice', 'PROFILE, beside', always, twice, ('reads', 'reads', 'either', 'reads')),
    Row('answers, and sends what nothing asked for', 'RFC 9112, 9.2', always, with_more(b'more'), READS),
    Row('answers, and sends a forged answer to what comes next', 'RFC 9112, 9.2', first, with_forged_directory, READS),
    Row('answers, and sends an interim answer', 'RFC 9112, 9.2', always, with_more(CONTINUE), READS),
    Row('times out after each answer', 'RFC 9110, 15.5.9', always, true(0.03, TIMEOUT, ENDS), READS),
    Row('times out instead of each third answer', 'RFC 9110, 15.5.9', at_place(2), sent(TIMEOUT, ENDS), KEPT),
    Row('times out instead of each answer', 'PROFILE, status', always, sent(TIMEOUT, ENDS), FAILS),
    Row('greets each connection', 'RFC 9112, 2.1', never, true(), FAILS, lambda number: b'220 ready\r\n'),
    Row('greets its first connection', 'RFC 9112, 2.1', never, true(), ('reads', 'reads', 'reads', 'either'),
        lambda number: b'' if number else b'220 ready\r\n'),
    Row('answers before it is asked', 'PROFILE, beside', never, true(), ('reads', 'reads', 'either', 'reads'),
        lambda number: b'' if number else part_of(FILE, 0, 65535, TAG)),
]
"""Rows about which answer is whose."""

INTERIM = [
    Row('100 before each answer', 'RFC 9110, 15.2', always, after(CONTINUE), READS),
    Row('103 before each answer', 'RFC 9110, 15.2', always, after(HINTS), READS),
    Row('103 before each answer, in pieces', 'RFC 9110, 15.2', always, after(HINTS[:9], 0.01, HINTS[9:], 0.01), READS),
    Row('103 that announces a body', 'RFC 9112, 6.3', always, after(head(b'103 Early Hints', b'Content-Length: 500')), READS),
    Row('16 interim answers', 'PROFILE, interim answers', always, after(CONTINUE * 16), READS),
    Row('17 interim answers', 'PROFILE, interim answers', always, after(CONTINUE * 17), FAILS),
    Row('interim answers without end', 'PROFILE, interim answers', always, repeated(CONTINUE), FAILS),
    Row('an interim answer of 4,300 bytes', 'PROFILE, refused head', always, after(head(b'103 Early Hints', b'X: ' + b'x' * 4300)), FAILS),
    Row('101 before each answer', 'RFC 9110, 15.2.2', always, after(head(b'101 Switching Protocols', b'Upgrade: x')), FAILS),
]
"""Rows about interim answers."""

STATUSES = [
    Row('404 to each request', 'PROFILE, status', always, sent(NOT_FOUND), FAILS),
    Row('404 to the first request', 'READING, no report', first, sent(NOT_FOUND), LASTING),
    Row('404 in the midst', 'PROFILE, status', fifth, sent(NOT_FOUND), READS),
    Row('404 with a body without end', 'PROFILE, status', always, endless(head(b'404 Not Found', b'Content-Length: 1000000000000')), FAILS),
    Row('503 to the first request', 'READING, no report', first, sent(head(b'503 Service Unavailable', b'Content-Length: 0')), AGAIN),
    Row('301 to each request', 'PROFILE, status', always, sent(MOVED), FAILS),
    Row('416 to each request', 'PROFILE, status', always, edited(b'206 Partial Content', b'416 Range Not Satisfiable'), FAILS),
    Row('201 with each part', 'PROFILE, status', always, edited(b'206 Partial Content', b'201 Created'), FAILS),
]
"""Rows about statuses."""

RANGES = [
    Row('the whole file for each part', 'RFC 9110, 14.2', always, whole, READS),
    Row('the whole of a file without end', 'RFC 9110, 14.2', always, endless_file, READS),
    Row('one block of each part', 'PROFILE, taken', always, shorter(16384), READS),
    Row('less than a block of each part', 'PROFILE, taken', always, shorter(16383), FAILS),
    Row('a larger part', 'RFC 9110, 15.3.7', always, moved(-100, 100), READS),
    Row('a part one block later', 'PROFILE, beside', always, moved(16384, 16384), FAILS),
    Row('a part of another place in the midst', 'PROFILE, beside', fifth, moved(65536, 65536), READS),
    Row('no Content-Range', 'PROFILE, no range', always, without(b'Content-Range'), FAILS),
    Row('Content-Range twice', 'PROFILE, no range', always, edited(rb'(?=Content-Range)', b'Content-Range: bytes 0-0/1\r\n'), FAILS),
    Row('Content-Range without a complete length', 'PROFILE, no range', always, edited(COMPLETE, b'/*'), FAILS),
    Row('Content-Range past the complete length', 'RFC 9110, 14.4', always, edited(COMPLETE, b'/1'), FAILS),
    Row('Content-Range in another unit', 'RFC 9110, 14.4', always, edited(b'bytes', b'items'), FAILS),
    Row('another complete length in the midst', 'PROFILE, other length', fifth, of_length, READS),
    Row('another complete length each time', 'PROFILE, other length', always, of_length, FAILS),
    Row('several parts', 'RFC 9110, 14.6', always, edited(line_of(b'Content-Range'), SEVERAL), FAILS),
]
"""Rows about parts."""

LENGTHS = [
    Row('no length', 'PROFILE, no length', always, without(b'Content-Length', ENDS), FAILS),
    Row('a length twice', 'PROFILE, no length', always, with_lengths(b'Content-Length: N', b'Content-Length: N'), FAILS),
    Row('a list of lengths', 'PROFILE, no length', always, with_lengths(b'Content-Length: N, 5'), FAILS),
    Row('a length with a sign', 'RFC 9110, 8.6', always, with_lengths(b'Content-Length: +N'), FAILS),
    Row('a length with zeros before it', 'RFC 9110, 8.6', always, with_lengths(b'Content-Length: 000N'), READS),
    Row('a length of 20 digits', 'PROFILE, no length', always, with_lengths(b'Content-Length: ' + b'9' * 20), FAILS),
    Row('a length that is longer than the range', 'PROFILE, no length', always, with_lengths(b'Content-Length: 1N'), FAILS),
    Row('a space before the colon of a length', 'RFC 9112, 5.1', always, with_lengths(b'Content-Length : N'), FAILS),
    Row('chunks', 'PROFILE, coding', always, in_chunks, FAILS),
    Row('a transfer coding beside a length', 'RFC 9112, 6.3', always, with_field(b'Transfer-Encoding: chunked'), FAILS),
    Row('a content coding', 'PROFILE, coding', always, with_field(b'Content-Encoding: gzip'), FAILS),
]
"""Rows about lengths and codings."""

TAGS = [
    Row('no tag', 'PROFILE, no tag', always, without(b'ETag'), FAILS),
    Row('no tag, and a body without end', 'PROFILE, no tag', always, endless(head(b'200 OK', b'Content-Length: 1000000000000')), FAILS),
    Row('a tag twice', 'PROFILE, no tag', always, with_field(b'ETag: ' + TAG), FAILS),
    Row('a tag without quotes', 'RFC 9110, 8.8.3', always, with_tag(b't'), FAILS),
    Row('a weak tag', 'RFC 9110, 13.1.5', always, with_tag(b'W/"t"'), FAILS),
    Row('a weak tag at first', 'READING, no report', first, with_tag(b'W/"t"'), LASTING),
    Row('a tag of 64 bytes', 'PROFILE, long tag', always, with_tag(b'"%s"' % (b't' * 62)), READS),
    Row('a tag of 65 bytes', 'PROFILE, long tag', always, with_tag(b'"%s"' % (b't' * 63)), FAILS),
    Row('a tag of bytes above 127', 'RFC 9110, 8.8.3', always, with_tag(b'"\x80\xff"'), READS),
    Row('a name of a field in lower case', 'RFC 9110, 5.1', always, edited(b'ETag', b'etag'), READS),
    Row('another tag with each part', 'PROFILE, other revision', always, tagged_anew, FAILS),
    Row('replaced before each request', 'PROFILE, restarted', always, always_replaced, FAILS),
    Row('two revisions by turns', 'PROFILE, restarted', always, by_turns, FAILS),
    Row('replaced', 'PROFILE, restarted', from_fifth, next_revision, READS),
    Row('replaced, and If-Range is passed over', 'PROFILE, other revision', from_fifth, next_part, ('fails', 'fails', 'fails', 'reads')),
    Row("the new revision's part without its tag", 'PROFILE, no tag', fifth, next_part_untagged, READS),
    Row('the new revision under a weak tag', 'PROFILE, weak tag', fifth, next_whole_weakly, READS),
]
"""Rows about tags and revisions."""

HEADS = [
    Row('lines that end in LF', 'RFC 9112, 2.2', always, lines_of_lf, READS),
    Row('no reason phrase', 'RFC 9112, 4', always, edited(b'206 Partial Content', b'206 '), READS),
    Row('no head', 'PROFILE, refused head', always, sent(b'unasked\r\n\r\n'), FAILS),
    Row('no head at first', 'READING, no report', first, sent(b'unasked\r\n\r\n', ENDS), ('reads', 'reads', 'reads', 'fails')),
    Row('the bare file', 'PROFILE, refused head', always, sent(FILE, ENDS), FAILS),
    Row('of HTTP/2', 'PROFILE, refused head', always, edited(b'HTTP/1.1', b'HTTP/2.0'), FAILS),
    Row('a folded field', 'PROFILE, refused head', always, with_field(b'X: a\r\n b'), FAILS),
    Row('a NUL in a field', 'RFC 9110, 5.5', always, with_field(b'X: a\0b'), FAILS),
    Row('a CR in a field', 'RFC 9112, 2.2', always, with_field(b'X: a\rb'), FAILS),
    Row('a head of 4,096 bytes', 'PROFILE, refused head', always, long(4096), READS),
    Row('a head of 4,097 bytes', 'PROFILE, refused head', always, long(4097), FAILS),
    Row('32 fields', 'PROFILE, refused head', always, crowded(32), READS),
    Row('33 fields', 'PROFILE, refused head', always, crowded(33), FAILS),
    Row('a head byte by byte', 'RFC 9112, 2.2', always, head_in_bytes, READS),
    Row('a body byte by byte', 'RFC 9112, 6.3', always, body_in_bytes, READS),
    Row('a head that drips', 'READING, time', always, dripping_head, ('waits', 'waits', 'waits', 'fails')),
    Row('a body that drips', 'READING, time', always, dripping_body, ('waits', 'waits', 'waits', 'fails')),
    Row('a body that goes on for ever', 'RFC 9112, 6.3', always, true_and_endless, READS),
]
"""Rows about heads, and bytes in time."""

EMPTY = b'Content-Length: 0\r\n'
FRONTS = {
    'a length too short': ('PROFILE, no length', LENGTH, EMPTY),
    'a length twice': ('PROFILE, no length', LENGTH, EMPTY * 2),
    'no length': ('PROFILE, no length', LENGTH, b''),
    'a length with a space before the colon': ('RFC 9112, 5.1', LENGTH, b'Content-Length : 0\r\n'),
    'chunks with a space before the colon': ('RFC 9112, 5.1', LENGTH, EMPTY + b'Transfer-Encoding : chunked\r\n'),
    'chunks': ('PROFILE, coding', LENGTH, EMPTY + b'Transfer-Encoding: chunked\r\n'),
    'a content coding': ('PROFILE, coding', LENGTH, EMPTY + b'Content-Encoding: gzip\r\n'),
    'no tag': ('PROFILE, no tag', rb'(?s:ETag: .*)', EMPTY + b'\r\n'),
    '404': ('PROFILE, status', rb'(?s: .*)', b' 404 Not Found\r\n' + EMPTY + b'\r\n'),
    '304': ('RFC 9112, 6.3', rb' 206 Partial Content', b' 304 Not Modified'),
    '204': ('RFC 9112, 6.3', rb' 206 Partial Content', b' 204 No Content'),
}
"""Heads of answers that aren't used: the rule, and which part of a true head is replaced by what. They announce no body, or the status
has none."""

FORGED = [
    Row(f'{name}, and a forged answer {when}', rule, fifth, baited(old, new, when == 'later'), READS)
    for name, (rule, old, new) in FRONTS.items() for when in ('at once', 'later')
]
"""Rows about what is left of an answer that isn't used: it is never taken for an answer."""

ROWS = [*CONNECTIONS, *REQUESTS, *INTERIM, *STATUSES, *RANGES, *LENGTHS, *TAGS, *HEADS, *FORGED]
