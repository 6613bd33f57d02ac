"""The answers of a server that has a file under a tag."""
import re

END = b'\r\n\r\n'


def head(status, *fields):
    return b'\r\n'.join([b'HTTP/1.1 ' + status, *fields, b'', b''])


def span_of(request):
    """The first and the last byte that a request asks for."""
    return tuple(map(int, re.search(rb'bytes=([0-9]+)-([0-9]+)', request).groups()))


def part_of(text, first, last, tag):
    """The answer with a part of this text, as far as it goes."""
    part = text[first:last + 1]
    return head(b'206 Partial Content', b'ETag: ' + tag, b'Content-Range: bytes %d-%d/%d' % (first, first + len(part) - 1, len(text)),
                b'Content-Length: %d' % len(part)) + part


def whole_of(text, tag):
    """The answer with all of this text."""
    return head(b'200 OK', b'ETag: ' + tag, b'Content-Length: %d' % len(text)) + text


def served(request, text, tag=b'"1"'):
    """The answer of a server that has this text under this tag."""
    if request.startswith(b'HEAD '):
        same = b'If-None-Match: ' + tag + b'\r\n' in request
        return head(b'304 Not Modified' if same else b'200 OK', b'ETag: ' + tag, b'Content-Length: %d' % len(text))
    if b'If-Range: ' in request and b'If-Range: ' + tag + b'\r\n' not in request:
        return whole_of(text, tag)
    first, last = span_of(request)
    if first >= len(text):
        return head(b'416 Range Not Satisfiable', b'Content-Range: bytes */%d' % len(text), b'Content-Length: 0')
    return part_of(text, first, last, tag)
