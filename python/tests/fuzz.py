"""The driver against a server that changes answers: it mutates heads, cuts, splits, doubles and reorders answers, and adds what nobody asked for.

Each round reads a window of a file of equal samples over a socketpair. One answer is changed, and others may follow it that have other samples
under the same tag. A window that is read has the samples of the file. No byte is written on a connection after an answer that wasn't used."""
import array
import contextlib
import fcntl
import random
import socket
import sys
import termios
import threading
import time
from unittest import mock

import delgunsai
import numpy
from answers import head, served
from delgunsai import _file, _sources
from files import plain
from support import in_python

TRUE, FALSE, TAG, END = 7, 238, b'"t"', b'\r\n\r\n'
TEXT, FORGED = (plain(numpy.full((1000, 1000), sample, 'uint8')) for sample in (TRUE, FALSE))
WORDS = (b'\r\n', b'\n', b':', END, b'9', b' ', b'', b'C', b'Content-Length: 3\r\n', b'Connection: close\r\n', b'Transfer-Encoding: chunked\r\n',
         b'HTTP/1.1 206 Partial Content\r\n', b'HTTP/1.1 100 Continue' + END)
ROUNDS = 20
"""How many windows a file is read for."""
TIMEOUT, SHORT = 5, 0.1
SILENCE = 'followed by silence'


def mutated(source, text):
    """Returns an answer whose head is changed in up to three places."""
    end, changed = text.index(END) + len(END), bytearray(text)
    for _ in range(source.randint(1, 3)):
        at = source.randrange(end)
        changed[at:at + source.randint(0, 2)] = source.choice([*WORDS, bytes([source.randrange(256)])])
    return bytes(changed)


def short(text):
    """Returns an answer that announces its first ten bytes alone."""
    first, body = text.split(END, 1)
    return b'\r\n'.join(b'Content-Length: 10' if line.startswith(b'Content-Length') else line for line in first.split(b'\r\n')) + END + body[:10]


def cut(source, text):
    """Returns the front of an answer, and often no more than of its head."""
    return text[:source.randrange(source.choice((300, len(text))))]


REFUSAL = head(b'404 Not Found', b'Content-Length: 10') + b'not found\n'
RESTART = head(b'200 OK', b'ETag: "u"', b'Content-Length: %d' % len(TEXT)) + TEXT
EARLY = b'HTTP/1.1 103 Early Hints' + END
USED = {
    'mutated': lambda source, text, rest, more: [mutated(source, text) + more, *rest],
    'cut': lambda source, text, rest, more: [cut(source, text), None],
    SILENCE: lambda source, text, rest, more: [cut(source, text), Ellipsis],
    'more': lambda source, text, rest, more: [text + more, *rest],
    'twice': lambda source, text, rest, more: [text, text, *rest],
    'later than the next': lambda source, text, rest, more: [*rest[:1], text, *rest[1:]],
    'in pieces': lambda source, text, rest, more: [text[:150], text[150:20000], text[20000:], *rest],
    'after interim answers': lambda source, text, rest, more: [EARLY * source.randint(1, 20) + text, *rest],
    'restart': lambda source, text, rest, more: [RESTART + more],
}
"""Changes of an answer that may be used: what is sent of it, of those after it, and of a forged one. None ends the connection."""
UNUSED = {
    'short': lambda source, text, rest, more: [short(text) + more, *rest],
    'short, and more later': lambda source, text, rest, more: [short(text), more, *rest],
    'refusal': lambda source, text, rest, more: [REFUSAL + more, *rest],
    'refusal, and more later': lambda source, text, rest, more: [REFUSAL, more, *rest],
}
"""Changes of an answer that isn't used: the next one may be a forged one though its request was sent."""
WAYS = [*USED, *UNUSED]


class Line:
    """The server's end of a connection, and how many bytes came over it."""

    def __init__(self, server, stream):
        self.server, self.stream = server, stream
        self.lock = threading.Lock()
        self.text, self.came, self.most = TEXT, 0, sys.maxsize
        self.thread = threading.Thread(target=self.serve)
        self.thread.start()

    def receive(self):
        """Returns the next bytes, or none at the end."""
        self.stream.recv(1, socket.MSG_PEEK)
        with self.lock:
            text = self.stream.recv(65536)
            self.came += len(text)
            return text

    def spend(self):
        """Notes that what was written so far is all that may be."""
        waiting = array.array('i', [0])
        with self.lock, contextlib.suppress(OSError):
            fcntl.ioctl(self.stream, termios.FIONREAD, waiting)
            self.most = min(self.most, self.came + waiting[0])

    def serve(self):
        """Answers the requests that come, until the connection ends."""
        text = b''
        with self.stream, contextlib.suppress(OSError):
            while piece := self.receive():
                *requests, text = (text + piece).split(END)
                for piece in self.server.pieces(self, [request + END for request in requests]):
                    if piece is None:
                        return self.stream.shutdown(socket.SHUT_WR) or self.drain()
                    if piece is Ellipsis:
                        return self.drain()
                    self.stream.sendall(piece)

    def drain(self):
        """Takes what comes, and answers nothing."""
        while self.receive():
            pass


class Server:
    """Changes one answer of each round."""

    def __init__(self, seed):
        self.source = random.Random(seed)
        self.way, self.left, self.lines = '', 0, {}

    def connected(self, limit, *_):
        """Returns a connection to this server."""
        ours, theirs = socket.socketpair()
        ours.settimeout(limit.wait())
        self.lines[ours] = Line(self, theirs)
        return ours

    def pieces(self, line, requests):
        """Returns what is sent for these requests, which came at once."""
        answers = [served(request, line.text, TAG) for request in requests]
        at, self.left = self.left, self.left - len(requests)
        if not 0 <= at < len(requests):
            return answers
        rest = answers[at + 1:]
        more = served(requests[at + 1 if rest else at], FORGED, TAG)
        if self.way in UNUSED:
            line.text = FORGED
            changed = UNUSED[self.way](self.source, answers[at], [served(request, FORGED, TAG) for request in requests[at + 1:]], more)
        else:
            changed = USED[self.way](self.source, answers[at], rest, b'' if rest else more)
        return answers[:at] + [changed[0]] + self.later(changed[1:])

    @staticmethod
    def later(pieces):
        """Waits a little before each piece."""
        return [piece for piece in pieces if time.sleep(0.001) is None]


def judged(server):
    """Has the connection of each answer that isn't used be spent."""
    judge = _file.File._judge

    def noted(file, step, lost):
        line = server.lines.get(file._source._stream)
        used = False
        try:
            used = judge(file, step, lost)
        finally:
            if not used and line is not None:
                line.spend()
        return used
    return mock.patch.object(_file.File, '_judge', noted)


def read_right(file, source):
    """Reads a window, and returns whether it has the samples of the file, or `None` where it isn't read."""
    file._core.forget()
    try:
        samples = file.read(x=source.randrange(800), y=0, width=200, height=source.choice((10, 1000)))
    except delgunsai.Error:
        return None
    return bool((samples == TRUE).all()), bool((samples == FALSE).any())


def run(count, seed, ways=WAYS, alone=False):
    """Reads so many windows, of which one answer is changed in these ways. Returns how many were read, and what was wrong."""
    server, wrong, read = Server(seed), [], 0
    with mock.patch.object(_sources, '_connected', server.connected), judged(server), in_python() if alone else contextlib.nullcontext():
        for first in range(0, count, ROUNDS):
            with delgunsai.open('http://a/a', timeout=SHORT if SILENCE in ways else TIMEOUT) as file:
                for number in range(first, min(count, first + ROUNDS)):
                    server.way, server.left = server.source.choice(ways), server.source.randrange(4)
                    seen = read_right(file, server.source)
                    read += seen is not None
                    if seen is not None and (seen[1] or not seen[0] and server.way != 'mutated'):
                        wrong.append(f'round {number} of seed {seed}: {server.way}: other samples')
            for line in server.lines.values():
                line.thread.join()
                if line.came > line.most:
                    wrong.append(f'round {number} of seed {seed}: {line.came - line.most} bytes after an answer that was not used')
            server.lines.clear()
    return read, wrong


def main(count=100000, seed=None):
    """Reads so many windows, and prints what is wrong."""
    seed = random.randrange(1 << 32) if seed is None else seed
    for alone in False, True:
        read, wrong = run(count // 2, seed, alone=alone)
        print(*wrong, f'seed {seed}: {count // 2} rounds, {read} windows read, {len(wrong)} wrong', sep='\n', flush=True)
        if wrong:
            return 1
    return 0
