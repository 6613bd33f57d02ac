"""The windows of a plan without anything but the network and the copy of their samples: in Python, over the socket of a connection of
http.client, and by numpy; and in C (floor.c). A plan is of 32-bit numbers: the length of the file, tiles in a row, sides of tiles and windows,
how many tiles, their offsets; then 1, a length and a request, or 2, a column and a row of a window."""
import ctypes
import http.client
import struct

import numpy

MOST = 100
ROOM = 1 << 17


class Stream:
    """A connection that is made anew behind so many answers."""

    def __init__(self, port, image):
        self.connection = http.client.HTTPConnection('127.0.0.1', port)
        self.image = image
        self.room = memoryview(bytearray(ROOM))
        self.begin = self.end = 0
        self.answered = MOST

    def exchange(self, requests):
        if self.answered + len(requests) > MOST:
            self.connection.close()
            self.connection.connect()
            self.begin = self.end = self.answered = 0
        self.connection.sock.sendall(b''.join(requests))
        for _ in requests:
            self.receive()
        self.answered += len(requests)

    def head(self):
        """The head of the next answer."""
        while True:
            front = bytes(self.room[self.begin:min(self.end, self.begin + 1024)])
            length = front.find(b'\r\n\r\n') + 4
            if length > 3:
                self.begin += length
                return front
            rest = bytes(self.room[self.begin:self.end])
            self.room[:len(rest)] = rest
            self.begin, self.end = 0, len(rest)
            self.end += self.connection.sock.recv_into(self.room[self.end:])

    def receive(self):
        head = self.head()
        place = head.index(b'bytes ') + 6
        first, last = map(int, head[place:head.index(b'/', place)].split(b'-'))
        count = min(self.end - self.begin, last + 1 - first)
        self.image[first:first + count] = self.room[self.begin:self.begin + count]
        self.begin += count
        first += count
        while first <= last:
            first += self.connection.sock.recv_into(self.image[first:last + 1])


def steps_of(plan, at):
    """The requests before each window, and its column and row."""
    steps, requests = [], []
    while at < len(plan):
        kind, number = struct.unpack_from('<2I', plan, at)
        at += 8
        if kind == 1:
            requests.append(plan[at:at + number])
            at += number
        else:
            steps.append((requests, number, *struct.unpack_from('<I', plan, at)))
            requests = []
            at += 4
    return steps


class Floor:
    """A file that is read by a plan, window by window, in its order."""

    def __init__(self, port, plan):
        length, self.across, self.side, self.window, count = struct.unpack_from('<5I', plan)
        image = numpy.empty(length, numpy.uint8)
        self.tiles = [image[offset:offset + self.side ** 2].reshape(self.side, self.side)
                      for offset in struct.unpack_from(f'<{count}I', plan, 20)]
        self.steps = steps_of(plan, 20 + 4 * count)
        self.stream = Stream(port, memoryview(image))

    def read(self, number):
        """The window of this number. What it needs is asked for once."""
        requests, column, row = self.steps[number]
        if requests:
            self.stream.exchange(requests)
            self.steps[number] = [], column, row
        return self.cut(column, row)

    def cut(self, column, row):
        """A window, out of the four tiles that it touches at most; its sides are those of a tile."""
        tiles, side, across, window = self.tiles, self.side, self.across, self.window
        out = numpy.empty((window, window), numpy.uint8)
        first, x, y = row // side * across + column // side, column % side, row % side
        out[:side - y, :side - x] = tiles[first][y:, x:]
        if x > 0:
            out[:side - y, side - x:] = tiles[first + 1][y:, :x]
        if y > 0:
            out[side - y:, :side - x] = tiles[first + across][:y, x:]
        if x > 0 and y > 0:
            out[side - y:, side - x:] = tiles[first + across + 1][:y, :x]
        return out


class Compiled:
    """The same by floor.c, whose library this is."""

    def __init__(self, library, port, plan):
        length, across, side, self.window, count = struct.unpack_from('<5I', plan)
        offsets = struct.unpack_from(f'<{count}I', plan, 20)
        self.steps = steps_of(plan, 20 + 4 * count)
        library.floor_new.restype = ctypes.c_void_p
        library.floor_new.argtypes = [ctypes.c_ushort, ctypes.c_size_t, *[ctypes.c_uint] * 3, ctypes.POINTER(ctypes.c_uint), ctypes.c_size_t]
        self.at = library.floor_new(port, length, across, side, self.window, (ctypes.c_uint * count)(*offsets), count)
        self.call = library.floor_read
        self.call.restype = None
        self.call.argtypes = [ctypes.c_void_p, ctypes.c_char_p, ctypes.c_size_t, ctypes.c_int, ctypes.c_uint, ctypes.c_uint, ctypes.c_void_p]

    def read(self, number):
        requests, column, row = self.steps[number]
        self.steps[number] = [], column, row
        text = b''.join(requests)
        out = numpy.empty((self.window, self.window), numpy.uint8)
        self.call(self.at, text, len(text), len(requests), column, row, out.ctypes.data)
        return out
