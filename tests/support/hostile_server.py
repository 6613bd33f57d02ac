"""A server on loopback that answers some requests in a way of its own, and the others truly.

It has two revisions of a file, under the tags TAG and NEXT_TAG. No byte of FORGED is of either."""
import enum, random, socket, struct, threading, time

from answers import END, part_of, served, span_of
from tiff import tiff

TAG, NEXT_TAG = b'"t"', b'"u"'
(FILE, (ROWS,)), (NEXT_FILE, (NEXT_ROWS,)) = (tiff(random.Random(seed), [(512, 1024)], 128) for seed in (1, 2))
FORGED = bytes(255 - byte for byte in FILE)
WINDOW = 140, 0, 20, 1024
"""Columns, rows and sides of the window that is read. It lies in eight tiles, which stand far from each other, and the directory stands
after all tiles. So a reader needs nine requests, of which it can send the last seven at once."""
DIRECTORY = 524288, 524689
"""The bytes that the second of these requests asks for."""
LINGERS = 2
"""For how many seconds the server waits for a client to end a connection that it has ended."""


class Act(enum.Enum):
    """What a server does beside sending."""
    ENDS = 'ends the connection'
    RESETS = 'resets the connection'
    HOLDS = 'sends nothing more, and keeps the connection'
    SPENT = 'answers all that comes on the connection with forged bytes'


ENDS, RESETS, HOLDS, SPENT = Act


class Connection:
    """The server's end of a connection."""

    def __init__(self, stream):
        stream.setsockopt(socket.IPPROTO_TCP, socket.TCP_NODELAY, 1)
        self.stream, self.came, self.count, self.is_spent = stream, b'', 0, False

    def receive(self, seconds=None):
        """Reads up to the end of a request, for at most so many seconds, and returns whether one is there."""
        self.stream.settimeout(seconds)
        try:
            while END not in self.came:
                piece = self.stream.recv(65536)
                if not piece:
                    return False
                self.came += piece
            return True
        except socket.timeout:
            return False
        finally:
            self.stream.settimeout(None)

    def next_request(self):
        request, _, self.came = self.came.partition(END)
        return request + END

    def drain(self, seconds=None):
        """Takes what comes, until the client ends the connection, or brings nothing for so long."""
        self.stream.settimeout(seconds)
        while self.stream.recv(65536):
            pass

    def act(self, act):
        """Does what isn't sending. Returns whether the connection goes on."""
        if act is SPENT:
            self.is_spent = True
            return True
        if act is ENDS:
            self.stream.shutdown(socket.SHUT_WR)
            self.drain(LINGERS)
        elif act is HOLDS:
            self.drain()
        elif act is RESETS:
            self.stream.setsockopt(socket.SOL_SOCKET, socket.SO_LINGER, struct.pack('ii', 1, 0))
        return False

    def send(self, pieces):
        """Sends pieces: bytes, seconds to wait, and acts. Returns whether the connection goes on."""
        for piece in pieces:
            if isinstance(piece, Act):
                if not self.act(piece):
                    return False
            elif isinstance(piece, bytes):
                self.stream.sendall(piece)
            else:
                time.sleep(piece)
        return True


class Turn:
    """A request to be answered: its `number`, counted over all connections, and its `place` on its own one, each from 0 on."""

    def __init__(self, server, connection):
        self.server, self.connection, self.request = server, connection, connection.next_request()
        with server.lock:
            self.number = server.requests
            server.requests += 1
        self.place = connection.count
        connection.count += 1

    @property
    def span(self):
        return span_of(self.request)

    @property
    def answer(self):
        return served(self.request, FILE, TAG)

    @property
    def parts(self):
        """The head of the true answer, with its end, and its body."""
        text = self.answer
        end = text.index(END) + len(END)
        return text[:end], text[end:]

    @property
    def next_answer(self):
        """The answer of a server at which the file was replaced."""
        return served(self.request, NEXT_FILE, NEXT_TAG)

    @property
    def forged(self):
        return part_of(FORGED, *self.span, TAG)

    @property
    def bait(self):
        """A forged answer to the request that came next, or else to this one, which may come again."""
        return part_of(FORGED, *span_of(self.connection.came if self.is_followed() else self.request), TAG)

    def is_followed(self):
        """Whether the next request comes before the answer to this one."""
        return self.connection.receive(0.1)

    def following(self):
        """The turn of the next request, which came already."""
        return Turn(self.server, self.connection)


class Server(threading.Thread):
    """Serves connections side by side. `way` returns the pieces that answer a turn, where `when` holds of it; other turns are answered
    truly. `greets` returns what is sent to a connection of this number before its first request. It counts requests and connections, and
    notes whether what it is here for happened."""

    def __init__(self, when, way, greets=None):
        super().__init__(daemon=True)
        self.when, self.way, self.greets = when, way, greets
        self.requests = self.connections = 0
        self.happened = threading.Event()
        self.lock, self.streams = threading.Lock(), []
        self.listener = socket.create_server(('127.0.0.1', 0), backlog=64)
        self.port = self.listener.getsockname()[1]

    def __enter__(self):
        self.start()
        return self

    def __exit__(self, *_):
        for stream in [self.listener, *self.streams]:
            try:
                stream.shutdown(socket.SHUT_RDWR)
            except OSError:
                pass
        self.listener.close()

    def run(self):
        while True:
            try:
                stream, _ = self.listener.accept()
            except OSError:
                return
            with self.lock:
                number = self.connections
                self.connections += 1
                self.streams.append(stream)
            threading.Thread(target=self.serve, args=(stream, number), daemon=True).start()

    def serve(self, stream, number):
        try:
            with stream:
                self.converse(Connection(stream), number)
        except OSError:
            pass

    def converse(self, connection, number):
        if self.greets is not None and (greeting := self.greets(number)):
            self.happened.set()
            connection.stream.sendall(greeting)
        while connection.receive() and connection.send(self.pieces(Turn(self, connection))):
            pass

    def pieces(self, turn):
        """What is sent for a request."""
        if turn.connection.is_spent:
            return [turn.forged]
        if not self.when(turn):
            return [turn.answer]
        self.happened.set()
        return self.way(turn)
