"""Servers: cogserve, nginx with TLS, one that cuts answers, and one whose answers a test makes."""
import os
import socket
import socketserver
import ssl
import struct
import subprocess
import sys
import tempfile
import threading
import time

from support import COGTOOLS, FOLDER, free_port

class Cogserve:
    """cogserve, of these files by their names."""

    def __init__(self, files, epoch=1):
        self.port = free_port()
        out = os.path.join(FOLDER, f'served-{self.port}')
        self.process = subprocess.Popen([COGTOOLS, 'cogserve', '--listen', f'127.0.0.1:{self.port}', '--epoch', str(epoch), '--connections',
                                         '100000000', *(f'{name}={path}' for name, path in files.items())], stdout=open(out, 'w'))
        while 'listening' not in open(out).read():
            if self.process.poll() is not None:
                sys.exit('python: cogserve ends')
            time.sleep(0.01)

    def url(self, name):
        return f'http://127.0.0.1:{self.port}/{name}'

    def __enter__(self):
        return self

    def __exit__(self, *_):
        self.process.kill()
        self.process.wait()

def certify(certificate, key):
    """Writes a certificate of localhost, and its key."""
    subprocess.run(['openssl', 'req', '-x509', '-newkey', 'ec', '-pkeyopt', 'ec_paramgen_curve:prime256v1', '-nodes', '-days', '2',
                    '-subj', '/CN=localhost', '-addext', 'subjectAltName=DNS:localhost', '-keyout', key, '-out', certificate],
                   check=True, capture_output=True)


class Nginx:
    """nginx, of a folder: with TLS, or without as Debian sets it up. The path /open/TOKEN/.. has files of the folder for requests with
    `Authorization: Bearer TOKEN`, and the query `v=1`."""

    def __init__(self, root, secure=True):
        self.folder = tempfile.mkdtemp(dir=FOLDER)
        self.port = free_port()
        self.front = f'https://localhost:{self.port}/' if secure else f'http://127.0.0.1:{self.port}/'
        self.certificate = os.path.join(self.folder, 'certificate')
        key = os.path.join(self.folder, 'key')
        if secure:
            certify(self.certificate, key)
        ways = f'keepalive_requests 100000; ssl_certificate {self.certificate}; ssl_certificate_key {key};' if secure else (
            'sendfile on; tcp_nopush on;')
        places = ' '.join(f'{kind}_temp_path {self.folder}/{kind};' for kind in ('client_body', 'proxy', 'fastcgi', 'uwsgi', 'scgi'))
        lines = f'''daemon off; master_process off; pid {self.folder}/pid; error_log {self.folder}/errors;
events {{ }}
http {{ access_log {self.folder}/access; {places} {ways}
  server {{ listen 127.0.0.1:{self.port}{' ssl' if secure else ''}; server_name localhost;
    root {root}; location /moved {{ return 301 /grey.tif; }}
    location ~ ^/open/(?<token>[a-z]+)(?<file>/.*)$ {{
      if ($http_authorization != "Bearer $token") {{ return 401; }}
      if ($args != "v=1&a/b?c") {{ return 404; }}
      try_files $file =404; }} }} }}'''
        config = os.path.join(self.folder, 'conf')
        with open(config, 'w') as file:
            file.write(lines)
        os.chmod(FOLDER, 0o755)
        self.process = subprocess.Popen(['nginx', '-c', config, '-e', os.path.join(self.folder, 'errors')], stderr=subprocess.DEVNULL)
        for _ in range(500):
            try:
                socket.create_connection(('127.0.0.1', self.port)).close()
                break
            except OSError:
                time.sleep(0.01)

    def url(self, name):
        return self.front + name

    def context(self):
        return ssl.create_default_context(cafile=self.certificate)

    def __enter__(self):
        return self

    def __exit__(self, *_):
        self.process.kill()
        self.process.wait()

class Cutting(socketserver.ThreadingTCPServer):
    """Passes connections on to a server, request by request, counts them, their requests and how many come at once, and cuts the first
    answer after so many bytes. With `alone` a connection ends after an answer where its next request came before it."""
    daemon_threads = True
    allow_reuse_address = True

    def __init__(self, port, cut=None, alone=False):
        self.above, self.cut, self.alone = port, cut, alone
        self.cuts = self.connections = self.requests = self.at_once = 0
        super().__init__(('127.0.0.1', 0), Passing)
        threading.Thread(target=self.serve_forever, kwargs={'poll_interval': 0.01}, daemon=True).start()

    def url(self, name):
        return f'http://127.0.0.1:{self.server_address[1]}/{name}'


class Passing(socketserver.BaseRequestHandler):
    def handle(self):
        self.server.connections += 1
        self.rest = b''
        with socket.create_connection(('127.0.0.1', self.server.above)) as above:
            while self.one(above):
                self.server.requests += 1

    def one(self, above):
        """One request with its answer. False where either end has ended."""
        try:
            text, end = self.head_of(self.request, self.rest)
            self.server.at_once = max(self.server.at_once, text.count(b'\r\n\r\n'))
            self.rest = text[end:]
            above.sendall(text[:end])
            answer, end = self.head_of(above)
            length = end + int(answer[:end].lower().split(b'content-length:')[1].split(b'\r')[0])
            while len(answer) < length:
                answer += above.recv(65536)
            cut, self.server.cut = self.server.cut, None
            self.server.cuts += cut is not None
            self.request.sendall(answer[:cut])
            return cut is None and not (self.server.alone and self.rest)
        except (EOFError, ConnectionError):
            return False

    @staticmethod
    def head_of(at, text=b''):
        """What came up to the end of a head, and where that is."""
        while b'\r\n\r\n' not in text:
            piece = at.recv(65536)
            if not piece:
                raise EOFError
            text += piece
        return text, text.index(b'\r\n\r\n') + 4


class Ends(bytes):
    """An answer behind which the connection ends."""


class Resets(bytes):
    """An answer behind which the connection is reset."""


class Silent(bytes):
    """An answer behind which nothing comes any more."""


class Made(socketserver.ThreadingTCPServer):
    """Gives the answers that `answer` makes of a request and its number, from 1 on: bytes, or a list of them that are sent apart, with a
    pause of so many seconds after each. It counts connections, requests, how many came at once, and the bytes that were sent. With `Batching`
    the number is of the requests that came at once, of which the first is answered alone."""
    daemon_threads = True
    allow_reuse_address = True
    request_queue_size = 64
    address = '127.0.0.1'

    def __init__(self, answer, handler=None, pause=0.001):
        self.answer = answer
        self.pause = pause
        self.connections = self.requests = self.at_once = self.sent = 0
        super().__init__((self.address, 0), handler or Making)
        threading.Thread(target=self.serve_forever, kwargs={'poll_interval': 0.01}, daemon=True).start()

    def url(self, name='a'):
        return f'http://127.0.0.1:{self.server_address[1]}/{name}'

    def __exit__(self, *words):
        self.shutdown()
        super().__exit__(*words)


class MadeOf6(Made):
    """The same over IPv6."""
    address_family = socket.AF_INET6
    address = '::1'

    def url(self, name='a'):
        return f'http://[::1]:{self.server_address[1]}/{name}'


class Secure(Made):
    """The same over TLS."""

    def __init__(self, *words, **more):
        folder = tempfile.mkdtemp(dir=FOLDER)
        self.certificate, key = os.path.join(folder, 'certificate'), os.path.join(folder, 'key')
        certify(self.certificate, key)
        self.tls = ssl.SSLContext(ssl.PROTOCOL_TLS_SERVER)
        self.tls.load_cert_chain(self.certificate, key)
        super().__init__(*words, **more)

    def url(self, name='a'):
        return f'https://localhost:{self.server_address[1]}/{name}'

    def get_request(self):
        connection, address = super().get_request()
        return self.tls.wrap_socket(connection, server_side=True), address


def reset(connection):
    """Ends a connection so, behind what was sent."""
    time.sleep(0.02)
    connection.setsockopt(socket.SOL_SOCKET, socket.SO_LINGER, struct.pack('ii', 1, 0))
    connection.close()


class Making(socketserver.BaseRequestHandler):
    def handle(self):
        self.server.connections += 1
        self.request.setsockopt(socket.IPPROTO_TCP, socket.TCP_NODELAY, 1)
        text = b''
        try:
            while True:
                text, end = Passing.head_of(self.request, text)
                self.server.requests += 1
                self.server.at_once = max(self.server.at_once, text.count(b'\r\n\r\n'))
                answer = self.server.answer(text[:end], self.server.requests)
                for piece in answer if isinstance(answer, list) else [answer]:
                    for at in range(0, len(piece), 65536):
                        self.request.sendall(piece[at:at + 65536])
                        self.server.sent += len(piece[at:at + 65536])
                    time.sleep(self.server.pause if isinstance(answer, list) else 0)
                if isinstance(answer, Resets):
                    return reset(self.request)
                while isinstance(answer, Silent):
                    if not self.request.recv(65536):
                        return
                if isinstance(answer, Ends) or b'Connection: close' in text[:end]:
                    return
                text = text[end:]
        except (EOFError, OSError):
            pass


class Batching(socketserver.BaseRequestHandler):
    def handle(self):
        self.server.connections += 1
        try:
            while self.request.recv(1, socket.MSG_PEEK):
                time.sleep(0.02)
                text = self.request.recv(65536)
                answer = self.server.answer(text[:text.index(b'\r\n\r\n') + 4], text.count(b'\r\n\r\n'))
                self.request.sendall(answer)
                if isinstance(answer, Resets):
                    reset(self.request)
                if isinstance(answer, (Ends, Resets)):
                    return
        except OSError:
            pass
