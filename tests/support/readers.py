"""Those who read a window from a server on loopback, each as a program of its own, and what comes of them."""
import os, subprocess, sys
from typing import Callable, NamedTuple, Optional

from hostile_server import WINDOW
from products import PROGRAM, TOP
from package import TESTS

READS, NONE, FAULT, WAITS = 'reads', 'no window', 'a fault', 'waits'
X, Y, WIDTH, HEIGHT = WINDOW
WORDS = [str(number) for number in WINDOW]
REQUESTS = 64
"""The most exchanges of `cogread` without an option."""
EXCHANGES, WAIT = 40, 500
"""The most exchanges of the example in C, and how many milliseconds it waits, where it is built for tests."""


class Reader(NamedTuple):
    """`column` is the place of its outcome in a row of the table, `connections` the most that it makes."""
    name: str
    column: int
    command: Callable
    judged: Callable
    connections: Optional[int] = None
    environment: Optional[dict] = None


def as_cogread(status, out, _errors):
    """What came of `cogread`, and the samples."""
    front = b'P5\n%d %d\n255\n' % (WIDTH, HEIGHT)
    if status == 0 and out.startswith(front):
        return READS, out[len(front):]
    return ({3: FAULT, 4: NONE}.get(status) if not out else None), b''


def as_example(status, out, errors):
    """What came of the example in C."""
    if status == 1:
        return (NONE if errors in (b'example: no report\n', b"example: an answer isn't used\n") and not out else None), b''
    return {0: READS, 3: FAULT}.get(status), out


def as_package(status, out, _errors):
    """What came of read_window.py."""
    return {0: READS, 3: FAULT, 4: NONE}.get(status), out


def readers(example, package):
    """The readers, of which the example in C is this program, and the Python package lies in this folder."""
    program = os.path.join(TOP, 'tests/support/read_window.py')
    environment = {**os.environ, 'PYTHONPATH': os.pathsep.join([package, TESTS]), 'PYTHONDONTWRITEBYTECODE': '1'}

    def by_url(port):
        return [PROGRAM, 'cogread', 'window', f'http://127.0.0.1:{port}/a', *WORDS]

    def by_name(port):
        return [PROGRAM, 'cogread', 'window', f'127.0.0.1:{port}', 'a', *WORDS]

    def by_example(port):
        return [example, f'127.0.0.1:{port}/a', *WORDS, '0']

    def by_package(way):
        return lambda port: [sys.executable, program, f'http://127.0.0.1:{port}/a', way, *WORDS]
    return [
        Reader('cogread URL', 0, by_url, as_cogread, 2 * REQUESTS),
        Reader('cogread SERVER NAME', 1, by_name, as_cogread, REQUESTS),
        Reader('C', 2, by_example, as_example, 2 * EXCHANGES),
        Reader('Python', 3, by_package('python'), as_package, None, environment),
        Reader('Python, wire.c', 3, by_package('wire'), as_package, None, environment),
    ]


def started(reader, port):
    """The process of a reader."""
    return subprocess.Popen(reader.command(port), stdout=subprocess.PIPE, stderr=subprocess.PIPE, env=reader.environment)


def outcome_of(reader, process, seconds):
    """What comes of a reader within so many seconds: its outcome, or what is wrong with it, and the samples."""
    try:
        out, errors = process.communicate(timeout=seconds)
    except subprocess.TimeoutExpired:
        process.kill()
        out, errors = process.communicate()
        return (WAITS if not out else f'{len(out)} bytes, and no end'), b''
    outcome, samples = reader.judged(process.returncode, out, errors)
    return outcome or f'status {process.returncode}, {out[:60]!r}, {errors[-200:]!r}', samples
