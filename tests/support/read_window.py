"""read_window URL WAY X Y W H: writes the samples of a window to standard output, read by the Python package. WAY is `python` where Python
moves all bytes, as over TLS, else `wire`. The status is 3 for a fault of the file, and 4 where the file isn't read."""
import contextlib, sys

import delgunsai
from support import in_python

TIMEOUT, DEADLINE = 1, 6


def main(url, way, *window):
    x, y, width, height = map(int, window)
    with in_python() if way == 'python' else contextlib.nullcontext(), delgunsai.open(url, timeout=TIMEOUT, deadline=DEADLINE) as file:
        try:
            samples = file.read(x=x, y=y, width=width, height=height)
        except delgunsai.FileFault as error:
            print(error, file=sys.stderr)
            return 3
        except (delgunsai.NotUsed, delgunsai.Lost) as error:
            print(error, file=sys.stderr)
            return 4
    sys.stdout.buffer.write(samples.tobytes())
    return 0


sys.exit(main(*sys.argv[1:]))
