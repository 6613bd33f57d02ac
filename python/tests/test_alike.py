"""Bytes that wire.c moves beside those that Python moves, as over TLS: the core has all state, so either goes on where the other stopped."""
import itertools
import unittest

import delgunsai
import test_network
import test_signals
from answers import head, served
from servers import Ends, Made, Resets, Silent
from support import InPython, in_python
from test_network import TEXT, cut_out, right, tall

PLACES = 0, 5, 11, 12, 20, 150, 20000


class Alike(unittest.TestCase):
    """What comes of a kept connection that fails is the same either way."""

    def after(self, read, failure, place, once, timeout):
        """What comes of this where the answers fail from this place on, or that one alone: what is raised, and the connections."""
        left = [-1]

        def answer(request, _):
            text, fails = served(request, TEXT), left[0] == 1
            left[0] -= left[0] > 1 or fails and once
            return failure(text) if fails else text
        with Made(answer) as server, delgunsai.open(server.url(), timeout=timeout) as file:
            file.read(**cut_out(0, 0, 10))
            left[0], raised = place, ''
            try:
                self.assertTrue(read(file))
            except delgunsai.Error as error:
                raised = f'{type(error).__name__} {error}'.replace(server.url(), '')
            return raised, server.connections

    def alike(self, failures, times=(False, True), timeout=5, of=lambda seen: seen):
        for name, failure in failures.items():
            for (read, place), once in itertools.product(((lambda file: right(file, 700, 700, 10), 1), (lambda file: tall(file, 500), 1),
                                                          (lambda file: tall(file, 500), 3)), times):
                seen = of(self.after(read, failure, place, once, timeout))
                with in_python():
                    wanted = of(self.after(read, failure, place, once, timeout))
                with self.subTest(name, place=place, once=once):
                    self.assertEqual(seen, wanted)

    def test_alike(self):
        late = head(b'408 Request Timeout', b'Content-Length: 0')
        failures = {f'{kind.__name__} after {at}': lambda text, kind=kind, at=at: kind(text[:at]) for kind in (Ends, Resets) for at in PLACES}
        failures.update({f'{kind.__name__} of 408 after {at}': lambda _, kind=kind, at=at: kind(late[:at])
                         for kind in (Ends, Resets) for at in (12, 20, 100)})
        self.alike(failures)

    def test_silence_alike(self):
        """So it is of silence; how many connections are late is chance on a busy machine."""
        self.alike({f'{at} bytes': lambda text, at=at: Silent(text[:at]) for at in (0, 11, 12, 20000)}, [True], 0.5, lambda seen: seen[0])

    def test_parts_alike(self):
        """So it is of parts that can't be used."""
        parts = {f'a part with {field}': lambda text, field=field: text.replace(b'ETag: "1"', field)
                 for field in (b'ETag: "2"', b'ETag: W/"1"', b'A: b', b'ETag: "' + b'1' * 70 + b'"')}
        parts['a part of another length'] = lambda text: text.replace(b'/%d' % len(TEXT), b'/%d' % (len(TEXT) + 1))
        self.alike(parts)


class ForkedInPython(InPython, test_network.Forked):
    pass


class InterruptedInPython(InPython, test_signals.Interrupted):
    pass


class AtOnceInPython(InPython, test_network.AtOnce):
    pass


class NothingInPython(InPython, test_network.Nothing):
    pass


class UnneededInPython(InPython, test_network.Unneeded):
    pass
