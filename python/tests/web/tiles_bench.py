"""Tiles a second of the viewer's server, beside rasterio's in the same server."""
import http.client
import os
import random
import subprocess
import sys
import threading
import time
import urllib.parse

HERE = os.path.dirname(os.path.abspath(__file__))
SIDES = {'grey': (7168, 6144), 'rgb': (3584, 3072)}
ROUNDS = 3
SLICE = 24
ROUND_TRIP = 40
WAYS = {'package': 'the package, a reader for each of eight', 'one': 'the package, one reader', 'rasterio': 'rasterio, a data set for each thread'}


def serve(way, url, name):
    """Serves tiles of a URL until the process is killed: by the package, or by rasterio in the place of it."""
    from delgunsai.view import _layer, _server
    layer, = _server.layers_of([url], 1 if way == 'one' else 8, 2.0)
    revision = layer.revision()
    if way == 'rasterio':
        import numpy
        import rasterio
        from rasterio.windows import Window
        kept = threading.local()

        def samples(_, level, x, y, width, height):
            key = f'level{level}'
            if not hasattr(kept, key):
                setattr(kept, key, rasterio.open(url, **({'overview_level': level - 1} if level else {})))
            read = getattr(kept, key).read(window=Window(256 * x, 256 * y, width, height))
            return read[0] if len(read) == 1 else numpy.ascontiguousarray(read.transpose(1, 2, 0))
        layer.tile_samples = samples
        assert isinstance(layer, _layer.Layer) and revision.tag
    server = _server.Viewer([layer])
    print(server.server_port, flush=True)
    server.serve_forever()


def fetch(connection, targets, seen):
    """Gets these tiles over a connection."""
    for target in targets:
        connection.request('GET', target)
        answer = connection.getresponse()
        body = answer.read()
        if answer.status != 200:
            sys.exit(f'web: {target}: {answer.status} {body[:200]}')
        seen[target] = hash(body)


class Served:
    """A server of tiles in a process of its own."""

    def __init__(self, way, url, name):
        self.process = subprocess.Popen([sys.executable, os.path.abspath(__file__), way, url, name], stdout=subprocess.PIPE, text=True,
                                        env={**os.environ, 'PYTHONPATH': os.pathsep.join(sys.path), 'GDAL_DISABLE_READDIR_ON_OPEN': 'EMPTY_DIR'})
        self.port = int(self.process.stdout.readline())
        self.connections = []

    def get(self, targets, at_once, seen):
        """Gets these tiles over as many connections, which are kept, and returns the seconds that it takes."""
        while len(self.connections) < at_once:
            self.connections.append(http.client.HTTPConnection('127.0.0.1', self.port))
        threads = [threading.Thread(target=fetch, args=(self.connections[k], targets[k::at_once], seen)) for k in range(at_once)]
        start = time.perf_counter()
        for thread in threads:
            thread.start()
        for thread in threads:
            thread.join()
        return time.perf_counter() - start

    def busy(self):
        """The seconds of processor time that it took so far."""
        with open(f'/proc/{self.process.pid}/stat') as file:
            return sum(map(int, file.read().rsplit(')', 1)[1].split()[11:13])) / os.sysconf('SC_CLK_TCK')

    def end(self):
        self.process.kill()
        self.process.communicate()


def turns(url, name, targets, at_once, sums, bodies):
    """Gets the tiles by all ways in turn, some at a time, from nothing, and then again. Adds up the seconds, and those of processor time."""
    servers = {way: Served(way, url, name) for way in WAYS}
    try:
        for again in 0, 1:
            seen, before = {way: {} for way in WAYS}, {way: server.busy() for way, server in servers.items()}
            for number, first in enumerate(range(0, len(targets), SLICE)):
                for turn in range(len(WAYS)):
                    way = list(WAYS)[(number + turn) % len(WAYS)]
                    sums[way, at_once, again] = sums.get((way, at_once, again), 0) + servers[way].get(targets[first:first + SLICE], at_once, seen[way])
            for way, server in servers.items():
                sums['busy', way, at_once, again] = sums.get(('busy', way, at_once, again), 0) + server.busy() - before[way]
            bodies.update(tuple(one[target] for target in targets) for one in seen.values())
    finally:
        for server in servers.values():
            server.end()


def measure(url, name, count, words=''):
    """A row for each way and number of connections, over all rounds."""
    import delgunsai
    with delgunsai.open(url) as file:
        sides, tag = file.levels[0], urllib.parse.quote(file.tag)
    every = [(x, y) for x in range(sides[0] // 256) for y in range(sides[1] // 256)]
    chosen = random.Random(1).sample(every, min(count, len(every)))
    targets = [f'/tiles/{name}.tif/0/{x}/{y}.png?tag={tag}' for x, y in chosen]
    sums, bodies = {}, set()
    for _ in range(ROUNDS):
        for at_once in 1, 8:
            turns(url, name, targets, at_once, sums, bodies)
    if len(bodies) != 1:
        sys.exit('web: the tiles differ')
    for at_once in 1, 8:
        for way, meaning in WAYS.items():
            rates = [ROUNDS * len(targets) / sums[way, at_once, again] for again in (0, 1)]
            ratios = [sums['rasterio', at_once, again] / sums[way, at_once, again] for again in (0, 1)]
            busy = [1000 * sums['busy', way, at_once, again] / ROUNDS / len(targets) for again in (0, 1)]
            print(f'{name}{words}, {at_once} at once, {meaning}: {rates[0]:.0f} tiles a second ({ratios[0]:.2f}), again {rates[1]:.0f} '
                  f'({ratios[1]:.2f}); {busy[0]:.2f} ms of processor time a tile, again {busy[1]:.2f}', flush=True)


def main(count=400, far=72):
    import rasterio
    from files import PLAIN, TRANSLATE, base
    from servers import Cogserve
    from support import EXAMPLE, FOLDER, free_port
    with rasterio.open(EXAMPLE) as source:
        samples, profile = source.read(1), source.profile
    paths = {}
    for name, (width, height) in SIDES.items():
        paths[f'{name}.tif'] = os.path.join(FOLDER, f'{name}.tif')
        subprocess.run([*TRANSLATE, *PLAIN, '-co', 'BLOCKSIZE=256', '-outsize', str(width), str(height),
                        base(3 if name == 'rgb' else 1, samples, profile), paths[f'{name}.tif']], check=True, stderr=subprocess.DEVNULL)
        os.utime(paths[f'{name}.tif'], (time.time() - 3600,) * 2)
    with Cogserve(paths) as server:
        for name in SIDES:
            measure(server.url(f'{name}.tif'), name, count)
        port = free_port()
        relay = subprocess.Popen([sys.executable, os.path.join(os.path.dirname(HERE), 'relay.py'), str(port), f'127.0.0.1:{server.port}',
                                  str(ROUND_TRIP)], stdout=subprocess.PIPE)
        relay.stdout.readline()
        try:
            measure(f'http://127.0.0.1:{port}/grey.tif', 'grey', far, f' over round trips of {ROUND_TRIP} ms')
        finally:
            relay.terminate()
            relay.communicate()


if __name__ == '__main__':
    serve(*sys.argv[1:])
