"""relay.py LISTEN HOST:PORT MILLISECONDS: a relay of TCP connections that delays, as a network with round trips of so long does.

It listens on 127.0.0.1:LISTEN and passes each connection on to HOST:PORT. Bytes arrive half a round trip after they were sent, in
either direction, and a new connection takes one round trip more before its first byte goes, as the handshake does. At the end
(SIGTERM, SIGINT) it prints how many connections there were, and how many bytes went up and down. Bandwidth isn't limited."""
import asyncio, os, signal, sys

listen, (host, port), trip = int(sys.argv[1]), sys.argv[2].rsplit(':', 1), float(sys.argv[3]) / 1000
count = {'connections': 0, 'up': 0, 'down': 0}

async def read(reader, queue, way):
    """Notes each piece with the moment at which it came."""
    clock = asyncio.get_running_loop().time
    try:
        while piece := await reader.read(65536):
            count[way] += len(piece)
            await queue.put((clock(), piece))
    except OSError:
        pass
    await queue.put((clock(), b''))

async def write(queue, writer, delay):
    """Writes each piece as long after it came as the delay says."""
    clock = asyncio.get_running_loop().time
    try:
        while True:
            came, piece = await queue.get()
            await asyncio.sleep(max(0, came + delay - clock()))
            if not piece:
                break
            writer.write(piece)
            await writer.drain()
        if writer.can_write_eof():
            writer.write_eof()
    except OSError:
        pass

async def serve(reader, writer):
    count['connections'] += 1
    await asyncio.sleep(trip)
    try:
        above, below = await asyncio.open_connection(host, int(port))
    except OSError:
        writer.close()
        return
    up, down = asyncio.Queue(), asyncio.Queue()
    await asyncio.gather(read(reader, up, 'up'), write(up, below, trip / 2), read(above, down, 'down'), write(down, writer, trip / 2))
    for end in (below, writer):
        end.close()

async def main():
    server = await asyncio.start_server(serve, '127.0.0.1', listen, backlog=1024)
    stop = asyncio.Event()
    for number in (signal.SIGTERM, signal.SIGINT):
        asyncio.get_running_loop().add_signal_handler(number, stop.set)
    print('relaying', flush=True)
    await stop.wait()
    print('connections {connections} up {up} down {down}'.format(**count), flush=True)
    os._exit(0)                # what is still on its way is dropped

asyncio.run(main())
