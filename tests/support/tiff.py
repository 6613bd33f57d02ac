"""Files of one sample of 8 bits in plain tiles, with their samples."""
import struct

def padded(row, width):
    """A row with its last sample repeated up to this width."""
    return row + row[-1:] * (width - len(row))

def tiles_of(rows, side):
    """The bytes of the tiles, whose sides are `side`, from left to right and from top to bottom."""
    across, down = -(-len(rows[0]) // side), -(-len(rows) // side)
    whole = [padded(row, across * side) for row in rows]
    whole += whole[-1:] * (down * side - len(rows))
    return [b''.join(row[left * side:(left + 1) * side] for row in whole[top * side:(top + 1) * side])
            for top in range(down) for left in range(across)]

def tiff(rng, levels, side=16):
    """A file with levels of these sides, (width, height), each of samples at random, in tiles of `side` by `side`; and each level's rows.
    The tiles of a level stand before their arrays, and these before its directory."""
    pictures = [[rng.randbytes(width) for _ in range(height)] for width, height in levels]
    file, link = bytearray(b'II*\0\0\0\0\0'), 4
    for level, rows in enumerate(pictures):
        tiles = tiles_of(rows, side)
        count, size, first = len(tiles), side * side, len(file)
        arrays = first + size * count
        file += b''.join(tiles) + struct.pack(f'<{2 * count}I', *range(first, arrays, size), *[size] * count)
        offsets, counts = (first, size) if count == 1 else (arrays, arrays + 4 * count)
        entries = [(254, 4, 1, int(level > 0)), (256, 4, 1, len(rows[0])), (257, 4, 1, len(rows)), (258, 3, 1, 8), (259, 3, 1, 1),
                   (262, 3, 1, 1), (277, 3, 1, 1), (322, 4, 1, side), (323, 4, 1, side), (324, 4, count, offsets), (325, 4, count, counts)]
        struct.pack_into('<I', file, link, len(file))
        file += struct.pack('<H', len(entries)) + b''.join(struct.pack('<HHII', *entry) for entry in entries) + bytes(4)
        link = len(file) - 4
    return bytes(file), pictures

def samples(rows, x, y, w, h):
    """The samples of a window, row by row."""
    return b''.join(row[x:x + w] for row in rows[y:y + h])

def picture(rows, x, y, w, h):
    """A window as P5."""
    return b'P5\n%d %d\n255\n' % (w, h) + samples(rows, x, y, w, h)
