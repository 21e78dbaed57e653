"""A large map's ground as a picture: a PNG of few colours, a point a node, clear where a node failed so that the hatching shows through."""
import base64
import struct
import zlib

from mapper.drawing.thinning import kept, blocks

MOST_POINTS = 1600  # along a side


def chunk(kind, body):
    """A part of a PNG file: its length, its kind, itself, and its check sum."""
    return struct.pack('>I', len(body)) + kind + body + struct.pack('>I', zlib.crc32(kind + body))


def png(rows, width, colours):
    """A PNG file of rows of bytes from the north down: 0 is clear, k is colour k - 1."""
    head = struct.pack('>IIBBBBB', width, len(rows), 8, 3, 0, 0, 0)
    palette = bytes(3) + b''.join(bytes(c) for c in colours)
    body = zlib.compress(b''.join(b'\0' + bytes(row) for row in rows), 9)
    return (b'\x89PNG\r\n\x1a\n' + chunk(b'IHDR', head) + chunk(b'PLTE', palette) + chunk(b'tRNS', b'\0')
            + chunk(b'IDAT', body) + chunk(b'IEND', b''))


def address(file):
    """A file's bytes as an address that needs no network."""
    return 'data:image/png;base64,' + base64.b64encode(file).decode('ascii')


def class_bytes(figures, good, classes):
    """A byte a node: 0 where it has no figure, else its class and 1."""
    of = classes.of
    return bytes(of(f) + 1 if ok else 0 for f, ok in zip(figures, good))


def grid_rows(points, columns, rows):
    """Rows from the north down, thinned where a side has too many; a thinned point is clear if any node in it is."""
    across = blocks(kept(columns, -(-columns // MOST_POINTS)), columns)
    up = blocks(kept(rows, -(-rows // MOST_POINTS)), rows)
    made = []
    for south, north in reversed(up):
        if len(across) == columns and north - south == 1:
            made.append(points[south * columns:north * columns])
        else:
            made.append(bytes(block_point(points, columns, range(south, north), west, east) for west, east in across))
    return made


def block_point(points, columns, rows, west, east):
    """0 if any point of a block is 0, else the one in its middle."""
    if any(0 in points[r * columns + west:r * columns + east] for r in rows):
        return 0
    return points[rows[len(rows) // 2] * columns + (west + east) // 2]


def grid_picture(figures, good, grid, classes):
    """The address of a grid's picture."""
    rows = grid_rows(class_bytes(figures, good, classes), grid.columns, grid.rows)
    return address(png(rows, len(rows[0]), classes.colours))


FAILED = ((255, 255, 255), (90, 90, 90))  # stripes of failed dots, which have no ground that could show through


def dot_picture(ground, nodes, figures, good, classes):
    """The address of the picture of a long list's dots; failed ones are painted last, striped, so that no other hides them."""
    width, height = int(ground.width), int(ground.height)
    rows = [bytearray(width) for _ in range(height)]
    striped = len(classes.colours) + 1
    points = class_bytes(figures, good, classes)
    for failed in (False, True):
        for at, point in enumerate(points):
            if (point == 0) == failed:
                left, top = int(ground.x(nodes.x[at])) - 1, int(ground.y(nodes.y[at])) - 1
                for y in range(max(0, top), min(height, top + 3)):
                    for x in range(max(0, left), min(width, left + 3)):
                        rows[y][x] = point or striped + ((x + y) // 2) % 2
    return address(png(rows, width, list(classes.colours) + list(FAILED)))
