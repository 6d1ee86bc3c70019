"""Writes Arrow files (IPC file format)."""
import struct


class Table:
    """A FlatBuffers table: for each field its slot, its size in bytes, and a number, bytes, or what it points at."""

    def __init__(self, *fields):
        self.fields = fields


def text(value):
    return struct.pack("<I", len(value)) + value + b"\0"


def structs(count, data):
    return struct.pack("<I", count) + data


def flatbuffer(root):
    """The bytes of a table and of all that it points at, which stands behind what points at it."""
    out = bytearray(4)
    todo = [(0, root)]
    while todo:
        hole, node = todo.pop(0)
        if isinstance(node, Table):
            place = put_table(out, node, todo)
        else:
            place = put_vector(out, node, todo)
        struct.pack_into("<I", out, hole, place - hole)
    return bytes(out) + bytes(-len(out) % 8)


def put_table(out, table, todo):
    slots = 1 + max((slot for slot, _, _ in table.fields), default=-1)
    size = 8
    places = {}
    for slot, width, _ in table.fields:
        size += -size % width
        places[slot] = size
        size += width
    vtable = struct.pack("<HH", 4 + 2 * slots, size) + b"".join(struct.pack("<H", places.get(slot, 0)) for slot in range(slots))
    out += bytes(-(len(out) + len(vtable)) % 8) + vtable
    place = len(out)
    out += struct.pack("<i", len(vtable)) + bytes(size - 4)
    for slot, width, value in table.fields:
        if isinstance(value, int):
            out[place + places[slot]:place + places[slot] + width] = value.to_bytes(width, "little")
        else:
            todo.append((place + places[slot], value))
    return place


def put_vector(out, items, todo):
    """Bytes that are a whole vector, or a list of tables."""
    # The elements behind the length begin at a multiple of eight.
    out += bytes((4 - len(out)) % 8)
    place = len(out)
    if isinstance(items, bytes):
        out += items
        return place
    out += struct.pack("<I", len(items)) + bytes(4 * len(items))
    todo += [(place + 4 + 4 * i, item) for i, item in enumerate(items)]
    return place


WHOLE = 2, lambda: Table((0, 4, 64), (1, 1, 1))
TEXT = 5, lambda: Table()
DATE = 8, lambda: Table((0, 2, 0))


def decimal(precision, scale):
    return 7, lambda: Table((0, 4, precision), (1, 4, scale))


def schema(columns):
    """Of columns that are given as a name and a type; each may hold nulls."""
    return Table((1, 4, [Table((0, 4, text(name)), (1, 1, 1), (2, 1, tag), (3, 4, made()), (5, 4, [])) for name, (tag, made) in columns]))


def message(kind, header, body):
    data = flatbuffer(Table((0, 2, 4), (1, 1, kind), (2, 4, header), (3, 8, body)))
    return b"\xff\xff\xff\xff" + struct.pack("<I", len(data)) + data


def batch(rows, columns):
    """The metadata and the body of a record batch. Each column is its buffers, that of its validity first, which is empty where
    there are no nulls."""
    nodes, places, body = b"", b"", bytearray()
    for buffers in columns:
        nodes += struct.pack("<qq", rows, rows - int.from_bytes(buffers[0], "little").bit_count() if buffers[0] else 0)
        for data in buffers:
            places += struct.pack("<qq", len(body), len(data))
            body += data
            body += bytes(-len(body) % 8)
    head = message(3, Table((0, 8, rows), (1, 4, structs(len(columns), nodes)), (2, 4, structs(len(places) // 16, places))), len(body))
    return head, bytes(body)


def write_file(path, columns, batches):
    """Batches are pairs of a number of rows and the columns' buffers."""
    blocks = []
    with open(path, "wb") as file:
        file.write(b"ARROW1\0\0" + message(1, schema(columns), 0))
        for rows, parts in batches:
            head, body = batch(rows, parts)
            blocks.append(struct.pack("<qi4xq", file.tell(), len(head), len(body)))
            file.write(head + body)
        footer = flatbuffer(Table((0, 2, 4), (1, 4, schema(columns)), (2, 4, structs(0, b"")), (3, 4, structs(len(blocks), b"".join(blocks)))))
        file.write(b"\xff\xff\xff\xff\0\0\0\0" + footer + struct.pack("<i", len(footer)) + b"ARROW1")
