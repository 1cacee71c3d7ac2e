"""A plain reader of images of version 1, which says what a migration has to write.

`migrated(image)` is the half, 0 or 1, into which the bytes of an image of version 1 are to be
migrated, and what that half is then to begin with. It goes by docs/FORMAT.md alone.
"""
import struct

HALF = 4_194_304
MODE = 0o644
MOST_TOUCHES = 4_096


class Reader:
    """Bytes, read from the front."""

    def __init__(self, held):
        self.held, self.at = held, 0

    def take(self, count):
        assert self.at + count <= len(self.held), "too few bytes"
        self.at += count
        return self.held[self.at - count : self.at]

    def number(self, count):
        return int.from_bytes(self.take(count), "big")

    def path(self):
        return tuple(self.take(self.number(1)) for _ in range(self.number(1)))

    def part(self, read_file, at=()):
        """What stands at a path and below it: files, and None for directories."""
        kind = self.number(1)
        if kind == 0:
            return {}
        if kind == 1:
            return {at: read_file(self)}
        assert kind == 2, f"kind {kind}"
        found = {at: None}
        for _ in range(self.number(2)):
            found |= self.part(read_file, at + (self.take(self.number(1)),))
        return found


def old_file(reader):
    return reader.take(reader.number(4))


def old_digest(reader):
    return reader.take(32)


def new_file(held):
    return struct.pack(">BHI", 1, MODE, len(held)) + held


def new_digest(held):
    return struct.pack(">BH", 1, MODE) + held


def spelled(part, spell_file, at=()):
    """The part in version 2, from the path on."""
    if part[at] is not None:
        return spell_file(part[at])
    names = sorted(path[-1] for path in part if path[:-1] == at and path != at)
    out = struct.pack(">BH", 2, len(names))
    for name in names:
        out += bytes([len(name)]) + name + spelled(part, spell_file, at + (name,))
    return out


def spelled_path(path):
    return bytes([len(path)]) + b"".join(bytes([len(name)]) + name for name in path)


def replaced(part, path, new):
    """The part with what is at the path and below it taken out, and the new put there."""
    kept = {at: what for at, what in part.items() if at[: len(path)] != path}
    return kept | {path + at: what for at, what in new.items()}


def value(held):
    """The current half, its generation, its image, and the payloads after it."""
    opened = [at for at in (0, 1) if held[at * HALF] == 0xA5]
    half = max(opened, key=lambda at: held[at * HALF + 1 : at * HALF + 9])
    reader = Reader(held[half * HALF : (half + 1) * HALF])
    reader.take(1)
    generation = reader.number(8)
    image, payloads = reader.take(reader.number(4)), []
    while reader.number(1) == 0xA5:
        payloads.append(reader.take(reader.number(4)))
    return half, generation, image, payloads


def new_replica(image, payloads):
    """The image of version 2 of a replica that has this image and these records."""
    reader = Reader(image)
    assert reader.take(5) == b"SYNR\1"
    pair, position, floor, session = (reader.number(8) for _ in range(4))
    token = reader.take(12) if reader.number(1) else None
    touches = [(reader.number(8), reader.path()) for _ in range(reader.number(2))]
    tree = reader.part(old_file)
    for payload in payloads:
        event = Reader(payload)
        kind, path = event.number(1), None
        if kind == 4:
            session = event.number(8)
        elif kind == 5:
            token, path, _ = event.take(12), event.path(), event.number(8)
            tree = replaced(tree, path, event.part(old_file))
        else:
            _, path = event.number(4), event.path()
            new = {1: lambda: {(): old_file(event)}, 2: lambda: {(): None}, 3: dict}[kind]()
            tree = replaced(tree, path, new)
        assert event.at == len(payload)
        if path is not None:
            touches.append((position, path))
            if len(touches) > MOST_TOUCHES:
                floor = touches.pop(0)[0] + 1
        position += 1
    out = b"SYNR\2" + struct.pack(">QQQQ", pair, position, floor, session)
    out += b"\0" if token is None else b"\1" + token
    out += struct.pack(">H", len(touches))
    out += b"".join(struct.pack(">Q", at) + spelled_path(path) for at, path in touches)
    return out + spelled(tree, new_file)


def new_archive(image, payloads):
    """The same of an archive."""
    reader = Reader(image)
    assert reader.take(5) == b"SYNA\1"
    pair, session = reader.number(8), reader.number(8)
    marks = reader.part(old_digest)
    for payload in payloads:
        kept = Reader(payload)
        kind = kept.number(1)
        if kind == 1:
            session = kept.number(8)
        elif kind == 2:
            path = kept.path()
            marks = replaced(marks, path, kept.part(old_digest))
        else:
            path = kept.path()
            if marks.get(path, b"") is not None:
                marks = replaced(marks, path, {(): None})
        assert kept.at == len(payload)
    return b"SYNA\2" + struct.pack(">QQ", pair, session) + spelled(marks, new_digest)


def migrated(held):
    half, generation, image, payloads = value(held)
    make = new_archive if image[:4] == b"SYNA" else new_replica
    new = make(image, payloads)
    front = struct.pack(">BQI", 0xA5, generation + 1, len(new))
    return 1 - half, front + new + b"\0"
