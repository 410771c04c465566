"""Writes the inputs of tests/listing.sh, and for each what a listing must print, to a folder:

    make_images.py FOLDER

Each input is NAME.img and its text NAME.txt, by tests/list.py.
"""

import os
import random
import sys

import list as lister
import reference

PAGE = reference.PAGE
AGGREGATE, LITERAL = reference.AGGREGATE, reference.LITERAL


def path(*numbers):
    return b"".join(number.to_bytes(4, "little") for number in numbers)


def formatted(pages, label, tolerance=409, matrix=bytes([2] * 256)):
    image = bytearray(pages * PAGE)
    assert reference.format_image(image, pages, 128, tolerance, 1, matrix, label) == (0,)
    return image


def put(image, parent, child, kind, label, content=b"", origin=0):
    answer = reference.insert(image, path(*parent), child, kind, origin, label, content)
    assert answer[0] == 0, answer
    return answer


def sample():
    """The image of document 01's listing."""
    image = formatted(3, 7)
    put(image, (), 0, LITERAL, 9, b"\x41\x42")
    put(image, (), 0, AGGREGATE, 300)
    return image


def chain():
    """A literal at the last level."""
    image = formatted(2, 65535)
    for level in range(22):
        put(image, (0,) * level, 0, AGGREGATE, 256 + level, origin=level % 4)
    put(image, (0,) * 22, 0, LITERAL, 0, bytes(range(256)), origin=3)
    return image


def empties():
    image = formatted(3, 0)
    for child, (kind, label, content) in enumerate([(LITERAL, 256, b""), (AGGREGATE, 65535, b""), (LITERAL, 9, b"\0"), (LITERAL, 10, b""),
                                                   (LITERAL, 0, b"\xff")]):
        put(image, (), child, kind, label, content)
    return image


def origins():
    """Each origin on each kind, with content and without."""
    image = formatted(2, 7)
    for origin in range(4):
        put(image, (), 0, LITERAL, 9, origin=origin)
        put(image, (), 0, LITERAL, 9, b"\x41", origin=origin)
        put(image, (), 0, AGGREGATE, 9, origin=origin)
    return image


def with_origin(image, kind, origin):
    """A copy with this byte as the origin of its last node of the kind."""
    image = bytearray(image)
    starts = [start for page in range(1, len(image) // PAGE) for start in reference.headers(image, page) if image[start] == kind]
    image[starts[-1] + 1] = origin
    return image


def grown(pages, seed, **settings):
    """Random inserts until the image is full: splits, helpers, records in records."""
    chance = random.Random(seed)
    image = formatted(pages, 1, **settings)
    while True:
        entries = reference.document_order(reference.read_store(image))
        parents = [entry for entry in entries if entry.node.kind == AGGREGATE and len(entry.path) < 20]
        parent = chance.choice(parents)
        kind = chance.choice([AGGREGATE, LITERAL, LITERAL])
        content = chance.randbytes(chance.choice([0, 3, 40, 520])) if kind == LITERAL else b""
        answer = reference.insert(image, path(*parent.path), chance.randint(0, parent.children), kind, chance.randrange(4),
                                  chance.randrange(1 << chance.choice([3, 8, 16])), content)
        if answer[0] == reference.FULL:
            return image


def full():
    """Every record full of nodes of six bytes: the most lines that 15 pages hold."""
    def aggregates(room):
        return [reference.Node(AGGREGATE, 65535) for _ in range(room // reference.HEADER)]

    records = {page: reference.Record(page, False, reference.Node(reference.HELPER, children=aggregates(reference.CAPACITY - reference.HEADER)))
               for page in range(2, 15)}
    proxies = [reference.Node(reference.PROXY, record=record) for record in records.values()]
    root = reference.Node(AGGREGATE, 65535, children=proxies + aggregates(reference.CAPACITY - reference.HEADER - 8 * len(proxies)))
    records[1] = reference.Record(1, True, root)
    store = reference.Store(reference.Settings(15), records)
    store.changed = set(records)
    image = formatted(15, 1)
    reference.write_changes(store, image)
    return image


def inputs():
    yield "sample", sample()
    yield "fresh", formatted(2, 7)
    yield "fresh15", formatted(15, 300)
    yield "chain", chain()
    yield "empties", empties()
    yield "origins", origins()
    small = grown(5, 11)                              # with splits and helpers
    yield "grown5", small
    yield "grown15", grown(15, 2)
    yield "apart15", grown(15, 3, matrix=bytes([2, 0] * 128))
    yield "full15", full()
    yield "nothing", b""
    yield "short", bytes(PAGE - 1)
    yield "one_page", formatted(2, 7)[:PAGE]
    yield "odd", formatted(2, 7) + b"\0"
    yield "junk", random.Random(4).randbytes(2 * PAGE)
    yield "broken", sample()[:PAGE] + bytes(2 * PAGE)
    for name, kind in ("aggregate", AGGREGATE), ("literal", LITERAL), ("proxy", reference.PROXY), ("helper", reference.HELPER):
        for origin in 1, 3, 4, 255:
            yield "%s_origin%d" % (name, origin), with_origin(small, kind, origin)
    yield "over", formatted(16, 7)
    yield "over_one", formatted(15, 7) + b"\0"


def main(folder):
    os.makedirs(folder, exist_ok=True)
    for name, image in inputs():
        with open(os.path.join(folder, name + ".img"), "wb") as out:
            out.write(image)
        with open(os.path.join(folder, name + ".txt"), "w", encoding="ascii") as out:
            out.write(lister.listing(image))


if __name__ == "__main__":
    main(sys.argv[1])
