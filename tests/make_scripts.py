"""Writes a call script with the reference's answers: stores grown at random, asked about from every side, and damaged in many ways.

    make_scripts.py SEED STORES DAMAGED > SCRIPT

First comes a small image with helpers in one another and side by side, from which each node is removed, and into which a node is put at every position,
its records being more or less full. Then STORES images are grown, some of them thinned by removals; after each, calls that change nothing are asked,
then inserts with right and wrong origins, then removals, accepted and refused; nodes of each kind get right and wrong origins, and DAMAGED variants of
the image are made: all these are checked (and, now and then, asked). The image is walked, in one call and in steps, and diagnosed, as are the damaged
ones and those that are broken in a known way (faults.py). The same seed gives the same script.
"""

import random
import sys

import faults
import reference as ref

SHAPES = [(2, 6), (3, 12), (5, 60), (8, 160), (13, 400), (40, 900)]
ORIGIN_BYTES = (0, 1, 2, 3, 4, 255)
ROW = (1, 8, 3, 5)                                    # see nested_helpers: the pages of the records that the root's row goes through, before page 1 again
WRONG_ORIGINS = (4, 255, 256, 65536, 2**32 - 1)       # above 3, also where the low byte or two are not


def grow_store(rng):
    """A random image: its pages, settings and shape vary."""
    pages, inserts = rng.choice(SHAPES)
    pages = max(2, pages + rng.randrange(-1, 3))
    matrix = bytearray(b"\x02" * 256)
    if rng.random() < 0.4:
        for _ in range(rng.choice((1, 20, 200))):
            matrix[rng.randrange(256)] = 0
    image = bytearray(pages * ref.PAGE)
    ref.format_image(image, pages, rng.choice((64, 100, 128, 192)), rng.choice((0, 20, 200, 409, 512)), 1, bytes(matrix), rng.choice((3, 14, 15, 300)))
    deep, long = rng.random(), rng.random()
    for _ in range(rng.randrange(inserts + 1)):
        entries = ref.document_order(ref.read_store(image))
        parents = [e for e in entries if e.node.kind == ref.AGGREGATE and len(e.path) <= 22]
        parent = parents[-1] if rng.random() < deep * 0.5 else rng.choice(parents)
        child = rng.choice((0, parent.children, rng.randrange(parent.children + 1)))
        kind = rng.choice((1, 2))
        size = rng.choice((0, 1, 30, 200, 520)) if rng.random() < long else rng.randrange(40)
        content = bytes([rng.randrange(256)]) * size if kind == 2 else b""
        ref.insert(image, ref.path_bytes(parent.path), child, kind, rng.randrange(ref.ORIGINS), rng.choice((0, 3, 14, 15, 300, 65535)), content)
    if rng.random() < 0.5:
        thin(rng, image)
    return image


def thin(rng, image):
    """Removes every second to tenth leaf, from the last back: helpers are left with one child, records with little."""
    share = rng.randint(2, 10)
    leaves = [e.path for e in ref.document_order(ref.read_store(image)) if not e.children]
    for path in reversed(leaves[::share]):
        ref.remove(image, ref.path_bytes(path))


def pieces(total):
    """Sizes of literals that add up to so many bytes, the biggest last."""
    count, first = divmod(total, ref.HEADER + ref.CONTENT)
    sizes = [ref.HEADER + ref.CONTENT] * count
    if 0 < first < ref.HEADER:
        sizes[0], first = sizes[0] - ref.HEADER, first + ref.HEADER
    return ([first] if first else []) + sizes


def put_runs(before, after, out):
    """Each run of bytes that differ, as lines."""
    differ = (int.from_bytes(before, "big") ^ int.from_bytes(after, "big")).to_bytes(len(after), "big")
    at = 0
    while at < len(differ):
        if not differ[at]:
            at += 1
            continue
        end = at
        while end < len(differ) and any(differ[end:end + 8]) and end - at < 3000:
            end += 1
        out.append("B %d %s" % (at, after[at:end].hex()))
        at = end


def put_image(image, out):
    """The image as lines: its length, then each run of bytes that are not zero."""
    out.append("I %d" % len(image))
    put_runs(bytes(len(image)), image, out)
    out.append("C " + ref.checksum(image))


def ask(call, image, out):
    """A call and its answer, which it gives."""
    words = call.split(" ")
    answer = ref.RUNS[words[0]](image, words[1:])
    out.append(call)
    out.append("= " + " ".join([str(field) for field in answer] + [ref.checksum(image)]))
    return answer


def some_place(rng, entries):
    if entries and rng.random() < 0.75:
        return rng.choice(entries).place()
    return rng.choice((0, 1, 2, rng.randrange(12), 1023, 1024, 65537)), rng.choice((0, 6, rng.randrange(4096), 4080, 65536 + 6))


def some_path(rng, entries):
    numbers = list(rng.choice(entries).path) if entries else []
    if rng.random() < 0.3:
        numbers = numbers + [rng.choice((0, 0, 1, 5, 2**32 - 1))] * rng.choice((1, 1, 2, 24))
    path = ref.path_bytes(numbers)
    if rng.random() < 0.1:
        path += bytes(rng.randrange(1, 4))
    return path


def ask_all(rng, image, count, out):
    try:
        entries = ref.document_order(ref.read_store(image))
    except ref.Refused:
        entries = []
    ask("check", image, out)
    for _ in range(count):
        ask("find " + ref.to_hex(some_path(rng, entries)), image, out)
        ask("climb %d %d %d" % (some_place(rng, entries) + (rng.choice((0, 4, 8, 92, 100)),)), image, out)
        ask("read %d %d" % some_place(rng, entries), image, out)
        ask("next %d %d" % some_place(rng, entries), image, out)
    if entries:
        ask("next %d %d" % entries[-1].place(), image, out)
    ask("records %d" % rng.choice((0, 1, 2, 7, 64)), image, out)


def some_room(rng):
    """Numbers for a walk: none, less than an entry, some whole entries, or more than these."""
    return rng.choice((0, 1, 8, 9, 10, 17, 18, 27, 63, ref.WALK_ENTRY * rng.randrange(12), rng.randrange(100)))


def ask_steps(rng, place, count, out, image):
    """A walk from a place, which goes on from the place that it gives, so many times at most."""
    for _ in range(count):
        _, _, more, *place, _ = ask("walk %d %d %d" % (*place, some_room(rng)), image, out)
        if not more:
            break


def ask_walks(rng, image, out):
    """The whole tree in one call, if it is small, with a room that just takes it, takes one node less, and more; in steps; from any place."""
    entries = ref.document_order(ref.read_store(image))
    whole = ref.WALK_ENTRY * len(entries)
    for room in (whole, whole - 1, whole + 5) if len(entries) <= 40 else (0, 8, ref.WALK_ENTRY * 40 + 4):
        ask("walk 1 0 %d" % room, image, out)
    ask_steps(rng, (1, 0), 6, out, image)
    for _ in range(6):
        ask_steps(rng, some_place(rng, entries), 2, out, image)
    ask("walk %d %d 18" % entries[-1].place(), image, out)


def ask_faults(rng, image, out):
    """Diagnose and a walk of images that are broken in a known way, of those that take few bytes in a script."""
    for hurt, fault in faults.variants(rng, image):
        runs = []
        put_runs(image, hurt, runs)
        if sum(map(len, runs)) <= 500 and rng.random() < 0.4:
            out += ["R"] + runs
            assert ask("diagnose", hurt, out)[1:] == fault
            ask("walk 1 0 10", hurt, out)


def ask_blank(out):
    """Images that were never formatted, and a byte short of that."""
    for byte in 0, 255:
        image = bytearray([byte]) * (2 * ref.PAGE)
        put_image(image, out)
        ask("diagnose", image, out)
        ask("walk 1 0 9", image, out)
        put_byte(ref.PAGE - 1, byte ^ 1, image, out)
        ask("diagnose", image, out)


def ask_inserts(rng, image, out):
    """Each origin put in and read back; then a wrong one alone and beside every other fault of the arguments."""
    for origin in range(ref.ORIGINS):
        _, page, offset, *_ = ask("insert - 0 %d %d 9 -" % (rng.choice((1, 2)), origin), image, out)
        ask("read %d %d" % (page, offset), image, out)
    ask("next 1 0", image, out)
    literal = last_literal(image)
    for path, child, kind, content in (("-", 0, 2, "41"), ("00" * 92, 0, 2, "41"), ("-", 0, 3, "-"), ("-", 0, 1, "41"), ("-", 0, 2, "41" * 521),
                                       ("ff" * 4, 0, 2, "41"), ("00" * 3, 0, 1, "-"), (literal, 0, 2, "41"), ("-", 2**32 - 1, 2, "41")):
        ask("insert %s %d %d %d 9 %s" % (path, child, kind, rng.choice(WRONG_ORIGINS), content), image, out)


def last_literal(image):
    """The path of the last literal, or the empty path."""
    literals = [e.path for e in ref.document_order(ref.read_store(image)) if e.node.kind == ref.LITERAL]
    return ref.to_hex(ref.path_bytes(literals[-1] if literals else ()))


def ask_removals(rng, image, out):
    """Refused ones, then leaves and branches, then what a helper holds; at last a branch put in and taken out again."""
    literal = last_literal(image)
    for path in ("-", "00", "00" * 2, "00" * 3, "00" * 5, "ff" * 4, literal.strip("-") + "00" * 4, "00" * 91, "00" * 92, "00" * 93, "00" * 96):
        ask("remove " + path, image, out)
    for _ in range(4):
        entries = ref.document_order(ref.read_store(image))[1:]
        branches = [e for e in entries if e.children]
        if not entries:
            break
        path = ref.to_hex(ref.path_bytes(rng.choice(branches if branches and rng.random() < 0.4 else entries).path))
        ask("remove " + path, image, out)
        ask("find " + path, image, out)
    ask_helper(rng, image, out)
    ask("insert - 0 1 3 9 -", image, out)
    ask("insert 00000000 0 2 1 9 4142", image, out)
    ask("remove 00000000", image, out)
    ask("records 64", image, out)
    ask("next 1 0", image, out)


def ask_helper(rng, image, out):
    """Removals from the helper with the fewest children until it has one, which replaces it."""
    store = ref.read_store(image)
    helpers = [record for record in store.records.values() if record.root.kind == ref.HELPER]
    if not helpers:
        return
    page = min(helpers, key=lambda record: len(record.root.children)).page
    while page in store.records and store.records[page].root.kind == ref.HELPER:
        paths = held_by(store, store.records[page])
        if not paths:
            break
        ask("remove " + ref.to_hex(ref.path_bytes(rng.choice(paths))), image, out)
        store = ref.read_store(image)


def held_by(store, record):
    """The paths of the nodes that are children of a helper, or whose proxies are."""
    return [e.path for e in ref.document_order(store) if e.node in record.root.children or (e.node is e.record.root and e.record.holder is record)]


def origin_places(rng, image):
    """Where the origin stands of some node of each kind that there is."""
    starts = [at for page in range(1, len(image) // ref.PAGE) for at in ref.headers(image, page)]
    return [rng.choice([at for at in starts if image[at] == kind]) + 1 for kind in sorted({image[at] for at in starts})]


def put_byte(at, value, image, out):
    image[at] = value
    out.append("B %d %02x" % (at, value))


def check_origins(rng, image, out):
    for at in origin_places(rng, image):
        for origin in ORIGIN_BYTES:
            out.append("R")
            hurt = bytearray(image)
            put_byte(at, origin, hurt, out)
            ask("check", hurt, out)


def damage(rng, image, out):
    """Puts a few bytes wrong, mostly where the check has something to say; of the origins some are right."""
    for _ in range(rng.choice((1, 1, 1, 2, 3))):
        page = ref.PAGE * rng.randrange(len(image) // ref.PAGE)
        used = min(4080, image[page + 4082] + 256 * image[page + 4083])
        at = page + rng.choice((rng.randrange(4096), 4080 + rng.randrange(16), 4080 + rng.randrange(6), rng.randrange(8), rng.randrange(max(1, used)),
                                rng.randrange(272), max(0, used - 1), min(used, 4079)))
        value = rng.choice((0, 1, 2, 3, 4, 6, 8, 255, rng.randrange(256), image[at] ^ (1 << rng.randrange(8)), (image[at] + 1) % 256, (image[at] - 1) % 256))
        origins = origin_places(rng, image) if rng.random() < 0.1 else []
        if origins:
            at, value = rng.choice(origins), rng.choice(ORIGIN_BYTES)
        put_byte(at, value, image, out)


def nested_helpers(sizes=(), own=2):
    """An image with helpers in one another and side by side, records below, and a branch that stands in the root's record with a proxy; a removal can leave
    each helper with a proxy or with another child. `sizes` are those of the records of ROW, if they matter. Two nodes of the root's row are the roots of
    records, on pages 7 and 10, with a literal of `own` bytes. Label 14 is apart under the root."""
    matrix = bytearray(b"\x02" * 256)
    matrix[16 * 7 + 14] = ref.APART
    image = bytearray(14 * ref.PAGE)
    ref.format_image(image, 14, 128, 409, 1, matrix, 7)
    store = ref.read_store(image)

    def literal(label, length=2):
        return ref.Node(ref.LITERAL, label, b"AB".ljust(length, b"\0"), origin=label % ref.ORIGINS)

    def proxy(page, settled, root):
        store.records[page] = ref.Record(page, settled, root)
        return ref.Node(ref.PROXY, record=store.records[page])

    branch = proxy(10, True, ref.Node(ref.AGGREGATE, 4, children=[proxy(11, False, literal(5)), literal(6, own)]))
    inner = proxy(5, False, ref.Node(ref.HELPER, children=[branch, literal(3)]))
    outer = proxy(3, False, ref.Node(ref.HELPER, children=[literal(2), inner]))
    beside = proxy(8, False, ref.Node(ref.HELPER, children=[literal(10), proxy(7, True, literal(11, own))]))
    below = proxy(12, False, ref.Node(ref.HELPER, children=[literal(9), literal(12)]))
    store.records[1].root.children = [literal(1), beside, outer, ref.Node(ref.AGGREGATE, 8, children=[below])]
    for page, size in zip(ROW, sizes):
        root = store.records[page].root
        filler = next(child for child in root.children if child.kind == ref.LITERAL)
        filler.content = filler.content.ljust(len(filler.content) + size - ref.size(root), b"\0")
    store.changed = set(store.records)
    ref.write_changes(store, image)
    return image


def ask_nested(out):
    """Each node removed by itself; then the root's children, from the first on and from the last."""
    image = nested_helpers()
    put_image(image, out)
    out.append("S")
    entries = ref.document_order(ref.read_store(image))[1:]
    row = [e.path for e in entries if len(e.path) == 1]
    for paths in [[e.path] for e in entries] + [row[:1] * len(row), row[::-1]]:
        out.append("R")
        changed = bytearray(image)
        for path in paths:
            ask("remove " + ref.to_hex(ref.path_bytes(path)), changed, out)
        ask("check", changed, out)


def ask_siblings(out):
    """An insert at every position of every row, also of a node that is set apart in the root's: the records of ROW are equally full, or the later the
    fuller, or the emptier; those whose roots stand in the row are emptier than all of them, or fuller."""
    for own in 2, ref.CONTENT:
        for sizes in (300, 300, 300, 300), (200, 300, 400, 500), (500, 400, 300, 200):
            image = nested_helpers(sizes, own)
            put_image(image, out)
            out.append("S")
            for entry in ref.document_order(ref.read_store(image)):
                for child in range(entry.children + 1 if entry.node.kind == ref.AGGREGATE else 0):
                    for label in (9, 14)[:2 - bool(entry.path)]:
                        out.append("R")
                        ask("insert %s %d 2 1 %d 41" % (ref.to_hex(ref.path_bytes(entry.path)), child, label), bytearray(image), out)


def formats(rng, out):
    """Format over any bytes, in and out of range."""
    pages = rng.randrange(2, 5)
    image = bytearray(rng.choice((pages * ref.PAGE, pages * ref.PAGE, pages * ref.PAGE - 1, ref.PAGE, 0)))
    if image:
        image[rng.randrange(len(image))] = 9
    put_image(image, out)
    matrix = bytearray(b"\x02" * rng.choice((256, 256, 256, 255, 257, 0)))
    if matrix and rng.random() < 0.5:
        matrix[rng.randrange(len(matrix))] = rng.choice((0, 1, 2, 3, 255))
    numbers = (rng.choice((pages, pages, pages, pages + 1, 65536 + pages)), rng.choice((63, 64, 128, 192, 193, 128 + 256)),
               rng.choice((0, 409, 512, 513, 65536)),
               rng.choice((1, 1, 1, 0, 2, 257)))
    ask("format %d %d %d %d %s %d" % (numbers + (ref.to_hex(matrix), rng.choice((0, 7, 65535)))), image, out)


def main(seed, stores, damaged):
    rng = random.Random(seed)
    late = random.Random(seed + 1)                    # for walks and faults: what was asked before there were any stays
    out = []
    ask_nested(out)
    ask_siblings(out)
    ask_blank(out)
    for store in range(stores):
        print("store %d of %d" % (store + 1, stores), file=sys.stderr)
        formats(rng, out)
        image = grow_store(rng)
        put_image(image, out)
        out.append("S")
        ask_all(rng, image, 6, out)
        ask("diagnose", image, out)
        ask_walks(late, image, out)
        changed = bytearray(image)
        ask_inserts(rng, changed, out)
        ask_removals(rng, changed, out)
        check_origins(rng, image, out)
        for number in range(damaged):
            out.append("R")
            hurt = bytearray(image)
            damage(rng, hurt, out)
            if number % 40 == 0:
                ask_all(rng, hurt, 1, out)
                ask_steps(late, (1, 0), 2, out, hurt)
            else:
                ask("check", hurt, out)
            ask("diagnose", hurt, out)
        ask_faults(late, image, out)
        out.append("R")
    longest = max(len(line) + 1 for line in out)
    print("V 1 %s %d" % (ref.RULES, max(longest, 100)))
    print("\n".join(out))


if __name__ == "__main__":
    main(*[int(word) for word in sys.argv[1:4]])
