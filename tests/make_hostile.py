"""Writes a call script of hostile calls with the reference's answers: images with a few bytes wrong, or broken in a known way (faults.py), some with records
nested in one another through all pages, and any arguments, through all calls. Each image is diagnosed first.

    make_hostile.py SEED CALLS > SCRIPT

The same seed gives the same script. How far it is, and what was reached, goes to standard error.
"""

import collections
import itertools
import random
import sys
import zlib

import faults
import make_scripts as made
import reference as ref

LONGEST = 9000                                        # no line is longer
SHAPES = [(2, 4), (3, 12), (4, 30), (5, 60)]          # small images, so that many calls take little time
FAULTS = ("stage 1", "stage 2", "stage 3") + ref.REASONS
uncached = ref.read_store
stores = {}


def read_store(image):
    """A reading is remembered: the calls on an image that stays are many. Not for calls that write, since they work on what was read."""
    key = zlib.crc32(image), len(image)
    if key not in stores:
        if len(stores) > 50:
            stores.clear()
        try:
            stores[key] = uncached(image)
        except ref.Refused as refused:
            stores[key] = refused
    if isinstance(stores[key], ref.Refused):
        raise stores[key]
    return stores[key]


def grow_store(rng):
    """A random image; to two in three so many bytes are added that the root's record splits, if there are pages: then it has helpers."""
    image = made.grow_store(rng)
    for _ in range(rng.choice((0, 9, 9))):
        ref.insert(image, b"", 0, ref.LITERAL, rng.randrange(ref.ORIGINS), 300, bytes([rng.randrange(256)]) * ref.CONTENT)
    return image


def leaves(rng, most):
    """Up to so many nodes that hold no other."""
    return [ref.Node(rng.choice((ref.AGGREGATE, ref.LITERAL)), 9) for _ in range(rng.randrange(most + 1))]


def nested_records(rng, depth):
    """A chain of so many records in one another, each with leaves before and behind the next one's proxy: helpers, and now and then an aggregate, which takes
    a level. The first proxy stands in the root's row, in an aggregate there, or below as many levels as there can be."""
    levels = rng.choice((0, 1, 22))
    image = bytearray((depth + 2) * ref.PAGE)
    ref.format_image(image, depth + 2, 128, 409, 1, b"\x02" * 256, 7)
    store = ref.read_store(image)
    deep, inner = 2 + levels, []
    for page in range(depth + 1, 1, -1):
        own = deep + 2 < ref.LEVELS and rng.random() < 0.02
        deep += own
        row = leaves(rng, 2) + inner + leaves(rng, 2)
        while len(row) < 2:
            row += leaves(rng, 1)
        root = ref.Node(ref.AGGREGATE, 8, children=row) if own else ref.Node(ref.HELPER, children=row)
        store.records[page] = ref.Record(page, own and rng.random() < 0.5, root)
        inner = [ref.Node(ref.PROXY, record=store.records[page])]
    for _ in range(levels):
        inner = [ref.Node(ref.AGGREGATE, 5, children=leaves(rng, 1) + inner + leaves(rng, 1))]
    store.records[1].root.children = leaves(rng, 1) + inner
    store.changed = set(store.records)
    ref.write_changes(store, image)
    return image


def origin_bytes(rng, image):
    """Where to put which byte: on a node of each kind an origin that aggregates and literals may have, and one that they may not."""
    return [(at, rng.choice(values)) for at in made.origin_places(rng, image) for values in ((1, 2, 3), (4, 255))]


def put_two(at, value, image, out):
    for i, byte in enumerate(ref.two_bytes(value)):
        made.put_byte(at + i, byte, image, out)


def hurt_page_end(rng, image, out):
    """One field of a trailer set to a value at an end of its range or just past it, or a byte past the length used."""
    pages = len(image) // ref.PAGE
    number = rng.randrange(pages)
    end = number * ref.PAGE + ref.CAPACITY
    used = min(ref.two(image, end + 2), ref.CAPACITY)
    field = rng.randrange(6)
    if field == 0:
        made.put_byte(end, rng.randrange(3), image, out)
    elif field == 1:
        made.put_byte(end + 1, rng.randrange(3), image, out)
    elif field == 2:
        put_two(end + 2, rng.choice((0, 5, 6, 7, used - 1, used + 1, 4079, 4080, 4081, 65535)) % 65536, image, out)
    elif field == 3:
        put_two(end + 4, rng.choice((0, 1, number, rng.randrange(pages), pages - 1, pages, pages + 1, 257, 65535)), image, out)
    elif field == 4:
        made.put_byte(end + rng.randrange(6, 16), rng.randrange(1, 256), image, out)
    elif used < ref.CAPACITY:
        past = rng.choice((used, rng.randrange(used, ref.CAPACITY), ref.CAPACITY - 1))
        made.put_byte(number * ref.PAGE + past, rng.randrange(1, 256), image, out)


def stage(rng, image):
    """Where the reference's check ends, for the count of what was reached; its part before the walk is tried by itself, and so is diagnose, which must
    agree with both."""
    number, at, page, reason = ref.run_diagnose(image, ())
    assert number == ref.check(image)[0] and bool(at) == (number == ref.BROKEN) == bool(reason)
    if number == ref.MISFIT:
        return "length"
    passed = ref.before_walk(image)
    assert ref.before_walk(faults.any_records(rng, image)) == passed
    assert passed == (at not in (1, 2))
    assert passed or ref.diagnose(faults.any_records(rng, image)) == (number, at, page, reason)
    if not passed:
        return "before the walk"
    return "in the walk" if number else "passed"


def fault_names(answer):
    """What a diagnosis adds to the count of what was reached."""
    _, at, _, reason = answer
    return ["stage %d" % at, ref.REASONS[reason - 1]] if at else []


def some_number(rng):
    return rng.choice((0, 1, 2, 3, rng.randrange(30), rng.randrange(5000), 65535, 65536, 2**31, 2**32 - 1))


def some_removal(rng, entries):
    """A removal by a path that is right or nearly so, or by any bytes."""
    path = made.some_path(rng, entries) if rng.random() < 0.8 else rng.randbytes(rng.choice((0, 1, 2, 3, 4, 8, 91, 92, 93, 200)))
    return "remove " + ref.to_hex(path)


def some_position(rng, entries):
    """A path and a child number of an insert: directly before or after some node, or any."""
    node = rng.choice(entries).path if entries else ()
    if node and rng.random() < 0.4:
        return ref.path_bytes(node[:-1]), node[-1] + rng.randrange(2)
    return made.some_path(rng, entries), rng.choice((0, 0, 1, rng.randrange(8), some_number(rng)))


def some_walk(rng, entries, going):
    """A walk from any place, or from that to which the last one, perhaps on another image, came."""
    place = going if going and rng.random() < 0.5 else made.some_place(rng, entries)
    return "walk %d %d %d" % (*place, made.some_room(rng))


def some_call(rng, entries, going):
    """A call with arguments that are right, nearly right, or wrong; `going` is the place to which the last walk came, or None."""
    kind = rng.randrange(28)
    if kind >= 25:
        return some_walk(rng, entries, going)
    if kind == 24:
        return "diagnose"
    if kind >= 20:
        return some_removal(rng, entries)
    if kind < 5:
        content = bytes([rng.randrange(256)]) * rng.choice((0, 0, 1, 6, 100, 519, 520, 521, 600))
        path, child = some_position(rng, entries)
        origin = rng.choice((0, 1, 2, 3, rng.randrange(4), rng.choice(made.WRONG_ORIGINS)))
        return "insert %s %d %d %d %d %s" % (ref.to_hex(path), child, rng.choice((1, 1, 2, 2, 2, 0, 3, 258)), origin, rng.choice((0, 7, 15, 65535)),
                                             ref.to_hex(content))
    if kind < 8:
        return "find " + ref.to_hex(made.some_path(rng, entries))
    if kind < 11:
        return "climb %d %d %d" % (made.some_place(rng, entries) + (rng.choice((0, 3, 4, 8, 91, 92, 200)),))
    if kind < 14:
        return "read %d %d" % made.some_place(rng, entries)
    if kind < 17:
        return "next %d %d" % made.some_place(rng, entries)
    if kind < 18:
        return "records %d" % rng.choice((0, 1, 2, 3, 8, 64))
    if kind < 19:
        return "check"
    matrix = bytearray(b"\x02" * rng.choice((256, 256, 255, 0)))
    return "format %d %d %d %d %s %d" % (rng.choice((2, 3, 4, some_number(rng))), rng.choice((64, 128, 192, some_number(rng))),
                                             rng.choice((0, 409, some_number(rng))),
                                         rng.choice((1, 1, 0, 65537)), ref.to_hex(matrix), rng.choice((7, 65535)))


def main(seed, calls):
    rng = random.Random(seed)
    made.SHAPES = SHAPES
    numbers, stages, met = collections.Counter(), collections.Counter(), collections.Counter()
    out = ["V 1 %s %d" % (ref.RULES, LONGEST)]
    done, said, going, deepest = 0, 0, None, 0
    for turn in itertools.count():
        if done >= calls:
            break
        ref.read_store = uncached
        nested = turn % 50 == 1                       # one image in fifty, and the second of a short run
        if nested:
            depth = ref.PAGES - 2 if turn == 1 and seed == 1 else rng.choice((3, 17, 60, 200, 500, ref.PAGES - 2)[:3 if turn == 1 else 6])
            image, broken = nested_records(rng, depth), []
            deepest = max(deepest, depth)
        else:
            image = grow_store(rng) if done else made.nested_helpers()  # which has all that a fault needs: also a short run meets each
            broken = faults.variants(rng, image)
        ref.read_store = read_store
        made.put_image(image, out)
        out.append("S")
        origins = [] if nested else origin_bytes(rng, image)
        for _ in range(20 if nested else 60 + len(broken)):
            out.append("R")
            hurt, fault = bytearray(image), None
            if origins:
                made.put_byte(*origins.pop(), hurt, out)
            elif broken:
                hurt, fault = broken.pop()
                made.put_runs(image, hurt, out)
            elif rng.random() < 0.3:
                hurt_page_end(rng, hurt, out)
            elif rng.random() < 0.6:
                made.damage(rng, hurt, out)
            if not fault and rng.random() < 0.05:
                cut = rng.choice((0, 1, 4095, 4096, 8191, len(hurt) - 1))
                hurt = bytearray(hurt[:cut])
                out.append("I %d" % cut)
                hurt = bytearray(cut)
            stages[stage(rng, hurt)] += 1
            for k in range(4 if fault else 12):       # what is known to be broken has one answer to nearly all calls
                try:
                    entries = ref.document_order(ref.read_store(hurt))
                except ref.Refused:
                    entries = []
                call = some_call(rng, entries, going) if k else "diagnose"
                name = call.split(" ")[0]
                ref.read_store = uncached if name in ("insert", "remove") else read_store
                answer = made.ask(call, hurt, out)
                ref.read_store = read_store
                if name == "diagnose":
                    assert k or fault in (None, answer[1:])
                    met.update(fault_names(answer))
                elif name == "walk":
                    going = answer[3:5] if answer[2] else None
                numbers["%s %d" % (name, answer[0])] += 1
                done += 1
        print("\n".join(out))
        out = []
        if done - said >= 50000:
            said = done
            print("%d calls" % done, file=sys.stderr)
    print(", ".join("%s: %d" % item for item in sorted(numbers.items())), file=sys.stderr)
    print("faults: " + "; ".join("%s %d" % (name, met[name]) for name in FAULTS), file=sys.stderr)
    print("deepest nesting of records: %d" % deepest, file=sys.stderr)
    print("images by where the check ends: " + ", ".join("%s: %d" % item for item in sorted(stages.items())), file=sys.stderr)


if __name__ == "__main__":
    main(*[int(word) for word in sys.argv[1:3]])
