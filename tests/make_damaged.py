"""Writes damaged images, and for each the sentence that the tool's `diagnose` must print, to a folder:

    make_damaged.py FOLDER

Each is NAME.img and NAME.txt, and NAME.sound is the image from before the damage; together they have every reason that a diagnosis gives, and
every field of page 0, of a trailer and of a node that can be wrong. Page and reason are held against the reference's.
"""

import os
import sys

import make_images
import reference

PAGE = reference.PAGE
AGAIN = "load the page again"
RING = "its back links lead into a ring, and not to the root; load %s again"


def two(number):
    return number.to_bytes(2, "little")


def node(kind, inside=b"", label=0, origin=0):
    return bytes([kind, origin]) + two(label) + two(6 + len(inside)) + inside


def record(image, page, content, holder, settled=0):
    """Puts a record on a page, whatever was there."""
    trailer = bytes([1, settled]) + two(len(content)) + two(holder) + bytes(10)
    image[PAGE * page:PAGE * (page + 1)] = content + bytes(4080 - len(content)) + trailer
    return image


def split(pages=5):
    """The root has two proxies, at bytes 6 and 14: to page 2, a helper with three literals of 526 bytes, and to page 3, one with five."""
    image = make_images.formatted(pages, 7)
    for child in range(8):
        make_images.put(image, (), child, reference.LITERAL, 9, bytes([child + 1] * 520))
    assert image[PAGE + 4082] == 22 and not any(image[4 * PAGE:])
    return image


def damaged(page, at, content):
    """The split image with these bytes at a place."""
    image = split()
    image[PAGE * page + at:PAGE * page + at + len(content)] = content
    return image


def nested(*pages):
    """Each page holds the next by a proxy at byte 6, page 1 the first; the last has a literal. There is a free page."""
    image = make_images.formatted(max(pages) + 2, 7)
    ways = list(zip((1,) + pages, pages))
    for (holder, page), back in zip(ways, (0,) + tuple(holder for holder, _ in ways)):
        record(image, holder, node(reference.AGGREGATE, node(reference.PROXY, two(page)), 7), back, int(holder == 1))
    return record(image, pages[-1], node(reference.LITERAL, b"end", 9), ways[-1][0])


def cut(image, *holders):
    """Of these pages the proxy becomes a literal."""
    for holder in holders:
        image[PAGE * holder + 6] = reference.LITERAL
    return image


def ring(image, first, last):
    """Each of these pages holds the next, and the last the first and page 3, which has a literal."""
    for page in range(first, last + 1):
        held = [page + 1] if page < last else [first, 3]
        proxies = b"".join(node(reference.PROXY, two(other)) for other in held)
        record(image, page, node(reference.AGGREGATE, proxies), page - 1 if page > first else last)
    return record(image, 3, node(reference.LITERAL), last)


def chain(levels, inside):
    """Aggregates of which each is the only child of the last."""
    for _ in range(levels):
        inside = node(reference.AGGREGATE, inside, 9)
    return inside


def settings():
    yield 2, "target", 2, b"\x3f", "the target is 63, and must be 64 to 192"
    yield 2, "zero3", 3, b"\x01", "byte 3 of it is 1, and must be 0"
    yield 2, "tolerance", 4, two(513), "the tolerance is 513, and must be 0 to 512"
    yield 2, "form", 6, two(2), "the form is 2, and only 1 is known: it is damaged, or a later version has made the image"
    yield 2, "zero8", 15, b"\x05", "byte 15 of it is 5, and must be 0"
    yield 2, "matrix", 33, b"\x01", "entry 17 of the split matrix is 1, and must be 0 or 2"
    yield 2, "past", 272, b"\x02", "byte 272 of it is 2, and must be 0"
    yield 2, "type", 4080, b"\x01", "the type in its trailer is 1, and must be 2 (settings)"
    yield 2, "settled", 4081, b"\x01", "the settled byte in its trailer is 1, and must be 0"
    yield 2, "used", 4082, two(271), "its trailer says 271 bytes, and settings have 272"
    yield 2, "back", 4084, b"\x01", "byte 4084 of it is 1, and must be 0"
    yield 2, "end", 4095, b"\xff", "byte 4095 of it is 255, and must be 0"


def pages():
    yield 1, 3, "root_free", 4080, b"\0", "its trailer says that it is free, and it has the root's record"
    yield 4, 3, "free_trailer", 4084, b"\x01", "its trailer says that it is free, and byte 4 of the trailer is 1"
    yield 2, 3, "type", 4080, b"\x02", "the type in its trailer is 2, and must be 0 (free) or 1 (record)"
    yield 2, 3, "settled", 4081, b"\x07", "the settled byte in its trailer is 7, and must be 0 or 1"
    yield 1, 3, "root_unsettled", 4081, b"\0", "the settled byte in its trailer is 0, and must be 1"
    yield 3, 3, "used_short", 4082, two(5), "its trailer says 5 bytes, and a record has 6 at least"
    yield 3, 3, "used_long", 4082, two(5000), "its trailer says 5000 bytes, and at most 4,080 fit"
    yield 1, 3, "root_back", 4084, b"\x02", "its trailer names page 2 as its holder, and the root's record has none"
    yield 2, 3, "back_settings", 4084, two(0), "its trailer names page 0 as its holder, which is that of the settings"
    yield 2, 3, "back_itself", 4084, two(2), "its trailer names page 2 as its holder, which is itself"
    yield 2, 3, "back_outside", 4084, two(5), "its trailer names page 5 as its holder, which is not in the image"
    yield 3, 3, "trailer_end", 4095, b"\xff", "byte 15 of its trailer is 255, and must be 0"
    yield 4, 4, "not_zero", 4079, b"\x09", "its trailer says that it is free, and byte 4079 of the page is 9"
    yield 3, 5, "tail", 3000, b"\x08", "its record ends at byte 2636, and byte 3000 after it is 8, not 0"
    yield 1, 6, "root_kind", 0, b"\x02", "the kind at its start is 2, and the root is an aggregate (1)"
    yield 2, 6, "settled_helper", 4081, b"\x01", "its trailer says settled, and a helper is never settled"
    yield 3, 6, "root_size", 4, two(2630), "the size at its start is 2630, and its trailer says 2636"
    yield 2, 6, "left", 1062, two(523), "at byte 1581 there are 3 bytes for a node, and it has 6 at least"
    yield 2, 6, "size_short", 536, two(5), "the size of its node at byte 532 is 5, and 6 to 1052 fit there"
    yield 2, 6, "size_long", 536, two(1053), "the size of its node at byte 532 is 1053, and 6 to 1052 fit there"
    yield 3, 6, "kind", 6, b"\x09", "the kind of its node at byte 6 is 9, and there are 1 to 4"
    yield 3, 6, "kind0", 0, b"\0", "the kind of its node at byte 0 is 0, and there are 1 to 4"
    yield 3, 6, "proxy_root", 0, b"\x03", "at byte 0 it has a proxy as the record's root"
    yield 3, 6, "helper_inside", 532, b"\x04", "at byte 532 it has a helper inside another node"
    yield 3, 6, "origin", 7, b"\x04", "the origin of its literal at byte 6 is 4, and there are 0 to 3"
    yield 1, 6, "proxy_origin", 7, b"\x01", "the origin of its proxy at byte 6 is 1, and it has none"
    yield 2, 6, "helper_label", 2, two(300), "the label of its helper at byte 0 is 300, and it has none"
    yield 2, 6, "literal_long", 10, two(1052), "its literal at byte 6 has 1046 content bytes, and at most 520 fit"
    yield 1, 6, "proxy_size", 10, two(16), "the size of its proxy at byte 6 is 16, and must be 8"
    yield 2, 6, "helper_one", 10, two(1578), "its helper at byte 0 holds fewer than two nodes"


def links():
    """Reason, name, sound image, damaged image, page, sentence."""
    def split_with(name, page, at, content, text):
        return 8, name, split(), damaged(page, at, content), 1, text

    yield split_with("names_outside", 1, 20, two(5), "its proxy at byte 14 names page 5, and records stand on pages 2 to 4; " + AGAIN)
    yield split_with("names_root", 1, 12, two(1), "its proxy at byte 6 names page 1, and records stand on pages 2 to 4; " + AGAIN)
    yield split_with("names_free", 1, 20, two(4), "its proxy at byte 14 names page 4, which is free; load pages 1 and 4 again")
    yield split_with("names_other", 3, 4084, two(2),
                     "its proxy at byte 14 names page 3, whose trailer names page 2 as its holder; load pages 1 and 3 again")
    yield split_with("names_twice", 1, 20, two(2), "its proxy at byte 14 names page 2, as one before it does; load pages 1 and 2 again")
    for pages, text in (2, "an image of 2 pages has no record but the root's"), (3, "it can name page 2 only"):
        sound = make_images.formatted(pages, 7)
        image = record(bytearray(sound), 1, node(reference.AGGREGATE, node(reference.PROXY, two(pages))), 0, 1)
        yield 8, "names_outside_%d" % pages, sound, image, 1, "its proxy at byte 6 names page %d, and %s; %s" % (pages, text, AGAIN)
    literal = node(reference.LITERAL)
    yield (9, "no_proxy", split(), record(split(), 4, literal, 3), 4,
           "its trailer names page 3 as its holder, which has no proxy to it; load pages 3 and 4 again")
    yield (9, "holder_free", split(6), record(split(6), 4, literal, 5), 4,
           "its trailer names page 5 as its holder, which is free; load pages 4 and 5 again")
    way = 5, 3, 2
    text = "its back links lead to page %d, whose trailer names page %d as its holder, which %s; load pages %d and %d again"
    yield 9, "cut_top", nested(*way), cut(nested(*way), 1), 2, text % (5, 1, "has no proxy to it", 1, 5)
    yield 9, "cut_middle", nested(*way), cut(nested(*way), 5), 2, text % (3, 5, "has no proxy to it", 3, 5)
    yield 9, "cut_twice", nested(*way), cut(nested(*way), 1, 5), 2, text % (3, 5, "has no proxy to it", 3, 5)
    image = cut(nested(*way), 1)
    image[PAGE * 5:PAGE * 6] = bytes(PAGE)
    yield 9, "cut_free", nested(*way), image, 2, text % (3, 5, "is free", 3, 5)
    yield (9, "cut_bottom", nested(*way), cut(nested(*way), 3), 2,
           "its trailer names page 3 as its holder, which has no proxy to it; load pages 2 and 3 again")
    for length, advice in ((2, "pages 4 and 5"), (3, "pages 4, 5 and 6"), (12, "pages %s and 15" % ", ".join(map(str, range(4, 15)))),
                           (13, "the whole image")):
        sound = make_images.formatted(5 + length, 7)
        yield 9, "ring_%d" % length, sound, ring(bytearray(sound), 4, 3 + length), 3, RING % advice
    sound = split(6)
    image = record(bytearray(sound), 4, node(reference.AGGREGATE, node(reference.PROXY, two(5))), 5)
    record(image, 5, node(reference.AGGREGATE, node(reference.PROXY, two(4))), 4)
    yield 9, "ring", sound, image, 4, RING % "pages 4 and 5"
    fresh = make_images.formatted(3, 7)
    deep = record(bytearray(fresh), 1, chain(25, b""), 0, 1)
    yield 7, "deep", fresh, deep, 1, "its aggregate at byte 144 stands at level 25, and a tree has 24; " + AGAIN
    deep = record(bytearray(fresh), 1, chain(24, node(reference.PROXY, two(2))), 0, 1)
    yield (7, "deep_record", fresh, record(deep, 2, literal, 1), 2,
           "its literal at byte 0 stands at level 25, and a tree has 24; load the page again, and page 1, which holds it")
    text = "its literal at byte 0 stands at level 25, and a tree has 24; load "
    for way, advice in (((5, 3, 2), "the page again, and pages 1, 3 and 5, which hold it"),
                        (range(2, 14), "the page again, and pages %s and 12, which hold it" % ", ".join(map(str, range(1, 12)))),
                        (range(2, 15), "the whole image again")):
        deep = record(nested(*way), 1, chain(25 - len(way), node(reference.PROXY, two(way[0]))), 0, 1)
        yield 7, "deep_%d" % len(way), nested(*way), deep, way[-1], text + advice


def blank():
    """Name, sound image, damaged image, sentence."""
    none = "all its bytes are %d: the image %s; load the image, or format it"
    one = "all its bytes are %d: it is erased, and other pages are not; load page 0 again: formatting would destroy the others"
    fresh = make_images.formatted(3, 7)
    yield "never_formatted", fresh, bytes(3 * PAGE), none % (0, "was never formatted")
    yield "erased", fresh, b"\xff" * (3 * PAGE), none % (255, "is erased")
    yield "erased_both", fresh, b"\xff" * (2 * PAGE) + bytes(PAGE), none % (255, "is erased")
    yield "page0_zero", split(), bytes(PAGE) + split()[PAGE:], one % 0
    yield "page0_erased", split(), b"\xff" * PAGE + split()[PAGE:], one % 255
    yield "page0_last", fresh, bytes(3 * PAGE - 1) + b"\x01", one % 0


def inputs():
    """Name, sound image, damaged image, page, reason, sentence."""
    for name, sound, image, text in blank():
        yield name, sound, image, 0, 1, text
    yield ("settings_pages", split(), damaged(0, 0, two(9)), 0, 2,
           "its settings are for 9 pages, and the input has 5; load the whole image again")
    for reason, name, at, content, text in settings():
        yield "settings_" + name, split(), damaged(0, at, content), 0, reason, "%s; %s" % (text, AGAIN)
    for page, reason, name, at, content, text in pages():
        yield name, split(), damaged(page, at, content), page, reason, "%s; %s" % (text, AGAIN)
    for reason, name, sound, image, page, text in links():
        yield name, sound, image, page, reason, text


def main(folder):
    os.makedirs(folder, exist_ok=True)
    reasons = set()
    for name, sound, image, page, reason, text in inputs():
        answer = reference.diagnose(bytearray(image))
        assert answer[0] == 3 and answer[2:4] == (page, reason), (name, answer)
        assert reference.check(sound) == (0,) and len(sound) == len(image), name
        reasons.add(reason)
        for end, content in (".img", image), (".sound", sound):
            with open(os.path.join(folder, name + end), "wb") as out:
                out.write(content)
        with open(os.path.join(folder, name + ".txt"), "w", encoding="ascii") as out:
            out.write("page %d: %s\n" % (page, text))
    assert reasons == set(range(1, 10)), reasons


if __name__ == "__main__":
    main(sys.argv[1])
