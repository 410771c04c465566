"""The listing of an image, for the tests: a second reading of the bytes, made from the rules' text alone.

The reference says only whether an image is refused; the tree is read here from the bytes.

    list.py < IMAGE
"""

import sys

import reference

PAGE = 4096


def number(image, at):
    return image[at] + 256 * image[at + 1]


def lines(image, start, end, level):
    """A line for each logical node in these bytes; a proxy stands for its record, and a helper for what it holds."""
    while start < end:
        kind, origin, label, after = image[start], image[start + 1], number(image, start + 2), start + number(image, start + 4)
        if kind == 1:
            yield "%d A %d - %d" % (level, label, origin)
            yield from lines(image, start + 6, after, level + 1)
        elif kind == 2:
            yield "%d L %d %s %d" % (level, label, bytes(image[start + 6:after]).hex() or "-", origin)
        elif kind == 3:
            yield from record(image, number(image, start + 6), level)
        elif kind == 4:
            yield from lines(image, start + 6, after, level)
        start = after


def record(image, page, level):
    return lines(image, PAGE * page, PAGE * page + number(image, PAGE * page + 4082), level)


def listing(image):
    if len(image) > 15 * PAGE:
        return "over 15 pages\n"
    refusal = reference.check(image)[0]
    if refusal != 0:
        return "refused %d\n" % refusal
    states = [image[PAGE * page + 4080] for page in range(1, len(image) // PAGE)]
    head = "pages %d free %d records %d" % (len(image) // PAGE, states.count(0), states.count(1))
    return "\n".join([head] + list(record(image, 1, 1))) + "\n"


if __name__ == "__main__":
    sys.stdout.write(listing(sys.stdin.buffer.read()))
