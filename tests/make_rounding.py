"""Writes a call script about the split point at every target from 64 to 192, with the reference's answers.

    make_rounding.py > SCRIPT

For each target and each remainder of target × S / 256 at a half, just below and just above it: a record of S bytes is split in which a child starts at
the first byte past the product, so that the product's other neighbour as point gives another d, another lean and another image. Where the nearest
number is above the product, the image that rounding down (the rule before E2) makes of the same inserts follows: it passes, its nodes are asked about,
and literals are appended until the rule of today splits it. What was reached goes to standard error.
"""

import random
import sys
import unittest.mock

import make_scripts as made
import reference as ref

LARGEST = ref.CAPACITY + ref.HEADER + ref.CONTENT     # a record with the node that makes it too large
PAGES = 5                                             # the root's record, two groups, and one more for a further split


def rounded_down(target, record_size):
    """The split point before E2."""
    return target * record_size // 256


def sizes(target):
    """Sizes S, by the remainder of target × S: for a half one whose lower number is even and one whose lower number is odd, else one."""
    found = {}
    for size in range(ref.CAPACITY + 1, LARGEST + 1):
        number, remainder = divmod(target * size, 256)
        if remainder in (127, 128, 129):
            found.setdefault((remainder, remainder == 128 and number % 2), size)
    return found


def inserts(target, size):
    """Literals in a row, one of which starts at the first byte past target × S / 256; the last one makes the record S bytes."""
    start = target * size // 256 + 1
    return ["insert - %d 2 %d 9 %s" % (child, child % ref.ORIGINS, ref.to_hex(bytes([child + 1]) * (piece - ref.HEADER)))
            for child, piece in enumerate(made.pieces(start - ref.HEADER) + made.pieces(size - start))]


def grow(image, target, calls, out):
    """Format and the inserts; gives the last answer."""
    made.ask("format %d %d 409 1 %s 7" % (PAGES, target, "02" * 256), image, out)
    for call in calls:
        answer = made.ask(call, image, out)
    return answer


def ask_old(image, target, calls, rng, out):
    """The image that rounding down makes of the same inserts."""
    old = bytearray(len(image))
    with unittest.mock.patch.object(ref, "split_point", rounded_down):
        grow(old, target, calls, [])
    if old == image or ref.check(old) != (0,):
        sys.exit("target %d: no other image, or one that does not pass" % target)
    made.put_image(old, out)
    made.ask_all(rng, old, 2, out)
    number = splits = 0
    while number == splits == 0:
        number, _, _, splits, _ = made.ask("insert - %d 2 0 9 %s" % (len(calls), "41" * ref.CONTENT), old, out)
    if number:
        sys.exit("target %d: the old image does not grow on" % target)


def main():
    rng, out, counts = random.Random(2), [], {}
    for target in ref.TARGETS:
        for (remainder, odd), size in sizes(target).items():
            image, calls = bytearray(PAGES * ref.PAGE), inserts(target, size)
            out.append("I %d" % len(image))
            number, _, _, splits, _ = grow(image, target, calls, out)
            if (number, splits) != (0, 1):
                sys.exit("target %d, S %d: not one split" % (target, size))
            counts[remainder, odd] = counts.get((remainder, odd), 0) + 1
            if ref.split_point(target, size) != rounded_down(target, size):
                ask_old(image, target, calls, rng, out)
    print("V 1 %s %d" % (ref.RULES, max(len(line) + 1 for line in out)))
    print("\n".join(out))
    print("%d targets; splits just below a half: %d, at a half that goes down: %d, up: %d, just above: %d; with the image of rounding down: %d" % (
        len(ref.TARGETS), counts[127, False], counts[128, 0], counts[128, 1], counts[129, False], counts[128, 1] + counts[129, False]), file=sys.stderr)


if __name__ == "__main__":
    main()
