"""Does what the tool's `diagnose` says until the image passes the check:

    follow_advice.py TOOL FOLDER IMAGE..

for each FOLDER/NAME.img, whose sound image is FOLDER/NAME.sound, and for each IMAGE, which is sound, with damage of many kinds done to it. The pages that
the sentence names are put back from the sound image, again and again. Each time one of them must have been damaged, so that the image passes after at
most so many times as it has pages.
"""

import glob
import random
import re
import subprocess
import sys

import faults
import reference

PAGE = reference.PAGE


def part(image, page):
    return image[PAGE * page:PAGE * (page + 1)]


def named(sentence, pages):
    """The pages that are to be loaded again. Of an image that was never formatted, or is not whole by its settings, it is page 0."""
    page, advice = re.fullmatch(r"page (\d+): .*; load (.*)", sentence).groups()
    if page == "0":
        return {0}
    if advice == "the whole image again":
        return set(range(pages))
    found = {int(number) for number in re.findall(r"\d+", advice)} | ({int(page)} if advice.startswith("the page again") else set())
    assert found, sentence
    return found


def follow(tool, sound, image):
    """Gives how many times pages were put back."""
    image, pages = bytearray(image), len(sound) // PAGE
    for times in range(pages + 1):
        done = subprocess.run([tool, "diagnose"], input=image, capture_output=True, check=False)
        sentence = done.stdout.decode("ascii").rstrip("\n")
        if done.returncode == 0:
            return times
        again = named(sentence, pages)
        assert any(part(image, page) != part(sound, page) for page in again), "nothing is wrong with what it names: " + sentence
        for page in again:
            reference.put_page(image, page, part(sound, page))
    raise AssertionError("no end: " + sentence)


def spoiled(rng, image):
    """A copy with some of its pages damaged: a proxy that is one no more, another page's bytes, or none, another back link, or some byte."""
    image = bytearray(image)
    pages = len(image) // PAGE
    for _ in range(rng.randint(1, 4)):
        page, other = rng.randrange(pages), rng.randrange(pages)
        proxies = [start for start in reference.headers(image, page) if image[start] == reference.PROXY] if page else []
        way = rng.randrange(5)
        if way == 0 and proxies:
            image[rng.choice(proxies)] = reference.LITERAL
        elif way == 1 and page:
            reference.put_page(image, page, part(image, other))
        elif way == 2:
            reference.put_page(image, page, rng.choice([b"\0", b"\xff"]) * PAGE)
        elif way == 3 and page:
            image[PAGE * page + 4084:PAGE * page + 4086] = other.to_bytes(2, "little")
        else:
            image[PAGE * page + rng.choice([rng.randrange(PAGE), rng.randrange(40)])] = rng.randrange(256)
    return image


def damages(rng, image):
    yield from (other for other, _ in faults.variants(rng, image))
    # each proxy alone
    for page in range(1, len(image) // PAGE):
        for start in reference.headers(image, page):
            if image[start] == reference.PROXY:
                other = bytearray(image)
                other[start] = reference.LITERAL
                yield other
    yield from (spoiled(rng, image) for _ in range(200))


def main(tool, folder, *names):
    followed = most = 0
    pairs = [(name[:-4] + ".sound", name) for name in sorted(glob.glob(folder + "/*.img"))] + [(name, None) for name in names]
    for sound_name, name in pairs:
        with open(sound_name, "rb") as sound_file:
            sound = sound_file.read()
        if name:
            with open(name, "rb") as image_file:
                images = [image_file.read()]
        else:
            images = damages(random.Random(7), sound)
        for image in images:
            times = follow(tool, sound, image)
            followed, most = followed + (times > 0), max(most, times)
    print("tool: advice followed on %d damaged images, at most %d times" % (followed, most))


if __name__ == "__main__":
    main(*sys.argv[1:])
