"""Writes a call script of random inserts with the reference's answers: many stores with settings over the whole ranges, grown in ways that reach
what matters in growth (records near their limit, cascades of splits, deep chains, wide rows, siblings in two records, records set apart, full stores,
refusals). Half of the stores start empty; the others start from an image that is made at random, with records of every shape on any pages.

    make_inserts.py SEED COUNT > SCRIPT

The same arguments give the same script. The last lines, comments, say what was reached; they go to standard error too.
"""

import random
import sys
import time

import make_scripts as made
import reference as ref
from reference import path_bytes

LONGEST = 9000                                        # no line is longer
NEAR = ref.CAPACITY - ref.HEADER - ref.CONTENT        # from here on the biggest literal splits the record
LABELS = (0, 1, 2, 3, 7, 13, 14, 15, 16, 300, 65535)
FAULTS = (ref.LEVEL, ref.BAD_KIND, ref.BAD_ORIGIN, ref.LONG, ref.ABSENT, ref.CLOSED, ref.GAP)      # what a refused insert may have wrong


# ---- Where nodes stand

def used(image, record):
    return ref.two(image, record.page * ref.PAGE + ref.CAPACITY + 2)


def nodes_under(node):
    """The logical nodes of a record, from one of its nodes down."""
    if node.kind in (ref.AGGREGATE, ref.LITERAL):
        yield node
    for child in node.children:
        yield from nodes_under(child)


def way_to(node, target):
    """The steps (node, child number) down to a node of the same record, or None."""
    if node is target:
        return []
    for at, child in enumerate(node.children):
        if child is target or child.children:
            way = way_to(child, target)
            if way is not None:
                return [(node, at)] + way
    return None


def path_to(record, node):
    """The path of a logical node that stands in a record, as numbers."""
    numbers, carry = [], 0
    while True:
        for holder, at in reversed(way_to(record.root, node)):
            carry += ref.nodes_shown(holder.children[:at])
            if holder.kind == ref.AGGREGATE:
                numbers.append(carry)
                carry = 0
        if record.holder is None:
            return numbers[::-1]
        siblings, at = ref.proxy_position(record)
        node, record = siblings[at], record.holder


def holders(record):
    """A record, the one that holds its proxy, and so on up to the root's."""
    chain = []
    while record is not None:
        chain.append(record)
        record = record.holder
    return chain


# ---- Step 1 of growth

# What it meets, as it is counted: which siblings there are; with spots in two records, which of these is emptier; which of them is a helper's record that
# the other one holds, if one is; and siblings that are records' roots.
STEP_1 = (("no sibling", "left only", "right only", "right only, in a helper's record", "both in one record"),
          ("left emptier", "right emptier", "equal", "right emptier, set apart"),
          ("right in a helper's record and left outside", "left in one and right outside", "through two helpers or more", "in helpers' records side by side"),
          ("left is a root", "right is a root", "left's own record decides otherwise", "right's own record decides otherwise"))


def step_1_meets(store, path, child, label):
    """What step 1 meets in an insert, by name; the store is that before it. A refused insert may meet nothing."""
    try:
        parent, record = ref.node_of_path(store, path)
        after, before = ref.spots_offered(parent, record, child)
    except ref.Refused:
        return
    if not after or not before:
        yield "left only" if after else "right only" if before else "no sibling"
        if before and before[2] is not record:
            yield "right only, in a helper's record"
        return
    left, right = after[2], before[2]
    if left is right:
        yield "both in one record"
        return
    goes_right = ref.unused(right) > ref.unused(left)
    yield "right emptier" if goes_right else "equal" if ref.unused(right) == ref.unused(left) else "left emptier"
    if goes_right and ref.is_apart(store.settings, parent, ref.Node(ref.LITERAL, label)):
        yield "right emptier, set apart"
    inner, outer = (right, left) if left in holders(right) else (left, right)
    if outer not in holders(inner):
        yield "in helpers' records side by side"
    else:
        yield "right in a helper's record and left outside" if inner is right else "left in one and right outside"
        if inner.holder is not outer:
            yield "through two helpers or more"
    # the record that a sibling is the root of, if it is one; its unused bytes play no part
    left_own, right_own = after[0][after[1] - 1].record, before[0][before[1]].record
    if left_own:
        yield "left is a root"
        if (ref.unused(right) > ref.unused(left_own)) != goes_right:
            yield "left's own record decides otherwise"
    if right_own:
        yield "right is a root"
        if (ref.unused(right_own) > ref.unused(left)) != goes_right:
            yield "right's own record decides otherwise"


# ---- One store

class Done(Exception):
    """The script has its number of calls."""


class Counts:
    """What a script has reached."""

    def __init__(self):
        self.inserts = self.stores = self.near = self.apart = self.longest = self.pages = self.deepest = self.records = 0
        self.refused = {}
        self.origins = [0] * ref.ORIGINS              # of accepted ones
        self.splits = [0, 0, 0, 0]                    # none, one, two, three or more
        self.leans = [0, 0]
        self.step_1 = {name: 0 for names in STEP_1 for name in names}
        self.stores_of = dict.fromkeys(ref.TARGETS, 0)
        self.halves = {target: [0, 0] for target in ref.TARGETS}      # splits at an exact half: to the number below, and above

    def calls(self):
        """How many count for the length of the script."""
        return self.inserts

    def target(self, rng):
        """The ends and the usual one now and then, else one whose halves were not both met yet, of those one with the fewest stores."""
        wanted = min(ref.TARGETS, key=lambda target: ((0 not in self.halves[target]), self.stores_of[target], rng.random()))
        return rng.choice((rng.choice((64, 128, 192)), wanted, wanted, wanted))

    def half_lines(self):
        for way, name in enumerate(("down", "up")):
            counts = [halves[way] for halves in self.halves.values()]
            yield "%d go %s, at %d targets" % (sum(counts), name, sum(1 for count in counts if count))

    def lines(self):
        yield "%d inserts in %d stores; accepted %d, by origin %d, %d, %d, %d" % (self.inserts, self.stores, sum(self.splits), *self.origins)
        yield "splits: none %d, one %d, two %d, three or more %d; longest cascade %d; leans %d to %d" % (*self.splits, self.longest, *self.leans)
        yield "stores with %d of the %d targets; splits at an exact half: %s" % (
            sum(1 for count in self.stores_of.values() if count), len(ref.TARGETS), "; ".join(self.half_lines()))
        for names in STEP_1:
            yield "step 1: " + "; ".join("%s %d" % (name, self.step_1[name]) for name in names)
        yield "refused: " + ", ".join("%d of %d" % (count, number) for number, count in sorted(self.refused.items()))
        yield "records with over %d bytes, or split: %d; set apart: %d" % (NEAR, self.near, self.apart)
        yield "deepest level %d; largest image %d pages; most records %d" % (self.deepest, self.pages, self.records)


class Larder:
    """An image, the reference's store of it, and the script that they are written to."""

    def __init__(self, rng, counts, out, limit):
        self.rng, self.counts, self.out, self.limit = rng, counts, out, limit
        share = rng.choice((0, 0, 0.02, 0.1, 0.3, 0.5, 0.9))      # of pairs that are apart; they take many pages
        ranges = ((2, 5), (2, 5), (6, 12), (6, 12), (6, 12), (13, 40), (13, 40), (63, 66), (41, 100), (101, 200))    # tables of 64 entries up to 64 pages
        self.pages = rng.randint(*rng.choice(ranges if share < 0.2 else ranges[3:]))
        target = counts.target(rng)
        tolerance = rng.choice((0, 7, 20, 409, 512, rng.randint(0, 100), rng.randint(0, 512)))
        matrix = bytearray(b"\x02" * 256)
        for at in range(256):
            if rng.random() < share:
                matrix[at] = 0
        self.labels = rng.sample(LABELS, rng.randint(1, 6)) + [rng.randrange(65536)]
        self.longest = rng.choice((0, 12, 40, 200, ref.CONTENT, ref.CONTENT))
        self.image = bytearray(self.pages * ref.PAGE)
        self.write("I %d" % len(self.image))
        self.ask("format %d %d %d 1 %s %d" % (self.pages, target, tolerance, matrix.hex(), rng.choice(self.labels)))
        self.store = ref.read_store(self.image)
        counts.stores += 1
        counts.stores_of[target] += 1
        counts.pages = max(counts.pages, self.pages)

    @property
    def target(self):
        return self.store.settings.target

    def write(self, line):
        self.out.write(line + "\n")

    def ask(self, call):
        """A call and its answer, by the reference's way through the image."""
        words = call.split(" ")
        answer = ref.RUNS[words[0]](self.image, words[1:])
        self.write(call)
        self.write("= " + " ".join([str(field) for field in answer] + [ref.checksum(self.image)]))
        return answer

    def begin(self):
        """To be called before each call that counts."""
        if self.counts.calls() == self.limit:
            raise Done

    def insert(self, path, child, kind, label, content=b"", origin=None):
        """One insert, of any origin if none is given; gives its number."""
        self.begin()
        if origin is None:
            origin = self.origin()
        met = list(step_1_meets(self.store, path, child, label))
        try:
            answer = (0,) + ref.insert_node(self.store, path, child, kind, origin, label, content)
            ref.write_changes(self.store, self.image)
        except ref.Refused as refusal:
            answer = (refusal.number, 0, 0, 0, 0)
            if refusal.number == ref.FULL:
                self.store = ref.read_store(self.image)
        self.write("insert %s %d %d %d %d %s" % (ref.to_hex(path), child, kind, origin, label, ref.to_hex(content)))
        self.write("= %d %d %d %d %d %s" % (answer + (ref.checksum(self.image),)))
        self.count(answer, len(path) // 4 + 2, origin, met)
        return answer[0]

    def count(self, answer, level, origin, met=()):
        number, page, _, splits, lean = answer
        counts = self.counts
        counts.inserts += 1
        if counts.inserts % 10000 == 0:
            print("%d inserts" % counts.inserts, file=sys.stderr, flush=True)
        if number:
            counts.refused[number] = counts.refused.get(number, 0) + 1
            return
        record = self.store.records[page]
        if record.settled and page != 1 and record.root.kind != ref.HELPER and not record.root.children:
            counts.apart += 1
            record = record.holder
        for name in met:
            counts.step_1[name] += 1
        counts.origins[origin] += 1
        counts.splits[min(splits, 3)] += 1
        counts.near += splits > 0 or used(self.image, record) > NEAR
        counts.longest = max(counts.longest, splits)
        counts.deepest = max(counts.deepest, level)
        counts.records = max(counts.records, len(self.store.records))
        for size in self.store.split_sizes:
            if self.target * size % 256 == 128:
                counts.halves[self.target][self.target * size // 256 % 2] += 1
        counts.leans = [min(counts.leans[0], lean), max(counts.leans[1], lean)]

    # ---- An image made at random

    def make(self):
        """Puts a random store into the image: what inserts alone never leave (free pages in between, records in any order) is there too."""
        self.proxies = self.rng.choice((0.05, 0.2, 0.5, 0.8))
        free = list(range(2, self.pages))
        self.rng.shuffle(free)
        free = free[:self.rng.randint(0, len(free))]
        root = ref.Record(1, True, None)
        self.store.records = {1: root}
        root.root = self.some_node(ref.AGGREGATE, children=self.some_list(2, self.some_size() - ref.HEADER, free))
        self.store.changed = set(self.store.records)
        ref.write_changes(self.store, self.image)
        self.store = ref.read_store(self.image)       # it passes the check
        for page in sorted(self.store.records):
            at = page * ref.PAGE
            self.write("B %d %s" % (at, self.image[at:at + used(self.image, self.store.records[page])].hex()))
            self.write("B %d %s" % (at + ref.CAPACITY, self.image[at + ref.CAPACITY:at + ref.PAGE].hex()))
        self.write("C " + ref.checksum(self.image))

    def some_node(self, kind, content=b"", children=None):
        return ref.Node(kind, self.rng.choice(self.labels), content, children, origin=self.origin())

    def some_size(self):
        return self.rng.choice((ref.CAPACITY, ref.CAPACITY - self.rng.randrange(20), self.rng.randint(20, 300), self.rng.randint(20, ref.CAPACITY)))

    def some_list(self, level, room, free):
        """Nodes of that level that take at most so many bytes, mostly nearly all of them; new records go to free pages."""
        rng, nodes, tolerance = self.rng, [], self.store.settings.tolerance
        while room >= ref.HEADER + 2 and level <= ref.LEVELS and rng.random() < 0.99:
            if free and rng.random() < self.proxies:
                nodes.append(ref.Node(ref.PROXY, record=self.some_record(level, free)))
            elif level < ref.LEVELS and 2 * ref.HEADER < tolerance < room and rng.random() < 0.2:      # as big as the tolerance, or nearly
                content = bytes(tolerance - 2 * ref.HEADER - rng.choice((0, 0, 1)))
                nodes.append(self.some_node(ref.AGGREGATE, children=[self.some_node(ref.LITERAL, content)]))
            elif rng.random() < 0.3:
                inside = rng.choice((0, rng.randint(0, room), room)) - ref.HEADER
                nodes.append(self.some_node(ref.AGGREGATE, children=self.some_list(level + 1, inside, free)))
            else:
                content = self.content(max(8, self.longest))[:room - ref.HEADER]
                nodes.append(self.some_node(ref.LITERAL, content))
            room -= ref.size(nodes[-1])
        return nodes

    def some_record(self, level, free):
        rng, size, content, children = self.rng, self.some_size(), b"", []
        record = ref.Record(free.pop(), False, None)
        self.store.records[record.page] = record
        kind = rng.choice((ref.AGGREGATE, ref.LITERAL, ref.HELPER, ref.HELPER))
        if kind == ref.LITERAL:
            content = self.content()
        elif kind == ref.AGGREGATE:
            children = self.some_list(level + 1, size - ref.HEADER, free)
        else:
            children = self.some_list(level, size - 2 * ref.HEADER, free)
            while len(children) < 2:
                children.append(ref.Node(ref.LITERAL))
        record.settled = kind != ref.HELPER and rng.random() < 0.5
        record.root = ref.Node(kind, children=children) if kind == ref.HELPER else self.some_node(kind, content, children)
        return record

    # ---- Choices

    def record(self):
        return self.store.records[self.rng.choice(list(self.store.records))]

    def fullest(self):
        """A record near its limit, or the fullest of all."""
        records = list(self.store.records.values())
        near = [record for record in records if used(self.image, record) > NEAR]
        return self.rng.choice(near) if near else max(records, key=lambda record: used(self.image, record))

    def content(self, longest=None):
        longest = self.longest if longest is None else longest
        length = self.rng.choice((0, longest, self.rng.randint(0, longest), self.rng.randint(0, longest)))
        return self.rng.randbytes(length)

    def origin(self):
        return self.rng.randrange(ref.ORIGINS)

    def node(self, longest=None):
        """Kind, label and content of some node."""
        kind = self.rng.choice((ref.AGGREGATE, ref.LITERAL))
        return kind, self.rng.choice(self.labels), self.content(longest) if kind == ref.LITERAL else b""

    def spots(self, record):
        """Paths and child numbers of a new node in, before and after some nodes of a record."""
        nodes = list(nodes_under(record.root))
        for node in self.rng.sample(nodes, min(4, len(nodes))):
            path = path_to(record, node)
            found = [(path, 0)] if node.kind == ref.AGGREGATE and len(path) <= 22 else []
            if path:
                found += [(path[:-1], path[-1]), (path[:-1], path[-1] + 1)]
            self.rng.shuffle(found)
            yield from found

    def some_spot(self):
        """A path and a child number at some node of some record."""
        return next(self.spots(self.record()), ([], 0))

    def spot(self, record):
        """A path and a child number that put a node into this record; None if none is found."""
        for path, child in self.spots(record):
            if ref.spot_chosen(*ref.node_of_path(self.store, path_bytes(path)), child)[2] is record:
                return path, child
        return None

    def seam(self, record, last):
        """The path and the child number before the first node that a helper's record shows, or after its last."""
        path = path_to(record, record.root.children[0])
        return path[:-1], path[-1] + (ref.record_shown(record) if last else 0)

    def rarity(self, path, child):
        """How often the rarest of what step 1 meets there was met so far."""
        return min(self.counts.step_1[name] for name in step_1_meets(self.store, path_bytes(path), child, self.label_that(path, True)))

    def row(self, path):
        """The number of children of the node that a path names."""
        try:
            return ref.nodes_shown(ref.node_of_path(self.store, path)[0].children)
        except ref.Refused:
            return 0

    def label_that(self, path, is_apart):
        """A label that is apart from the parent's, or one that is not, if one is found."""
        parent, _ = ref.node_of_path(self.store, path_bytes(path))
        for label in self.labels + list(LABELS):
            if ref.is_apart(self.store.settings, parent, ref.Node(ref.LITERAL, label)) == is_apart:
                return label
        return self.labels[0]

    def free_label(self, path):
        return self.label_that(path, False)

    def label(self, path):
        return self.free_label(path) if self.rng.random() < 0.5 else self.rng.choice(self.labels)

    # ---- Ways to grow: each makes one or more inserts

    def append(self):
        """At the end of the root, or of its last aggregate."""
        path, row = [], self.row(b"")
        if row and self.rng.random() < 0.3:
            last, _ = ref.node_of_path(self.store, path_bytes([row - 1]))
            if last.kind == ref.AGGREGATE:
                path, row = [row - 1], ref.nodes_shown(last.children)
        return self.insert(path_bytes(path), row, *self.node())

    def front(self):
        return self.insert(b"", 0, *self.node())

    def anywhere(self):
        path, child = self.some_spot()
        return self.insert(path_bytes(path), child, *self.node())

    def seams(self):
        """Nodes at an end of a helper's record, where the siblings offer spots in two records; of a few ends at the one that meets the rarest."""
        helpers = [record for record in self.store.records.values() if record.root.kind == ref.HELPER]
        ends = [(record, last) for record in self.rng.sample(helpers, min(4, len(helpers))) for last in (False, True)]
        if not ends:
            return self.anywhere()
        self.rng.shuffle(ends)
        record, last = min(ends, key=lambda end: self.rarity(*self.seam(*end)))
        number, turns = 0, self.rng.choice((2, 4, 7))
        while turns and number == 0 and self.store.records.get(record.page) is record:
            way = self.made_equal if self.rng.random() < 0.2 else self.put_in
            number, turns = way(*self.seam(record, last)), turns - 1
        return number

    def put_in(self, path, child):
        """Some node there, set apart now and then."""
        kind, _, content = self.node(self.rng.choice((20, None)))
        return self.insert(path_bytes(path), child, kind, self.label_that(path, self.rng.random() < 0.3), content)

    def made_equal(self, path, child):
        """If siblings offer spots there in two records, the emptier one is filled to be like the other."""
        offered = ref.spots_offered(*ref.node_of_path(self.store, path_bytes(path)), child)
        if None in offered:
            return 0
        fuller, emptier = sorted([spot[2] for spot in offered], key=ref.unused)
        return self.fill(emptier, ref.unused(fuller))

    def chain(self):
        """Only children down to the last level, and once too deep; then literals along the chain."""
        number = self.insert(b"", 0, ref.AGGREGATE, self.rng.choice(self.labels))
        depth = 1
        while number == 0 and depth <= 23:
            number = self.insert(path_bytes([0] * depth), 0, *((ref.AGGREGATE, self.rng.choice(self.labels)) if depth < 22 else self.node()))
            depth += 1
        for _ in range(self.rng.randrange(12)):
            path = path_bytes([0] * self.rng.randrange(depth))
            number = self.insert(path, self.rng.randrange(2), ref.LITERAL, self.rng.choice(self.labels), self.content())
        return number

    def aimed(self):
        """In an empty store, something where the first split looks: a chain, so that d starts after p, or an aggregate as big as the tolerance."""
        size = ref.CAPACITY + self.rng.randint(1, 300)
        start = ref.split_point(self.target, size) - self.rng.choice((0, 0, 1, 5, 6, 20))
        number = sum([self.append_literal(piece) for piece in made.pieces(start - ref.HEADER)])
        path, depth, inside = [self.row(b"")], 1, self.store.settings.tolerance - ref.HEADER + self.rng.choice((-1, 0, 0, 1))
        if inside < ref.HEADER or self.rng.random() < 0.5:
            depth, inside = self.rng.choice((23, 23, self.rng.randint(1, 23))), 0
        for _ in range(depth):
            number += self.insert(path_bytes(path[:-1]), path[-1], ref.AGGREGATE, self.free_label(path[:-1]))
            path.append(0)
            if number:
                return
        if inside:
            self.insert(path_bytes(path[:-1]), 0, ref.LITERAL, self.free_label(path[:-1]), self.rng.randbytes(inside - ref.HEADER))
        for piece in made.pieces(size - start - ref.HEADER * depth - inside):
            self.append_literal(piece)

    def append_literal(self, size):
        return self.insert(b"", self.row(b""), ref.LITERAL, self.free_label([]), self.rng.randbytes(size - ref.HEADER))

    def wide(self):
        """Empty nodes into one row."""
        path, _ = self.some_spot()
        return self.empty_nodes(path_bytes(path), self.rng.choice((5, 30, 120)))

    def empty_nodes(self, path, count):
        number, row = 0, self.row(path)
        while number == 0 and count:
            child = self.rng.choice((0, row, self.rng.randint(0, row)))
            number = self.insert(path, child, self.rng.choice((ref.AGGREGATE, ref.LITERAL)), self.rng.choice(self.labels))
            row, count = row + 1, count - 1
        return number

    def limit_reached(self):
        """Into a full record: up to its limit, one byte over, and about there."""
        record = self.fullest()
        spot = self.spot(record)
        if not spot:
            return self.anywhere()
        room = ref.CAPACITY - used(self.image, record)
        length = room - ref.HEADER + self.rng.choice((-7, -2, -1, 0, 0, 1, 1, 2, 3, 9, self.rng.randint(-60, 60)))
        if not 0 <= length <= ref.CONTENT:
            length = ref.CONTENT if room > 600 else len(self.content())
        return self.insert(path_bytes(spot[0]), spot[1], ref.LITERAL, self.label(spot[0]), self.rng.randbytes(length))

    def halved(self):
        """Into a full record, so that target × S / 256 is an exact half; the way that was met less often."""
        record = self.fullest()
        number = self.fill(record, self.rng.randint(0, 100))
        spot = self.spot(record) if self.store.records.get(record.page) is record else None
        if number or not spot:
            return number
        least = used(self.image, record) + ref.HEADER
        sizes = [size for size in range(max(least, ref.CAPACITY + 1), least + ref.CONTENT + 1) if self.target * size % 256 == 128]
        if not sizes:
            return self.anywhere()
        halves = self.counts.halves[self.target]
        size = min(sizes, key=lambda size: (halves[self.target * size // 256 % 2], self.rng.random()))
        return self.insert(path_bytes(spot[0]), spot[1], ref.LITERAL, self.free_label(spot[0]), self.rng.randbytes(size - least))

    def both_halves(self):
        """Both ways of the target's halves, those that are not met yet, if pages allow."""
        for _ in range(4):
            if 0 in self.counts.halves[self.target]:
                self.halved()

    def trickle(self):
        """Small nodes into one full record until it splits."""
        record = self.fullest()
        number = self.fill(record, self.rng.randint(0, 200))
        for _ in range(20):
            spot = self.spot(record) if self.store.records.get(record.page) is record else None
            if number or not spot:
                break
            number = self.insert(path_bytes(spot[0]), spot[1], *self.node(20))
        return number

    def fill(self, record, slack):
        """Literals into a record until at most so many bytes are free (or nearly so); nothing splits."""
        number = 0
        while number == 0 and self.store.records.get(record.page) is record:
            room, spot = ref.CAPACITY - used(self.image, record) - slack, self.spot(record)
            if room < ref.HEADER or not spot:
                break
            length = min(room - ref.HEADER, ref.CONTENT)
            number = self.insert(path_bytes(spot[0]), spot[1], ref.LITERAL, self.free_label(spot[0]), self.rng.randbytes(length))
        return number

    def cascade(self):
        """The records from the root's down to a deep one are filled, then the deep one is split."""
        record = max([self.record() for _ in range(8)], key=lambda r: sum(1 for holder in holders(r)[:7] if self.spot(holder)))
        chain = holders(record)[:self.rng.choice((2, 4, 7, 12))]
        for holder in reversed(chain):
            if self.fill(holder, self.rng.choice((0, 0, 0, 1, 5, 7, 40))):
                break
        number = self.split(record)
        # what was split is half full now, what was not is full
        while number == 0 and self.rng.random() < 0.7:
            number = self.limit_reached()
        return number

    def split(self, record):
        spot = self.spot(record) if self.store.records.get(record.page) is record else None
        if not spot:
            return self.anywhere()
        return self.insert(path_bytes(spot[0]), spot[1], ref.LITERAL, self.label(spot[0]), self.rng.randbytes(self.rng.choice((0, 10, 300, 520))))

    def again(self):
        """The same image grown in several ways at its limit."""
        if len(self.store.records) > 40:
            return self.limit_reached()
        self.write("S")
        kept = bytes(self.image)
        number = 0
        for turn in range(self.rng.choice((3, 6))):
            if turn:
                self.write("R")
                self.image[:] = kept
                self.store = ref.read_store(self.image)
            number = self.rng.choice((self.limit_reached, self.limit_reached, self.trickle, self.anywhere))()
        return number

    def refusal(self):
        """An insert with one thing wrong, or several."""
        rng = self.rng
        path, child = self.some_spot()
        path = path_bytes(path)
        kind, label, content = self.node()
        origin = self.origin()
        for wrong in {rng.choice(FAULTS), rng.choice((0, 0, ref.BAD_ORIGIN, rng.choice(FAULTS)))}:
            if wrong == ref.LEVEL:
                path += bytes(rng.choice((92, 93, 96, 200)) - len(path))
            elif wrong == ref.BAD_KIND:
                kind, content = rng.choice(((0, b""), (3, b""), (4, b""), (255, content), (ref.AGGREGATE, b"\1"), (ref.AGGREGATE, bytes(521))))
            elif wrong == ref.BAD_ORIGIN:
                origin = rng.choice(made.WRONG_ORIGINS)
            elif wrong == ref.LONG:
                content = bytes(rng.choice((521, 522, 600)))
            elif wrong == ref.ABSENT:
                path = rng.choice((path + b"\xff\xff\xff\xff", path + bytes(rng.randint(1, 3)), path[:-1]))
            elif wrong == ref.CLOSED:
                record = self.record()
                literals = [node for node in nodes_under(record.root) if node.kind == ref.LITERAL]
                if literals:
                    path = path_bytes(path_to(record, rng.choice(literals)))
            elif wrong == ref.GAP:
                child = 2**32 - 1 if rng.random() < 0.3 else self.row(path) + rng.randint(1, 3)
        self.insert(path, child, kind, label, content, origin)

    def damaged(self):
        """An insert into an image with one byte wrong; if it is refused, the byte is put right after it."""
        self.begin()
        at, old = self.hurt()
        origin = self.origin()
        answer = self.ask("insert - 0 2 %d %d 41" % (origin, self.labels[0]))
        if answer[0]:
            self.put_byte(at, old)
            self.counts.inserts += 1
            self.counts.refused[answer[0]] = self.counts.refused.get(answer[0], 0) + 1
        else:
            self.store = ref.read_store(self.image)
            self.count(answer, 2, origin)

    def hurt(self):
        """Puts one byte wrong; gives where, and the byte that was there."""
        page = self.rng.randrange(self.pages) * ref.PAGE
        at = page + self.rng.choice((0, 1, 2, 4, 5, self.rng.randrange(ref.PAGE), 4080, 4081, 4082, 4084, 4090))
        old = self.image[at]
        self.put_byte(at, self.rng.choice((self.rng.randrange(256), self.rng.randrange(6))))
        return at, old

    def put_byte(self, at, value):
        self.image[at] = value
        self.write("B %d %02x" % (at, value))

    def grow(self):
        """Grows the store in a few of the ways until it has had its share of inserts or has been full for a while."""
        ways = self.rng.choices((self.append, self.front, self.anywhere, self.chain, self.wide, self.limit_reached, self.trickle, self.cascade, self.again),
                                (2, 2, 3, 1, 1, 5, 6, 18, 5), k=self.rng.randint(2, 4))
        end = self.counts.inserts + self.rng.randint(20, 60 + 12 * min(self.pages, self.limit // 50))
        full = 0
        start = self.rng.random()
        if start < 0.5:
            self.make()
        elif start < 0.65:
            self.aimed()
        elif start < 0.68:
            self.empty_nodes(b"", min(1500, self.limit // 10))      # over two records full
        self.both_halves()
        while self.counts.inserts < end and full < 8:
            chance = self.rng.random()
            if chance < 0.2:
                self.refusal()
            elif chance < 0.205:
                self.damaged()
            elif chance < 0.22:
                full += self.halved() == ref.FULL
            elif chance < 0.4:
                full += self.seams() == ref.FULL
            else:
                full += self.rng.choice(ways)() == ref.FULL


def main(seed, count, counts=Counts, larder=Larder, out=sys.stdout):
    rng, counts, start = random.Random(seed), counts(), time.time()
    out.write("V 1 %s %d\n" % (ref.RULES, LONGEST))
    while counts.calls() < count:
        store = larder(rng, counts, out, count)
        try:
            store.grow()
        except Done:
            pass
        store.ask("check")
    for line in counts.lines():
        out.write("# %s\n" % line)
        print(line, file=sys.stderr)
    print("seed %d: generated in %.0f s" % (seed, time.time() - start), file=sys.stderr)


if __name__ == "__main__":
    if len(sys.argv) != 3:
        sys.exit("usage: make_inserts.py SEED COUNT > SCRIPT")
    main(*[int(word) for word in sys.argv[1:3]])
