"""Writes a call script of random inserts and removals with the reference's answers: many stores (see make_inserts.py) that fill, are emptied and fill
again. Removed are leaves, branches of many records, roots of records and what helpers hold, down to their last child; refused removals, damaged images,
finds and checks are in between.

    make_removals.py SEED COUNT > SCRIPT

COUNT counts inserts and removals. The same arguments give the same script. The last lines, comments, say what was reached; they go to standard error too.
"""

import sys

import make_inserts as grown
import reference as ref
from reference import path_bytes

TOO_LONG = (93, 94, 96, 100, 200)                     # bytes of a path
FEW = 3                                               # records: a store with fewer is filled again


def tree(store):
    """The logical tree."""
    return [(e.path, e.node.kind, e.node.origin, e.node.label, e.node.content) for e in ref.document_order(store)]


def first_shown(child, record):
    """The first logical node that a child in a record shows, and its record."""
    while child.kind == ref.PROXY:
        record = child.record
        child = record.root.children[0] if record.root.kind == ref.HELPER else record.root
    return child, record


class Counts(grown.Counts):
    """What a script has reached, removals included."""

    def __init__(self):
        super().__init__()
        self.removals = self.removed = self.freed = self.most = self.roots = self.settled = self.whole = 0
        self.by_proxy = self.by_helper = self.by_other = 0
        self.full = self.empty = self.refilled = 0
        self.not_removed = {}

    def calls(self):
        return self.inserts + self.removals

    def lines(self):
        yield from super().lines()
        yield "%d removals; accepted %d; refused: %s" % (
            self.removals, self.removed, ", ".join("%d of %d" % (count, number) for number, count in sorted(self.not_removed.items())))
        yield "records freed: %d, most by one removal %d; roots of records removed: %d, settled %d" % (self.freed, self.most, self.roots, self.settled)
        yield "helpers replaced: %d by a proxy, %d of them to a helper; %d by another child" % (self.by_proxy, self.by_helper, self.by_other)
        yield "stores full: %d times, empty: %d times, full after that: %d times; branches put in and taken out again: %d" % (
            self.full, self.empty, self.refilled, self.whole)


class Larder(grown.Larder):
    """A larder from which nodes are removed too."""

    def __init__(self, *arguments):
        super().__init__(*arguments)
        self.is_full = self.was_empty = False
        self.one_branch = self.rng.random() < 0.3

    def some_list(self, level, room, free):
        """In some stores the root has one child, so that a removal frees many records."""
        if self.one_branch:
            self.one_branch = False
            return [self.some_node(ref.AGGREGATE, children=super().some_list(level + 1, room - ref.HEADER, free))]
        return super().some_list(level, room, free)

    def insert(self, *arguments):
        number = super().insert(*arguments)
        if number == ref.FULL and not self.is_full:
            self.counts.full += 1
            self.counts.refilled += self.was_empty
            self.is_full, self.was_empty = True, False
        return number

    def remove(self, path):
        """One removal; gives its number."""
        self.begin()
        before, number = len(self.store.records), 0
        try:
            gone = ref.remove_node(self.store, path)
            ref.write_changes(self.store, self.image)
            self.counts.roots += gone.kind == ref.PROXY
            self.counts.settled += gone.kind == ref.PROXY and gone.record.settled
        except ref.Refused as refusal:
            number = refusal.number
        self.write("remove " + ref.to_hex(path))
        self.write("= %d %s" % (number, ref.checksum(self.image)))
        self.count_removal(number, before)
        return number

    def count_removal(self, number, before):
        counts = self.counts
        counts.removals += 1
        if number:
            counts.not_removed[number] = counts.not_removed.get(number, 0) + 1
            return
        freed, child = before - len(self.store.records), self.store.replaced_by
        counts.removed += 1
        counts.freed += freed
        counts.most = max(counts.most, freed)
        if child is not None:
            counts.by_proxy += child.kind == ref.PROXY
            counts.by_helper += child.kind == ref.PROXY and child.record.root.kind == ref.HELPER
            counts.by_other += child.kind != ref.PROXY
        self.is_full = False
        if not self.store.records[1].root.children:
            counts.empty += 1
            self.was_empty = True

    # ---- What to remove

    def node_of(self, record, leaf=False):
        """The path of some node that stands in a record, of a leaf if there is one; None if there is none but the tree's root."""
        nodes = [node for node in grown.nodes_under(record.root) if node is not self.store.records[1].root]
        leaves = [node for node in nodes if leaf and not node.children]
        return grown.path_to(record, self.rng.choice(leaves or nodes)) if nodes else None

    def anywhere_removed(self):
        path = self.node_of(self.record())
        return self.remove(path_bytes(path)) if path else self.front()

    def leaf_removed(self):
        path = self.node_of(self.record(), leaf=True)
        return self.remove(path_bytes(path)) if path else self.front()

    def branch_removed(self):
        """A node on the way down to some record, with all under it."""
        path = self.node_of(self.record())
        return self.remove(path_bytes(path[:self.rng.randint(1, len(path))])) if path else self.front()

    def root_removed(self):
        """The root of a record, with all under it; its proxy goes."""
        records = [record for record in self.store.records.values() if record.page != 1 and record.root.kind != ref.HELPER]
        if not records:
            return self.anywhere_removed()
        record = self.rng.choice(records)
        return self.remove(path_bytes(grown.path_to(record, record.root)))

    def helper_reduced(self):
        """From a helper with few children all but one are removed; in every second case that one is a proxy, if there is such a helper."""
        helpers = [record for record in self.store.records.values() if record.root.kind == ref.HELPER]
        kinds = (ref.PROXY,) if self.rng.random() < 0.5 else (ref.AGGREGATE, ref.LITERAL)
        helpers = [record for record in helpers if any(child.kind in kinds for child in record.root.children)] or helpers
        if not helpers:
            return self.leaf_removed()
        record = min(self.rng.sample(helpers, min(3, len(helpers))), key=lambda helper: len(helper.root.children))
        children = record.root.children
        kept = self.rng.choice([child for child in children if child.kind in kinds] or children)
        for _ in range(30):
            others = [child for child in children if child is not kept]
            if not others:
                break
            self.shown_removed(self.rng.choice(others), record)

    def shown_removed(self, child, record):
        """The first node that a child of a record shows."""
        node, record = first_shown(child, record)
        self.remove(path_bytes(grown.path_to(record, node)))

    def emptied(self):
        """The root's children, up to 200, from one end or in any order."""
        first, last = self.rng.choice(((True, False), (False, True), (False, False)))
        row = self.row(b"")
        for left in range(row, max(0, row - 200), -1):
            self.remove(path_bytes([0 if first else left - 1 if last else self.rng.randrange(left)]))

    def thinned(self):
        for _ in range(self.rng.choice((5, 20, 60))):
            if self.row(b""):
                self.leaf_removed()

    def removed_again(self):
        """From the same image in several ways."""
        if len(self.store.records) > 40:
            return self.root_removed()
        self.write("S")
        kept = bytes(self.image)
        for turn in range(self.rng.choice((3, 6))):
            if turn:
                self.write("R")
                self.image[:] = kept
                self.store = ref.read_store(self.image)
            self.rng.choice((self.branch_removed, self.root_removed, self.helper_reduced))()

    def branch_undone(self):
        """A branch is put in and taken out again: the tree is the former one."""
        parent, child = self.some_spot()
        path, former = parent + [child], tree(self.store)
        number = self.insert(path_bytes(parent), child, ref.AGGREGATE, self.rng.choice(self.labels))
        if number:
            return number
        for _ in range(self.rng.choice((0, 3, 12, 40)) if len(path) <= 22 else 0):
            self.insert(path_bytes(path), self.rng.randint(0, self.row(path_bytes(path))), *self.node())
        self.remove(path_bytes(path))
        if tree(self.store) != former:
            sys.exit("a branch put in and taken out again leaves another tree")
        self.counts.whole += 1
        return number

    def removal_refused(self):
        """The empty path, a path that is too long, or one that names no node."""
        rng, path = self.rng, path_bytes(self.node_of(self.record(), leaf=True) or [])
        self.remove(rng.choice((b"", path.ljust(rng.choice(TOO_LONG), b"\0"), rng.randbytes(rng.choice(TOO_LONG)), bytes(rng.randint(1, 3)),
                                path + bytes(rng.randint(1, 3)), path + bytes(4), path[:-4] + b"\xff\xff\xff\xff",
                                path_bytes([self.row(b"")]), bytes(92))))

    def removal_damaged(self):
        """A removal from an image with one byte wrong; if it is refused, the byte is put right after it."""
        self.begin()
        before, (at, old) = len(self.store.records), self.hurt()
        number, = self.ask("remove 00000000")
        if number:
            self.put_byte(at, old)
        else:
            self.store = ref.read_store(self.image)
        self.count_removal(number, before)

    def look(self):
        """Calls that change nothing, by the reference's way through the image."""
        path = self.node_of(self.record()) or []
        self.ask("find " + ref.to_hex(path_bytes(path)))
        self.ask(self.rng.choice(("check", "records %d" % (2 * len(self.store.records)), "next 1 0")))

    # ---- Turns

    def grow(self):
        """Fills the store in a few of the ways until it is full, empties it in a few others until little is left, and so on; now and then the other way."""
        ways = self.rng.choices((self.append, self.front, self.anywhere, self.chain, self.wide, self.limit_reached, self.trickle, self.cascade, self.again),
                                (4, 3, 5, 1, 1, 4, 2, 4, 1), k=self.rng.randint(2, 4))
        removals = self.rng.choices((self.anywhere_removed, self.leaf_removed, self.branch_removed, self.root_removed, self.helper_reduced, self.emptied,
                                     self.thinned, self.removed_again), (3, 4, 2, 5, 9, 2, 6, 2), k=self.rng.randint(2, 5))
        end = self.counts.calls() + self.rng.randint(40, 150 + 8 * min(self.pages, self.limit // 50))
        if self.rng.random() < 0.7:
            self.make()
        filling = self.rng.random() < 0.4
        while self.counts.calls() < end:
            chance = self.rng.random()
            if chance < 0.05:
                self.removal_refused()
            elif chance < 0.07:
                self.rng.choice((self.removal_damaged, self.refusal))()
            elif chance < 0.10:
                self.look()
            elif chance < 0.13:
                self.branch_undone()
            elif chance < 0.23:
                self.seams()
            elif filling != (chance > 0.85):
                filling = self.rng.choice(ways)() != ref.FULL and filling
            else:
                self.rng.choice(removals)()
                filling = filling or len(self.store.records) < FEW


if __name__ == "__main__":
    if len(sys.argv) != 3:
        sys.exit("usage: make_removals.py SEED COUNT > SCRIPT")
    grown.main(*[int(word) for word in sys.argv[1:3]], Counts, Larder)
