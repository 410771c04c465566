"""A second implementation of the rules, for the tests: small, made from their text alone (the base with changes E1 to E5).

As a module it offers the calls over an image held in a bytearray: format_image, check, diagnose, insert, remove, find,
climb, read, next_node, walk, records and listing. Each answer is a tuple that begins with the number. To make many inserts and
removals in one image, keep its store (read_store) and use insert_node, remove_node and write_changes. As a command it
replays call scripts, compares every answer and the checksum of the image, and exits with 1 on any difference:

    reference.py SCRIPT..
"""

import sys
import zlib
from fractions import Fraction

PAGE = 4096
CAPACITY = 4080
HEADER = 6
PAGES = 1024
LEVELS = 24
CONTENT = 520
TARGETS = range(64, 193)
SETTINGS_LENGTH = 272
CLASSES = 16
ORIGINS = 4                                           # seen on the wire, read from a store, typed in, derived

AGGREGATE, LITERAL, PROXY, HELPER = 1, 2, 3, 4
FREE, RECORD, SETTINGS = 0, 1, 2                      # the first byte of a trailer
APART = 0

# Which kinds may stand in each holder; 0 is the page, that is the place of a record's root.
MAY_STAND = {
    0: (AGGREGATE, LITERAL, HELPER),
    AGGREGATE: (AGGREGATE, LITERAL, PROXY),
    LITERAL: (),
    PROXY: (),
    HELPER: (AGGREGATE, LITERAL, PROXY),
}

(MISFIT, BAD_SETTINGS, BROKEN, LEVEL, BAD_KIND, LONG, ABSENT, CLOSED, GAP, STRAY, SHORT, FULL, BAD_ORIGIN,
 EMPTY_PATH) = range(1, 15)

# Why an image is broken, for diagnose.
(NEVER_FORMATTED, WRONG_SETTINGS, TRAILER, NOT_ZERO, PAST_LENGTH, WRONG_NODE, WRONG_LEVEL, LINK, NOT_REACHED) = range(1, 10)
REASONS = ("never formatted", "settings", "trailer", "free page not zero", "bytes past the length", "node", "level",
           "proxy or back link", "page not reached")

WALK_ENTRY = 9                                        # numbers of an entry of a walk

sys.setrecursionlimit(20000)


class Refused(Exception):
    """A call is refused with this number."""

    def __init__(self, number):
        super().__init__(number)
        self.number = number


class Fault(Exception):
    """What diagnose finds first: the stage, the page and the reason."""

    def __init__(self, stage, page, reason):
        super().__init__(stage, page, reason)
        self.answer = (stage, page, reason)


class BadScript(Exception):
    """A script that cannot be replayed."""


class Node:
    """A node in a record. A proxy carries the record that it stands for; proxies and helpers have origin 0."""

    def __init__(self, kind, label=0, content=b"", children=None, record=None, origin=0):
        self.kind = kind
        self.origin = origin
        self.label = label
        self.content = bytes(content)
        self.children = [] if children is None else children
        self.record = record


class Record:
    """A record: its page, its root and the record that holds its proxy (none for page 1). `shown` keeps the number of
    logical nodes that its proxy stands for, or None."""

    def __init__(self, page, settled, root, holder=None):
        self.page = page
        self.settled = settled
        self.root = root
        self.holder = holder
        self.shown = None


class Settings:
    def __init__(self, pages, target=128, tolerance=409, form=1, matrix=bytes([2] * 256)):
        self.pages = pages
        self.target = target
        self.tolerance = tolerance
        self.form = form
        self.matrix = bytes(matrix)


class Store:
    """What an image holds: its settings and its records by page. `changed` names the pages that growth or removal has
    changed; `split_sizes` are the sizes S of the records that the last insert has split; `replaced_by` is the child by
    which the last removal has replaced a helper, or None."""

    def __init__(self, settings, records):
        self.settings = settings
        self.records = records
        self.changed = set()
        self.split_sizes = []
        self.replaced_by = None


class Entry:
    """A node of the logical tree: its path, its number of children and where it stands."""

    def __init__(self, path, node, record, start):
        self.path = path
        self.node = node
        self.record = record
        self.start = start
        self.children = 0

    def place(self):
        return (self.record.page, self.start)


def two(part, at):
    return part[at] | part[at + 1] << 8


def two_bytes(number):
    return number.to_bytes(2, "little")


def require(true, number):
    if not true:
        raise Refused(number)


def is_zero(part):
    return part.count(0) == len(part)


def size(node):
    """Header and all inside it."""
    if node.kind == PROXY:
        return HEADER + 2
    return HEADER + len(node.content) + sum([size(child) for child in node.children])


# ---- From the image to the store: the check

def settings_in_range(settings, pages):
    return (settings.pages == pages and settings.target in TARGETS and settings.tolerance <= 512
            and settings.form == 1 and len(settings.matrix) == 256 and all(m in (0, 2) for m in settings.matrix))


def page_number(record):
    return 0 if record is None else record.page


def page_of(image, page):
    return bytes(image[page * PAGE:(page + 1) * PAGE])


def headers(image, page):
    """Where the nodes of a page's record start, by their sizes: for tests that change bytes there."""
    at = page * PAGE
    end = at + min(two(image, at + CAPACITY + 2), CAPACITY)
    while at + HEADER <= end:
        yield at
        at += HEADER if image[at] in (AGGREGATE, HELPER) else max(HEADER, two(image, at + 4))


def settings_on(page):
    return Settings(two(page, 0), page[2], two(page, 4), two(page, 6), page[16:SETTINGS_LENGTH])


def settings_kept(page, pages):
    """Page 0, whole, of an image of so many pages."""
    return (settings_in_range(settings_on(page), pages) and page[3] == 0 and is_zero(page[8:16])
            and is_zero(page[SETTINGS_LENGTH:CAPACITY]) and page[CAPACITY] == SETTINGS and page[CAPACITY + 1] == 0
            and two(page, CAPACITY + 2) == SETTINGS_LENGTH and is_zero(page[CAPACITY + 4:]))


def trailer_kept(trailer, number, pages):
    """One trailer taken by itself, that of page `number`, from 1 on, of an image of so many pages."""
    kind, settled, used, back = trailer[0], trailer[1], two(trailer, 2), two(trailer, 4)
    if kind == FREE:
        return number != 1 and is_zero(trailer)
    if number == 1:
        link_kept, settled_kept = back == 0, settled == 1
    else:
        link_kept, settled_kept = 0 < back < pages and back != number, settled <= 1
    return kind == RECORD and settled_kept and HEADER <= used <= CAPACITY and link_kept and is_zero(trailer[6:])


def before_walk(image):
    """Page 0, then in page order each trailer and each free page, taken by themselves, keep the rules. No byte of a
    record is looked at."""
    pages = len(image) // PAGE
    if not settings_kept(page_of(image, 0), pages):
        return False
    for number in range(1, pages):
        trailer = image[number * PAGE + CAPACITY:(number + 1) * PAGE]
        if not trailer_kept(trailer, number, pages):
            return False
        if trailer[0] == FREE and not is_zero(page_of(image, number)):
            return False
    return True


def read_record(image, number, holder, level, records):
    """The record on a page, its proxies followed; `level` is that of the nodes it shows. This is the walk: it relies on
    what before_walk has found of the trailers."""
    page = page_of(image, number)
    settled, used, link = page[CAPACITY + 1], two(page, CAPACITY + 2), two(page, CAPACITY + 4)
    require(page[CAPACITY] == RECORD and link == page_number(holder) and is_zero(page[used:CAPACITY]), BROKEN)
    record = records[number] = Record(number, settled == 1, None, holder)
    roots = read_list(image, page[:used], record, 0, level, records)
    require(len(roots) == 1, BROKEN)
    record.root = roots[0]
    require(not (record.settled and record.root.kind == HELPER), BROKEN)
    return record


def read_list(image, part, record, holder, level, records):
    """The nodes that fill a part of the record."""
    nodes = []
    while part:
        require(len(part) >= HEADER, BROKEN)
        length = two(part, 4)
        require(HEADER <= length <= len(part), BROKEN)
        nodes.append(read_node(image, part[:length], record, holder, level, records))
        part = part[length:]
    return nodes


def read_node(image, part, record, holder, level, records):
    kind, origin, label, inside = part[0], part[1], two(part, 2), part[HEADER:]
    require(kind in MAY_STAND[holder], BROKEN)
    require(origin < ORIGINS if kind in (AGGREGATE, LITERAL) else (origin == 0 and label == 0), BROKEN)
    require(level <= LEVELS or kind in (PROXY, HELPER), BROKEN)
    if kind == LITERAL:
        require(len(inside) <= CONTENT, BROKEN)
        return Node(LITERAL, label, content=inside, origin=origin)
    if kind == PROXY:
        require(len(inside) == 2, BROKEN)
        number = two(inside, 0)
        require(2 <= number < len(image) // PAGE and number not in records, BROKEN)
        return Node(PROXY, record=read_record(image, number, record, level, records))
    children = read_list(image, inside, record, kind, level + (kind == AGGREGATE), records)
    require(kind == AGGREGATE or len(children) >= 2, BROKEN)
    return Node(kind, label, children=children, origin=origin)


def read_store(image):
    """The store in an image; refused with 1 or 3. The walk is made only where the part before it passes."""
    pages, rest = divmod(len(image), PAGE)
    require(rest == 0 and 2 <= pages <= PAGES, MISFIT)
    require(before_walk(image), BROKEN)
    records = {}
    root = read_record(image, 1, None, 1, records)
    require(root.root.kind == AGGREGATE, BROKEN)
    for number in range(2, pages):
        require(number in records or image[number * PAGE + CAPACITY] == FREE, BROKEN)
    return Store(settings_on(page_of(image, 0)), records)


# ---- What is wrong with an image: a second check, which says where and why it stops

def find_fault(image):
    """Raises the first fault of an image of a right length, if it has one."""
    pages = len(image) // PAGE
    find_settings_fault(page_of(image, 0), pages)
    for number in range(1, pages):
        find_page_fault(page_of(image, number), number, pages)
    reached = {1}
    enter_record(image, 1, 1, reached)
    for number in range(2, pages):
        if trailer_of(image, number)[0] == RECORD and number not in reached:
            raise Fault(3, number, NOT_REACHED)


def find_settings_fault(page, pages):
    if not settings_kept(page, pages):
        raise Fault(1, 0, NEVER_FORMATTED if page in (b"\x00" * PAGE, b"\xff" * PAGE) else WRONG_SETTINGS)


def find_page_fault(page, number, pages):
    """The trailer and, if it says so, the free page, taken by themselves."""
    if not trailer_kept(page[CAPACITY:], number, pages):
        raise Fault(2, number, TRAILER)
    if page[CAPACITY] == FREE and not is_zero(page[:CAPACITY]):
        raise Fault(2, number, NOT_ZERO)


def trailer_of(image, number):
    return image[number * PAGE + CAPACITY:(number + 1) * PAGE]


def demand(true, page, reason):
    """Ends the walk, in the record of this page."""
    if not true:
        raise Fault(3, page, reason)


def is_whole(part):
    """A part begins with a whole node."""
    return len(part) >= HEADER and HEADER <= two(part, 4) <= len(part)


def enter_record(image, number, level, reached):
    """The record of a page that is marked as reached: its root and the bytes past it, then its nodes."""
    page = page_of(image, number)
    settled, used = page[CAPACITY + 1], two(page, CAPACITY + 2)
    demand(page[0] == AGGREGATE if number == 1 else not (settled and page[0] == HELPER), number, WRONG_NODE)
    demand(is_zero(page[used:CAPACITY]), number, PAST_LENGTH)
    demand(is_whole(page[:used]) and two(page, 4) == used, number, WRONG_NODE)
    walk_row(image, page[:used], number, 0, level, reached)


def walk_row(image, row, page, holder, level, reached):
    """A row of nodes that stands in a holder in the record of a page."""
    while row:
        demand(is_whole(row), page, WRONG_NODE)
        node, row = row[:two(row, 4)], row[two(row, 4):]
        walk_node(image, node, page, holder, level, reached)


def walk_node(image, node, page, holder, level, reached):
    kind, inside = node[0], node[HEADER:]
    demand(node_kept(node, holder), page, WRONG_NODE)
    if kind == PROXY:
        follow_proxy(image, inside, page, level, reached)
    elif kind == HELPER:
        walk_row(image, inside, page, HELPER, level, reached)
    else:
        demand(level <= LEVELS, page, WRONG_LEVEL)
        if kind == AGGREGATE:
            walk_row(image, inside, page, AGGREGATE, level + 1, reached)


def node_kept(node, holder):
    """A node by its own header and, for a helper, by where its first child ends; its level and what it leads to apart."""
    kind, origin, label, inside = node[0], node[1], two(node, 2), node[HEADER:]
    if kind not in MAY_STAND[holder] or origin >= ORIGINS:
        return False
    if kind in (PROXY, HELPER) and (origin or label):
        return False
    if kind == LITERAL:
        return len(inside) <= CONTENT
    return kind != HELPER or (is_whole(inside) and two(inside, 4) < len(inside))


def follow_proxy(image, inside, page, level, reached):
    """What a proxy in the record of `page` names, and the record there."""
    demand(len(inside) == 2, page, WRONG_NODE)
    number = two(inside, 0)
    demand(2 <= number < len(image) // PAGE, page, LINK)
    trailer = trailer_of(image, number)
    demand(trailer[0] == RECORD and two(trailer, 4) == page and number not in reached, page, LINK)
    reached.add(number)
    enter_record(image, number, level, reached)


# ---- From the store to the image

def node_bytes(node):
    if node.kind == PROXY:
        inside = two_bytes(node.record.page)
    else:
        inside = node.content + b"".join(node_bytes(child) for child in node.children)
    return bytes([node.kind, node.origin]) + two_bytes(node.label) + two_bytes(HEADER + len(inside)) + inside


def page_bytes(kind, settled, used, back):
    end = bytes([kind, settled]) + two_bytes(len(used)) + two_bytes(back)
    return used.ljust(CAPACITY, b"\0") + end.ljust(PAGE - CAPACITY, b"\0")


def settings_bytes(settings):
    return (two_bytes(settings.pages) + bytes([settings.target, 0]) + two_bytes(settings.tolerance)
            + two_bytes(settings.form) + bytes(8) + settings.matrix)


def proxies_under(node):
    """The proxies of a record, from one of its nodes down."""
    if node.kind == PROXY:
        yield node
    for child in node.children:
        yield from proxies_under(child)


def put_page(image, number, page):
    image[number * PAGE:(number + 1) * PAGE] = page


def write_changes(store, image):
    """Brings the image up to date: the changed pages, and the back link of each record whose proxy is now in another
    record."""
    changed = [store.records[number] for number in store.changed if number in store.records]
    for record in changed:
        for proxy in proxies_under(record.root):
            if proxy.record.holder is not record:
                proxy.record.holder = record
                at = proxy.record.page * PAGE + CAPACITY + 4
                image[at:at + 2] = two_bytes(record.page)
    for number in store.changed:
        put_page(image, number, bytes(PAGE))
    for record in changed:
        page = page_bytes(RECORD, int(record.settled), node_bytes(record.root), page_number(record.holder))
        put_page(image, record.page, page)
        while record is not None:
            record.shown, record = None, record.holder
    store.changed = set()


# ---- The logical tree

def list_entries(nodes, record, start, path, number, entries):
    """Adds the list's logical nodes, numbered from `number`, with all under them; gives the number after the last."""
    for node in nodes:
        if node.kind == PROXY:
            number = record_entries(node.record, path, number, entries)
        else:
            entry = Entry(path + (number,), node, record, start)
            entries.append(entry)
            entry.children = list_entries(node.children, record, start + HEADER, entry.path, 0, entries)
            number += 1
        start += size(node)
    return number


def record_entries(record, path, number, entries):
    if record.root.kind == HELPER:
        return list_entries(record.root.children, record, HEADER, path, number, entries)
    return list_entries([record.root], record, 0, path, number, entries)


def document_order(store):
    """Every node of the logical tree, as entries."""
    entries = []
    record_entries(store.records[1], (), 0, entries)
    for entry in entries:
        entry.path = entry.path[1:]                   # the root's path is empty
    return entries


def nodes_shown(nodes):
    """How many logical nodes a list shows."""
    return sum([record_shown(node.record) if node.kind == PROXY else 1 for node in nodes])


def record_shown(record):
    if record.shown is None:
        record.shown = nodes_shown(record.root.children) if record.root.kind == HELPER else 1
    return record.shown


def child_shown(nodes, record, number):
    """Of the logical node of that number in a list: the list, the position and the record of the node itself, or, if it
    is a record's root, of its proxy."""
    for at, node in enumerate(nodes):
        count = record_shown(node.record) if node.kind == PROXY else 1
        if number < count:
            if node.kind == PROXY and node.record.root.kind == HELPER:
                return child_shown(node.record.root.children, node.record, number)
            return nodes, at, record
        number -= count
    raise Refused(ABSENT)


def node_of_path(store, path):
    """The node that a path names, and its record."""
    record = store.records[1]
    node = record.root
    for number in path_entries(path):
        nodes, at, record = child_shown(node.children, record, number)
        node = nodes[at]
        if node.kind == PROXY:
            record = node.record
            node = record.root
    return node, record


def start_of(node, nodes, start):
    """Where a node starts, in a list that starts at `start` or under it; None if it is not there."""
    for other in nodes:
        found = start if other is node else start_of(node, other.children, start + HEADER)
        if found is not None:
            return found
        start += size(other)
    return None


# ---- Growth

def free_page(store, start):
    """The first free page counting up from `start`, page 2 following the last."""
    for page in list(range(start, store.settings.pages)) + list(range(2, start)):
        if page not in store.records:
            return page
    raise Refused(FULL)


def new_record(store, start, settled, root):
    """Places a record; gives the proxy to it."""
    record = Record(free_page(store, start), settled, root)
    store.records[record.page] = record
    store.changed.add(record.page)
    return Node(PROXY, record=record)


def is_apart(settings, parent, child):
    entry = CLASSES * min(parent.label, CLASSES - 1) + min(child.label, CLASSES - 1)
    return settings.matrix[entry] == APART


def choose(nodes, start, point):
    """The number and the start of the last node starting at or before the point, or of the first node; `start` is that
    of the first."""
    chosen, chosen_start = 0, start
    for number, node in enumerate(nodes):
        if start <= point:
            chosen, chosen_start = number, start
        start += size(node)
    return chosen, chosen_start


def split_point(target, record_size):
    """p: the nearest whole number, at an exact half the even one, which is how Python rounds."""
    return round(Fraction(target * record_size, 256))


def way_to_d(root, settings):
    """Step 3: the child numbers of the path from the root down to d, and the start of d minus p."""
    point = split_point(settings.target, size(root))
    node, start, way = root, 0, []
    while True:
        number, start = choose(node.children, start + HEADER, point)
        way.append(number)
        node = node.children[number]
        if not node.children or size(node) < settings.tolerance:
            return way, start - point


def separate(store, start, node, way):
    """Step 4 from a separator node down; records are placed in document order."""
    at, deeper = way[0], way[1:]
    left = group_placed(store, start, node.children[:at])
    middle, right = [], node.children[at:]
    if deeper:
        middle, right = right[:1], right[1:]
        separate(store, start, middle[0], deeper)
    node.children = left + middle + group_placed(store, start, right)


def group_placed(store, start, group):
    if not group or (len(group) == 1 and group[0].kind == PROXY):
        return group
    return [new_record(store, start, False, group[0] if len(group) == 1 else Node(HELPER, children=group))]


def proxy_position(record):
    """The list and the position in which the proxy to a record stands, in the record that holds it."""
    def look(node):
        for at, child in enumerate(node.children):
            if child.record is record:
                return node.children, at
            found = look(child)
            if found:
                return found
        return None

    return look(record.holder.root)


def split(store, record):
    """Steps 4 to 6 for one record; gives the lean and the holding record, or None if the record is settled."""
    way, lean = way_to_d(record.root, store.settings)
    if record.settled:
        separate(store, record.page, record.root, way)
        return lean, None
    del store.records[record.page]
    separate(store, record.page, record.root, way)
    siblings, at = proxy_position(record)
    siblings[at:at + 1] = record.root.children if record.root.kind == HELPER else [record.root]
    return lean, record.holder


def unused(record):
    return CAPACITY - size(record.root)


def spots_offered(parent, record, child):
    """The spots for the child of that number of a parent in a record: directly after its left sibling and directly
    before its right one, or their proxies; None without that sibling. A spot is a list, a position and their record."""
    after = before = None
    if child > 0:
        siblings, at, taker = child_shown(parent.children, record, child - 1)
        after = siblings, at + 1, taker
    if child < nodes_shown(parent.children):
        before = child_shown(parent.children, record, child)
    return after, before


def spot_chosen(parent, record, child):
    """Step 1: the spot that takes the child of that number of a parent in a record."""
    after, before = spots_offered(parent, record, child)
    if after and before:
        return before if unused(before[2]) > unused(after[2]) else after
    return after or before or (parent.children, 0, record)


def grow(store, parent, record, child, node):
    """Puts the node in as the child of that number of a parent in a record; gives the number of splits and the first
    lean."""
    siblings, at, record = spot_chosen(parent, record, child)
    if is_apart(store.settings, parent, node):
        node = new_record(store, record.page, True, node)
    siblings.insert(at, node)
    store.changed.add(record.page)
    store.split_sizes, leans = [], []
    while record is not None and size(record.root) > CAPACITY:
        store.split_sizes.append(size(record.root))
        lean, record = split(store, record)
        leans.append(lean)
        if record is not None:
            store.changed.add(record.page)
    return len(leans), leans[0] if leans else 0


def insert_node(store, path, child, kind, origin, label, content):
    """The insert on a store; gives (page, offset, splits, lean). A refusal with 12 leaves the store half changed."""
    require(len(path) <= 4 * (LEVELS - 2), LEVEL)
    require(kind == LITERAL or (kind == AGGREGATE and not content), BAD_KIND)
    require(origin < ORIGINS, BAD_ORIGIN)
    require(len(content) <= CONTENT, LONG)
    parent, record = node_of_path(store, path)
    require(parent.kind == AGGREGATE, CLOSED)
    require(child <= nodes_shown(parent.children), GAP)
    node = Node(kind, label, content, origin=origin)
    splits, lean = grow(store, parent, record, child, node)
    for page in store.changed & store.records.keys():
        start = start_of(node, [store.records[page].root], 0)
        if start is not None:
            return page, start, splits, lean
    raise AssertionError("the new node is in no changed record")


# ---- Removal

def records_below(node):
    """The records of the proxies under a node, itself included, and those below them."""
    found, nodes = [], [node]
    while nodes:
        below = [proxy.record for proxy in proxies_under(nodes.pop())]
        found += below
        nodes += [record.root for record in below]
    return found


def free_record(store, record):
    del store.records[record.page]
    store.changed.add(record.page)


def replace_helper(store, record):
    """A helper left with one child: a proxy takes the place of the helper's proxy, another child that of the helper."""
    child = store.replaced_by = record.root.children[0]
    if child.kind != PROXY:
        record.root = child
        return
    siblings, at = proxy_position(record)
    siblings[at] = child
    store.changed.add(record.holder.page)
    free_record(store, record)


def remove_node(store, path):
    """The removal on a store; gives what has left its list: the node, or its proxy."""
    require(len(path) <= 4 * (LEVELS - 1), LEVEL)
    require(path, EMPTY_PATH)
    number = path_entries(path)[-1]
    parent, record = node_of_path(store, path[:-4])
    siblings, at, record = child_shown(parent.children, record, number)
    gone = siblings.pop(at)
    for below in records_below(gone):
        free_record(store, below)
    store.changed.add(record.page)
    store.replaced_by = None
    if record.root.kind == HELPER and len(record.root.children) == 1:
        replace_helper(store, record)
    return gone


# ---- Calls

def answered(call):
    """Makes a refusal the answer: its number alone."""
    def run(*arguments):
        try:
            return call(*arguments)
        except Refused as refusal:
            return (refusal.number,)
    run.__doc__ = call.__doc__
    return run


def path_entries(path):
    require(len(path) % 4 == 0, ABSENT)
    return tuple(int.from_bytes(path[at:at + 4], "little") for at in range(0, len(path), 4))


def path_bytes(numbers):
    return b"".join([number.to_bytes(4, "little") for number in numbers])


def entry_of_path(entries, path):
    wanted = path_entries(path)
    for entry in entries:
        if entry.path == wanted:
            return entry
    raise Refused(ABSENT)


def number_of_place(entries, page, offset):
    for number, entry in enumerate(entries):
        if entry.place() == (page, offset):
            return number
    raise Refused(STRAY)


@answered
def format_image(image, pages, target, tolerance, form, matrix, label):
    """Gives (number)."""
    own, rest = divmod(len(image), PAGE)
    require(rest == 0 and 2 <= own <= PAGES, MISFIT)
    settings = Settings(pages, target, tolerance, form, matrix)
    require(settings_in_range(settings, own), BAD_SETTINGS)
    store = Store(settings, {1: Record(1, True, Node(AGGREGATE, label))})
    store.changed.add(1)
    image[:] = bytes(len(image))
    put_page(image, 0, page_bytes(SETTINGS, 0, settings_bytes(settings), 0))
    write_changes(store, image)
    return (0,)


@answered
def check(image):
    """Gives (number)."""
    read_store(image)
    return (0,)


@answered
def diagnose(image):
    """Gives (number, stage, page, reason)."""
    pages, rest = divmod(len(image), PAGE)
    require(rest == 0 and 2 <= pages <= PAGES, MISFIT)
    try:
        find_fault(image)
    except Fault as fault:
        return (BROKEN,) + fault.answer
    return (0, 0, 0, 0)


@answered
def insert(image, path, child, kind, origin, label, content):
    """Gives (number, page, offset, splits, lean)."""
    store = read_store(image)
    answer = insert_node(store, path, child, kind, origin, label, content)
    write_changes(store, image)
    return (0,) + answer


@answered
def remove(image, path):
    """Gives (number)."""
    store = read_store(image)
    remove_node(store, path)
    write_changes(store, image)
    return (0,)


@answered
def find(image, path):
    """Gives (number, page, offset)."""
    store = read_store(image)
    require(len(path) <= 4 * (LEVELS - 1), LEVEL)
    return (0,) + entry_of_path(document_order(store), path).place()


@answered
def climb(image, page, offset, buffer):
    """Gives (number, bytes written)."""
    entries = document_order(read_store(image))
    entry = entries[number_of_place(entries, page, offset)]
    path = path_bytes(entry.path)
    require(len(path) <= len(buffer), SHORT)
    buffer[:len(path)] = path
    return (0, len(path))


@answered
def read(image, page, offset):
    """Gives (number, kind, label, origin, children, content, its start in the image)."""
    entries = document_order(read_store(image))
    entry = entries[number_of_place(entries, page, offset)]
    node = entry.node
    start = page * PAGE + offset + HEADER if node.content else 0
    return (0, node.kind, node.label, node.origin, entry.children, node.content, start)


@answered
def next_node(image, page, offset):
    """Gives (number, 1 or 0 for the end, page, offset, kind, origin)."""
    entries = document_order(read_store(image))
    following = entries[number_of_place(entries, page, offset) + 1:]
    if not following:
        return (0, 0, 0, 0, 0, 0)
    return (0, 1) + following[0].place() + (following[0].node.kind, following[0].node.origin)


def walk_entry(entry):
    """The nine numbers of an entry: those of climb, read and the place."""
    node, (page, offset) = entry.node, entry.place()
    start = page * PAGE + offset + HEADER if node.content else 0
    return (len(entry.path) + 1, page, offset, node.kind, node.origin, node.label, entry.children, start, len(node.content))


@answered
def walk(image, page, offset, buffer):
    """Gives (number, entries written, 1 if more follow or 0, page, offset of the next); the buffer is a list of numbers."""
    entries = document_order(read_store(image))
    first = number_of_place(entries, page, offset)
    after = min(first + len(buffer) // WALK_ENTRY, len(entries))
    written = [number for entry in entries[first:after] for number in walk_entry(entry)]
    buffer[:len(written)] = written
    more = (1,) + entries[after].place() if after < len(entries) else (0, 0, 0)
    return (0, after - first) + more


@answered
def records(image, buffer):
    """Gives (number, bytes written); the pages are in ascending order."""
    pages = sorted(read_store(image).records)
    require(2 * len(pages) <= len(buffer), SHORT)
    buffer[:2 * len(pages)] = b"".join(two_bytes(page) for page in pages)
    return (0, 2 * len(pages))


def listing(image):
    """The text that the listing program prints."""
    if len(image) > 15 * PAGE:
        return "over 15 pages\n"
    try:
        store = read_store(image)
    except Refused as refusal:
        return "refused %d\n" % refusal.number
    pages, count = store.settings.pages, len(store.records)
    lines = ["pages %d free %d records %d" % (pages, pages - 1 - count, count)]
    for entry in document_order(store):
        node, level = entry.node, len(entry.path) + 1
        lines.append("%d %s %d %s %d" % (level, "A" if node.kind == AGGREGATE else "L", node.label, to_hex(node.content), node.origin))
    return "\n".join(lines) + "\n"


# ---- Replay of call scripts

RULES = "5"                                           # the rule set: the base with E1 to E5


def from_hex(text):
    return b"" if text == "-" else bytes.fromhex(text)


def to_hex(content):
    return bytes(content).hex() or "-"


def filled(answer, fields):
    """So many fields: a refusal is followed by zeros."""
    return answer + (0,) * (fields - len(answer))


def with_buffer(call, image, arguments, room):
    buffer = bytearray(b"\xa7" * room)
    return filled(call(image, *arguments, buffer), 2) + (to_hex(buffer),)


def run_format(image, a):
    return format_image(image, int(a[0]), int(a[1]), int(a[2]), int(a[3]), from_hex(a[4]), int(a[5]))


def run_check(image, a):
    return check(image)


def run_insert(image, a):
    return filled(insert(image, from_hex(a[0]), int(a[1]), int(a[2]), int(a[3]), int(a[4]), from_hex(a[5])), 5)


def run_remove(image, a):
    return remove(image, from_hex(a[0]))


def run_find(image, a):
    return filled(find(image, from_hex(a[0])), 3)


def run_climb(image, a):
    return with_buffer(climb, image, (int(a[0]), int(a[1])), int(a[2]))


def run_read(image, a):
    *numbers, content, start = filled(read(image, int(a[0]), int(a[1])), 7)
    return (*numbers, to_hex(content or b""), start)


def run_next(image, a):
    return filled(next_node(image, int(a[0]), int(a[1])), 6)


def run_walk(image, a):
    buffer = [0xa7a7a7a7] * int(a[2])
    answer = filled(walk(image, int(a[0]), int(a[1]), buffer), 5)
    return answer + (to_hex(path_bytes(buffer)),)     # four bytes a number, as in a path


def run_diagnose(image, a):
    return filled(diagnose(image), 4)


def run_records(image, a):
    return with_buffer(records, image, (), int(a[0]))


def run_listing(image, a):
    return (listing(image).encode().hex(),)


RUNS = {"format": run_format, "check": run_check, "insert": run_insert, "remove": run_remove, "find": run_find,
        "climb": run_climb, "read": run_read, "next": run_next, "records": run_records, "listing": run_listing,
        "walk": run_walk, "diagnose": run_diagnose}


def checksum(image):
    return "%08x" % zlib.crc32(image)


def replay(lines):
    """Runs a script. For each call and each C line gives (line number, line, expected, found, image)."""
    image, kept = bytearray(), bytearray()
    call = None
    for number, line in enumerate(lines, 1):
        line = line.rstrip("\n")
        word, *rest = line.split(" ")
        if number == 1:
            if [word] + rest[:2] != ["V", "1", RULES]:
                raise BadScript("not a script of version 1 and rule set " + RULES)
        elif word == "I":
            image = bytearray(int(rest[0]))
        elif word == "B":
            put = from_hex(rest[1])
            image[int(rest[0]):int(rest[0]) + len(put)] = put
        elif word == "C":
            yield number, line, rest, [checksum(image)], image
        elif word == "S":
            kept = bytearray(image)
        elif word == "R":
            image = bytearray(kept)
        elif word == "=":
            answer = RUNS[call[0]](image, call[1:])
            yield number, " ".join(call), rest, [str(field) for field in answer] + [checksum(image)], image
        elif word in RUNS:
            call = [word] + rest
        elif word != "#" and line:
            raise BadScript("line %d: %s" % (number, word))


def replay_file(name):
    calls = differences = 0
    with open(name, encoding="ascii") as script:
        for number, line, expected, found, _ in replay(script):
            calls += not line.startswith("C ")
            if expected != found:
                differences += 1
                print("%s line %d: %.200s" % (name, number, line))
                print("  expected %.200s" % " ".join(expected))
                print("  found    %.200s" % " ".join(found))
    print("%s: %d calls, %d differences" % (name, calls, differences))
    return differences


def main(names):
    if not names:
        print("usage: reference.py SCRIPT..", file=sys.stderr)
        return 2
    differences = 0
    for name in names:
        try:
            differences += replay_file(name)
        except BadScript as bad:
            print("%s: %s" % (name, bad), file=sys.stderr)
            return 2
    return 1 if differences else 0


if __name__ == "__main__":
    sys.exit(main(sys.argv[1:]))
