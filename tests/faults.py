"""Images that are broken in a known way, made from an image that passes the check: each with what diagnose must say of it.

variants(rng, image) gives pairs of an image and (stage, page, reason). An image that lacks what a fault needs, a free page or a proxy, say, has
fewer. What is said comes from how the image was made; so these pairs test the reference too.
"""

import reference as ref


def variants(rng, image):
    found = []
    for maker in (unformatted, settings, trailers, free_pages, stage_two_order, past_length, nodes, roots, helpers, levels, links, cycles, unreached,
                  record_order, walk_order):
        found += [pair for pair in maker(rng, image) if pair]
    return found


# ---- What the makers are made of

def page_numbers(image, kind):
    """The pages from 1 on whose trailers say so."""
    return [number for number in range(1, len(image) // ref.PAGE) if ref.trailer_of(image, number)[0] == kind]


def with_bytes(image, at, *values):
    other = bytearray(image)
    other[at:at + len(values)] = bytes(values)
    return other


def with_two(image, at, value):
    return with_bytes(image, at, *ref.two_bytes(value))


def with_page(image, number, page):
    other = bytearray(image)
    ref.put_page(other, number, page)
    return other


def any_records(rng, image):
    """The image with any bytes in the place of its records: the part before the walk must not tell them apart."""
    other = bytearray(image)
    for number in range(1, len(image) // ref.PAGE):
        if ref.trailer_of(image, number)[0] != ref.FREE:
            at = number * ref.PAGE
            other[at:at + ref.CAPACITY] = rng.randbytes(ref.CAPACITY)
    return other


def before_walk(rng, image, *fault):
    """A fault of stage 1 or 2: what the records hold must not matter."""
    return (any_records(rng, image) if rng.random() < 0.5 else image), fault


def changed(image, record, change):
    """The image after a change to the nodes of a record that no rule restrains, or None where it gets too long."""
    store = ref.read_store(image)
    record = store.records[record.page]
    change(store, record)
    if ref.size(record.root) > ref.CAPACITY:
        return None
    other = bytearray(image)
    store.changed = {record.page}
    ref.write_changes(store, other)
    return other


def proxy_to(page, record):
    """A proxy that names a page, whatever is there; its back link stays as it is."""
    return ref.Node(ref.PROXY, record=ref.Record(page, False, None, record))


def record_page(back, root, settled=0):
    return ref.page_bytes(ref.RECORD, settled, ref.node_bytes(root), back)


def literal(content=b"", origin=0):
    return ref.Node(ref.LITERAL, 9, content, origin=origin)


def starts(image, kinds):
    """Where nodes of these kinds start, by page."""
    return [(page, at) for page in page_numbers(image, ref.RECORD) for at in ref.headers(image, page) if image[at] in kinds]


# ---- Stages 1 and 2

def unformatted(rng, image):
    """The whole image, or page 0, is one byte; then all but one byte of page 0 is."""
    for byte, other in (b"\x00", b"\x01"), (b"\xff", b"\xfe"):
        blank = bytearray(byte * len(image))
        yield blank, (1, 0, ref.NEVER_FORMATTED)
        yield before_walk(rng, with_page(image, 0, byte * ref.PAGE), 1, 0, ref.NEVER_FORMATTED)
        for at in 0, rng.randrange(ref.PAGE), ref.PAGE - 1:
            yield with_bytes(blank, at, *other), (1, 0, ref.WRONG_SETTINGS)


def settings(rng, image):
    """A field of page 0 just out of its range."""
    pages = len(image) // ref.PAGE
    end = ref.CAPACITY
    fields = [(0, pages + 1), (0, pages - 1), (2, 63), (2, 193), (2, 128 + 256), (4, 513), (6, 0), (6, 2), (8 + rng.randrange(7), 256), (end, 0), (end, 1),
              (end, 258), (end + 2, 271), (end + 2, 273), (end + 4 + rng.randrange(11), 1), (16 + rng.randrange(255), 1), (16 + rng.randrange(255), 514 + 256),
              (ref.SETTINGS_LENGTH + rng.randrange(3807), 1)]
    for at, value in rng.sample(fields, 3):
        yield before_walk(rng, with_two(image, at, value), 1, 0, ref.WRONG_SETTINGS)


def trailer_faults(rng, image, number):
    """The trailer of a page with one field wrong."""
    pages, end = len(image) // ref.PAGE, number * ref.PAGE + ref.CAPACITY
    zeros = with_bytes(image, end + rng.randrange(6, 16), rng.randrange(1, 256))
    if image[end] == ref.FREE:
        return [zeros, with_bytes(image, end, rng.randrange(1, 256)), with_bytes(image, end + rng.randrange(1, 6), rng.randrange(1, 256))]
    links = (rng.randrange(1, 65536),) if number == 1 else (0, number, pages, 65535)
    settled = (0, 2, 255) if number == 1 else (2, 255)
    return ([zeros, with_bytes(image, end, rng.choice((0, 2, 255))), with_bytes(image, end + 1, rng.choice(settled))]
            + [with_two(image, end + 2, used) for used in (0, 5, 4081, 65535)] + [with_two(image, end + 4, link) for link in links])


def trailers(rng, image):
    for number in range(1, len(image) // ref.PAGE):
        for other in rng.sample(trailer_faults(rng, image, number), 2):
            yield before_walk(rng, other, 2, number, ref.TRAILER)


def free_pages(rng, image):
    for number in page_numbers(image, ref.FREE)[:2]:
        at = number * ref.PAGE + rng.choice((0, 5, rng.randrange(ref.CAPACITY), ref.CAPACITY - 1))
        yield before_walk(rng, with_bytes(image, at, rng.randrange(1, 256)), 2, number, ref.NOT_ZERO)


def stage_two_order(rng, image):
    """Two faults: that of the first page is told, and on one page that of the trailer."""
    free = page_numbers(image, ref.FREE)
    if free:
        number = free[0]
        hurt = with_bytes(image, number * ref.PAGE + rng.randrange(ref.CAPACITY), 7)
        yield before_walk(rng, rng.choice(trailer_faults(rng, hurt, number)), 2, number, ref.TRAILER)
        for other in range(1, len(image) // ref.PAGE):
            fault = (number, ref.NOT_ZERO) if number < other else (other, ref.TRAILER)
            yield before_walk(rng, rng.choice(trailer_faults(rng, hurt, other)), 2, *fault)


# ---- Stage 3

def past_length(rng, image):
    for number in page_numbers(image, ref.RECORD)[:3]:
        used = ref.two(ref.trailer_of(image, number), 2)
        if used < ref.CAPACITY:
            at = rng.choice((used, rng.randrange(used, ref.CAPACITY), ref.CAPACITY - 1))
            yield with_bytes(image, number * ref.PAGE + at, rng.randrange(1, 256)), (3, number, ref.PAST_LENGTH)


def nodes(rng, image):
    """A header of each kind with a field wrong."""
    for kind in ref.AGGREGATE, ref.LITERAL, ref.PROXY, ref.HELPER:
        found = starts(image, (kind,))
        if found:
            page, at = rng.choice(found)
            hurt = [with_bytes(image, at, rng.choice((0, 5, 255))), with_bytes(image, at + 1, rng.randrange(4, 256)), with_two(image, at + 4, rng.randrange(6))]
            if kind in (ref.PROXY, ref.HELPER):
                hurt += [with_bytes(image, at + rng.choice((1, 2, 3)), rng.randrange(1, 4))]
            if kind == ref.PROXY:
                hurt += [with_two(image, at + 4, size) for size in (7, 9)]
            for other in rng.sample(hurt, 2):
                yield other, (3, page, ref.WRONG_NODE)


def roots(rng, image):
    """A record's root that is smaller or bigger than its length used; a literal on page 1; a proxy as a root; a literal of 521 bytes."""
    store = ref.read_store(image)
    for number in page_numbers(image, ref.RECORD)[:3]:
        at = number * ref.PAGE
        yield with_two(image, at + 4, ref.two(image, at + 4) + rng.choice((-1, 1))), (3, number, ref.WRONG_NODE)
        proxy = record_page(ref.two(image, at + ref.CAPACITY + 4), proxy_to(number + 1, None), int(number == 1))
        yield with_page(image, number, proxy), (3, number, ref.WRONG_NODE)
    yield with_bytes(image, ref.PAGE, ref.LITERAL), (3, 1, ref.WRONG_NODE)
    other = changed(image, store.records[1], lambda _, record: record.root.children.append(literal(bytes(ref.CONTENT + 1))))
    yield other and (other, (3, 1, ref.WRONG_NODE))


def cut_children(image, record, left):
    def cut(_, own):
        own.root.children = own.root.children[:left]
    return changed(image, record, cut)


def helpers(rng, image):
    """A helper that is settled, one with a child or none, and one whose first child goes beyond its end."""
    for record in ref.read_store(image).records.values():
        if record.root.kind == ref.HELPER:
            at = record.page * ref.PAGE
            hurt = [with_bytes(image, at + ref.CAPACITY + 1, 1), cut_children(image, record, 0), cut_children(image, record, 1),
                    with_two(image, at + ref.HEADER + 4, ref.CAPACITY)]
            yield rng.choice(hurt), (3, record.page, ref.WRONG_NODE)


def chain(length, last):
    """Aggregates in one another, so many, the last with this node in it."""
    return ref.Node(ref.AGGREGATE, 9, children=[chain(length - 1, last)]) if length else last


def levels(rng, image):
    """Below some aggregate so many more that a node is at level 24, or at 25: it stands in the record itself, in another, or under a helper there."""
    entries = [e for e in ref.document_order(ref.read_store(image)) if e.node.kind == ref.AGGREGATE]
    free = page_numbers(image, ref.FREE)
    for level in ref.LEVELS, ref.LEVELS + 1:
        entry = rng.choice(entries)
        own = len(entry.path) + 1
        if own >= level:
            continue
        page = entry.record.page
        for root in [None] + [rng.choice((literal(), ref.Node(ref.AGGREGATE, 9))), ref.Node(ref.HELPER, children=[literal(), literal()])] * bool(free):
            last = rng.choice((literal(), ref.Node(ref.AGGREGATE, 9))) if root is None else proxy_to(free[0], entry.record)
            other = below(image, entry, chain(level - own - 1, last))
            wrong = root is None and below(image, entry, chain(level - own - 1, literal(origin=4)))
            yield wrong and (wrong, (3, page, ref.WRONG_NODE))
            if other and root is not None:
                other = with_page(other, free[0], record_page(page, root))
            yield other and (other, (0, 0, 0) if level == ref.LEVELS else (3, page if root is None else free[0], ref.WRONG_LEVEL))


def below(image, entry, node):
    """The image with a node in front of an aggregate's children."""
    def put(store, record):
        parent = next(e.node for e in ref.document_order(store) if e.path == entry.path)
        parent.children.insert(0, node)
    return changed(image, entry.record, put)


def links(rng, image):
    """Proxies that name another page, back links that name another record, and two proxies to a record."""
    pages, free = len(image) // ref.PAGE, page_numbers(image, ref.FREE)
    proxies = starts(image, (ref.PROXY,))
    for page, at in rng.sample(proxies, min(2, len(proxies))):
        named = ref.two(image, at + 6)
        for other in rng.sample([0, 1, page, pages, pages + 1, 65535, rng.randrange(2, pages)] + free[:1], 3):
            if other != named:
                yield with_two(image, at + 6, other), (3, page, ref.LINK)
        back = rng.choice([number for number in range(1, pages) if number != named])
        if back != page:
            yield with_two(image, named * ref.PAGE + ref.CAPACITY + 4, back), (3, page, ref.LINK)
        record = ref.read_store(image).records[page]
        other = changed(image, record, lambda _, own, named=named: own.root.children.append(proxy_to(named, own)))
        yield other and (other, (3, page, ref.LINK))


def cycles(rng, image):
    """A record with a proxy to one that holds it; the back link is that of the true proxy, or of this one."""
    for record in ref.read_store(image).records.values():
        above = [record]
        while above[-1].holder:
            above.append(above[-1].holder)
        if record.page == 1 or record.root.kind == ref.LITERAL:
            continue
        held = rng.choice(above[:-1])
        other = changed(image, record, lambda _, own, page=held.page: own.root.children.append(proxy_to(page, own)))
        if other:
            yield other, (3, record.page, ref.LINK)
            if held is not record:
                yield with_two(other, held.page * ref.PAGE + ref.CAPACITY + 4, record.page), (3, held.holder.page, ref.LINK)


def unreached(rng, image):
    """A record without its proxy; one on a free page, also with any bytes; two that hold each other's proxies."""
    for record in ref.read_store(image).records.values():
        gone = [node for node in record.root.children if node.kind == ref.PROXY]
        if gone and (record.root.kind == ref.AGGREGATE or len(record.root.children) > 2):
            node = rng.choice(gone)
            other = changed(image, record, lambda _, own, at=record.root.children.index(node): own.root.children.pop(at))
            yield other, (3, min(lost.page for lost in ref.records_below(node)), ref.NOT_REACHED)
    free = page_numbers(image, ref.FREE)
    for number in free[:1]:
        page = record_page(1, ref.Node(ref.AGGREGATE, 9), rng.randrange(2))
        other = with_page(image, number, page)
        yield other, (3, number, ref.NOT_REACHED)
        yield with_bytes(other, number * ref.PAGE, *rng.randbytes(ref.CAPACITY)), (3, number, ref.NOT_REACHED)
    if len(free) > 1:
        one, two = rng.sample(free, 2)
        other = with_page(image, one, record_page(two, ref.Node(ref.AGGREGATE, 9, children=[proxy_to(two, None)])))
        other = with_page(other, two, record_page(one, ref.Node(ref.AGGREGATE, 9, children=[proxy_to(one, None)])))
        yield other, (3, min(one, two), ref.NOT_REACHED)


# ---- Two faults in stage 3: which is told

def with_past(rng, image, number):
    """A byte past the length of a record, or None where there is no room."""
    used = ref.two(ref.trailer_of(image, number), 2)
    return with_bytes(image, number * ref.PAGE + rng.randrange(used, ref.CAPACITY), rng.randrange(1, 256)) if used < ref.CAPACITY else None


def record_order(rng, image):
    """A record with bytes past its length: its root's kind is looked at before them, all else after. A proxy's header is looked at before its page, and
    that before the record there."""
    for number in page_numbers(image, ref.RECORD)[:3]:
        hurt, at = with_past(rng, image, number), number * ref.PAGE
        if hurt:
            if number == 1:
                yield with_bytes(hurt, at, rng.choice((0, 2, 4, 5))), (3, 1, ref.WRONG_NODE)
            elif hurt[at] == ref.HELPER:
                yield with_bytes(hurt, at + ref.CAPACITY + 1, 1), (3, number, ref.WRONG_NODE)
            yield with_two(hurt, at + 4, rng.choice((0, ref.two(hurt, at + 4) + 1, 65535))), (3, number, ref.PAST_LENGTH)
            yield with_bytes(hurt, rng.choice(list(ref.headers(image, number))) + 1, 4), (3, number, ref.PAST_LENGTH)
    for page, at in starts(image, (ref.PROXY,))[:2]:
        named = ref.two(image, at + 6)
        yield with_bytes(with_two(image, at + 6, 0), at + 2, 1), (3, page, ref.WRONG_NODE)
        yield with_bytes(with_two(image, at + 6, 0), named * ref.PAGE, 0), (3, page, ref.LINK)


def walk_order(rng, image):
    """The record that is entered first, not that on the first page; and one whose proxy stands before a wrong node."""
    entered = list(ref.read_store(image).records.values())
    pages = [record.page for record in entered if ref.size(record.root) < ref.CAPACITY]
    if len(pages) > 1:
        one, two = sorted(rng.sample(range(len(pages)), 2))
        yield with_past(rng, with_past(rng, image, pages[one]), pages[two]), (3, pages[one], ref.PAST_LENGTH)
    for record in entered:
        if record.holder and record.page in pages:
            hurt = changed(image, record.holder, lambda _, own: own.root.children.append(literal(origin=4)))
            yield hurt and (with_past(rng, hurt, record.page), (3, record.page, ref.PAST_LENGTH))
