/* Find, climb, next and insert on the same format, as a C programmer would write them; not proved. Like the library, each call checks the image first.
 * What they are made of, and the removal, do not: the image passes. Answers are positions in the image (page * 4096 + offset); 0 stands for none or refused. */
#ifndef CALLS_H
#define CALLS_H

#include <string.h>

#include "images.h"
#include "plain.h"

static inline uint32_t get32(const uint8_t *p) { return p[0] | (uint32_t)p[1] << 8 | (uint32_t)p[2] << 16 | (uint32_t)p[3] << 24; }

/* The row of the record on a page. */
static size_t row_of(const uint8_t *image, unsigned page, size_t *end) {
    size_t a = 4096u * (size_t)page;
    *end = a + get16(image + a + 4082);
    return image[a] == 4 ? a + 6 : a;
}

static uint32_t width_of(const uint8_t *image, size_t at, size_t end) {
    uint32_t n = 0;
    for (; at < end; at += get16(image + at + 4))
        if (image[at] == 3) {
            size_t stop, start = row_of(image, get16(image + at + 6), &stop);
            n += width_of(image, start, stop);
        } else
            n++;
    return n;
}

/* Node k of those that a row shows; if there is none, *k is how many are missing. */
static size_t nth_of(const uint8_t *image, size_t at, size_t end, uint32_t *k) {
    for (; at < end; at += get16(image + at + 4))
        if (image[at] == 3) {
            size_t stop, start = row_of(image, get16(image + at + 6), &stop), found = nth_of(image, start, stop, k);
            if (found) return found;
        } else if (!(*k)--) {
            return at;
        }
    return 0;
}

static size_t walk_path(const uint8_t *image, const uint8_t *path, size_t len) {
    size_t at = 4096;
    for (size_t i = 0; i < len; i += 4) {
        uint32_t k = get32(path + i);
        if (image[at] != 1) return 0;
        at = nth_of(image, at + 6, at + get16(image + at + 4), &k);
        if (!at) return 0;
    }
    return at;
}

static size_t proxy_to(const uint8_t *image, unsigned holder, unsigned page) {
    size_t end, at = row_of(image, holder, &end);
    while (image[at] != 3 || get16(image + at + 6) != page) at += image[at] == 1 ? 6 : get16(image + at + 4);
    return at;
}

static inline size_t plain_find(const uint8_t *image, size_t len, const uint8_t *path, size_t path_len) {
    if (plain_check(image, len) || path_len > 92 || path_len % 4) return 0;
    return walk_path(image, path, path_len);
}

static inline size_t plain_next(const uint8_t *image, size_t len, size_t at) {
    if (plain_check(image, len)) return 0;
    unsigned page = (unsigned)(at / 4096);
    size_t end;
    row_of(image, page, &end);
    at += image[at] == 1 ? 6 : get16(image + at + 4);
    while (at == end) {
        if (page == 1) return 0;
        unsigned holder = get16(image + 4096u * (size_t)page + 4084);
        at = proxy_to(image, holder, page) + 8;
        row_of(image, page = holder, &end);
    }
    while (image[at] == 3) at = row_of(image, get16(image + at + 6), &end);
    return at;
}

/* The path of the node at a position, written before path + *start. */
static void trace_up(const uint8_t *image, size_t at, size_t target, uint32_t carry, uint8_t *path, size_t *start, uint32_t *index) {
    uint32_t n = 0;
    while (at + get16(image + at + 4) <= target) {
        if (image[at] == 3) {
            size_t stop, from = row_of(image, get16(image + at + 6), &stop);
            n += width_of(image, from, stop);
        } else
            n++;
        at += get16(image + at + 4);
    }
    *index = n + carry;
    if (at == target) return;
    trace_up(image, at + 6, target, carry, path, start, index);
    *start -= 4;
    for (int i = 0; i < 4; i++) path[*start + (size_t)i] = (uint8_t)(*index >> (8 * i));
    *index = n;
}

static inline size_t plain_climb(const uint8_t *image, size_t len, size_t at, uint8_t *path) {
    if (plain_check(image, len)) return 0;
    uint8_t whole[92];
    size_t start = 92, end;
    uint32_t carry = 0;
    for (unsigned page = (unsigned)(at / 4096);;) {
        trace_up(image, row_of(image, page, &end), at, carry, whole, &start, &carry);
        if (page == 1) break;
        unsigned holder = get16(image + 4096u * (size_t)page + 4084);
        at = proxy_to(image, holder, page);
        page = holder;
    }
    memcpy(path, whole + start, 92 - start);
    return 92 - start;
}

/* ── insert ── */

struct growing {
    uint8_t *image, changed[1024]; /* what becomes of a page: a dry insert writes nothing */
    unsigned pages, target, tolerance;
    int dry, full;
};

enum { TAKEN = 1, FREED = 2 };

static unsigned free_page(struct growing *g, unsigned near) {
    unsigned q = near;
    for (unsigned n = g->pages; n; n--, q = q + 1 < g->pages ? q + 1 : 2)
        if (q < g->pages && (g->changed[q] ? g->changed[q] == FREED : !g->image[4096u * (size_t)q + 4080])) {
            g->changed[q] = TAKEN;
            return q;
        }
    g->full = 1;
    return 0;
}

static void set_links(struct growing *g, const uint8_t *row, size_t len, unsigned page) {
    for (size_t i = 0; i < len; i += row[i] == 1 || row[i] == 4 ? 6 : get16(row + i + 4))
        if (row[i] == 3) put16(g->image + 4096u * (size_t)get16(row + i + 6) + 4084, page);
}

static void put_page(struct growing *g, unsigned page, const uint8_t *content, size_t len, unsigned settled, unsigned holder) {
    uint8_t *p = g->image + 4096u * (size_t)page;
    if (g->dry) return;
    memcpy(p, content, len);
    memset(p + len, 0, 4096 - len);
    put_trailer(p, 1, settled, (unsigned)len, holder);
    set_links(g, content, len, page);
}

static size_t put_part(struct growing *g, const uint8_t *part, size_t len, unsigned near, uint8_t *out) {
    if (!len || (len == 8 && part[0] == 3)) {
        memcpy(out, part, len);
        return len;
    }
    unsigned q = free_page(g, near);
    if (get16(part + 4) == len)
        put_page(g, q, part, len, 0, 0);
    else {
        uint8_t helper[4096];
        memcpy(put_node(helper, 4, 0, (unsigned)len + 6), part, len);
        put_page(g, q, helper, len + 6, 0, 0);
    }
    put_proxy(out, q);
    return 8;
}

static size_t split_row(struct growing *g, const uint8_t *buf, size_t at, size_t end, size_t p, unsigned near, uint8_t *out) {
    size_t x = at, n;
    for (size_t next; (next = x + get16(buf + x + 4)) < end && next <= p;) x = next;
    n = put_part(g, buf + at, x - at, near, out);
    unsigned size = get16(buf + x + 4);
    if (buf[x] != 1 || size <= 6 || size < g->tolerance) return n + put_part(g, buf + x, end - x, near, out + n);
    memcpy(out + n, buf + x, 6);
    size_t inner = 6 + split_row(g, buf, x + 6, x + size, p, near, out + n + 6);
    put16(out + n + 4, (unsigned)inner);
    return n + inner + put_part(g, buf + x + size, end - x - size, near, out + n + inner);
}

/* The record with `gone` bytes at `at` replaced; the nodes around it grow. */
static size_t splice_in(const uint8_t *rec, size_t len, size_t at, size_t gone, const uint8_t *new, size_t n, size_t holder, uint8_t *out) {
    memcpy(out, rec, at);
    memcpy(out + at, new, n);
    memcpy(out + at + n, rec + at + gone, len - at - gone);
    put16(out + 4, get16(rec + 4) + (unsigned)(n - gone));
    for (size_t i = 6; i <= holder;) {
        unsigned size = get16(rec + i + 4);
        if (holder < i + size) {
            put16(out + i + 4, size + (unsigned)(n - gone));
            i += 6;
        } else
            i += size;
    }
    return len + n - gone;
}

static size_t around(const uint8_t *rec, size_t at) {
    size_t holder = 0;
    for (size_t i = 6; i < at;) {
        unsigned size = get16(rec + i + 4);
        if (at < i + size) {
            holder = i;
            i += 6;
        } else
            i += size;
    }
    return holder;
}

/* The nearest whole number to n / 256, at a half the even one: what is added carries past a half, and at a half where n / 256 is odd. */
static size_t nearest(size_t n) { return (n + 127 + n / 256 % 2) / 256; }

static int grow_up(struct growing *g, unsigned page, uint8_t *buf, size_t len) {
    for (int splits = 0;; splits++) {
        uint8_t *p = g->image + 4096u * (size_t)page, sep[600], next[4700];
        unsigned settled = p[4081], holder = get16(p + 4084);
        if (len <= 4080) {
            put_page(g, page, buf, len, settled, holder);
            return splits;
        }
        if (!settled) {
            g->changed[page] = FREED;
            if (!g->dry) memset(p, 0, 4096);
        }
        size_t n = buf[0] == 1 ? 6 : 0;
        memcpy(sep, buf, n);
        n += split_row(g, buf, 6, len, nearest(g->target * len), page, sep + n);
        if (buf[0] == 1) put16(sep + 4, (unsigned)n);
        if (settled) {
            put_page(g, page, sep, n, 1, holder);
            return splits + 1;
        }
        const uint8_t *rec = g->image + 4096u * (size_t)holder;
        size_t at = proxy_to(g->image, holder, page) - 4096u * (size_t)holder;
        len = splice_in(rec, get16(rec + 4082), at, 8, sep, n, around(rec, at), next);
        memcpy(buf, next, len);
        page = holder;
    }
}

/* Step 1 of growth before E5 looked at no right sibling; only fill.c, which compares the two, sets this. */
static int left_sibling_only;

/* Directly after a sibling, or before it; if it is a record's root, after or before its proxy. */
static size_t beside(const uint8_t *image, size_t sibling, int after) {
    if (sibling % 4096 == 0) sibling = proxy_to(image, get16(image + sibling + 4084), (unsigned)(sibling / 4096));
    return after ? sibling + get16(image + sibling + 4) : sibling;
}

static unsigned unused_at(const uint8_t *image, size_t spot) { return 4080 - get16(image + spot / 4096 * 4096 + 4082); }

/* Step 1 of growth: where child number `child` of the parent goes, or 0 if that leaves a gap. */
static size_t spot_of(const uint8_t *image, size_t parent, uint32_t child) {
    size_t row = parent + 6, end = parent + get16(image + parent + 4), left = 0, right = 0, after, before;
    uint32_t k = child - 1, n = child;
    if (child && !(left = nth_of(image, row, end, &k))) return 0;
    if (!left_sibling_only) right = nth_of(image, row, end, &n);
    after = left ? beside(image, left, 1) : row;
    if (!right) return after;
    before = beside(image, right, 0);
    return !left || unused_at(image, before) > unused_at(image, after) ? before : after;
}

static unsigned class_of(unsigned label) { return label < 15 ? label : 15; }

/* One insert at a spot below the parent; if it is dry, nothing is written, and one learns whether a page is missing. Gives the number of splits. */
static int plain_once(uint8_t *image, size_t len, size_t parent, size_t goes, const uint8_t *node, size_t size, int dry, int *full) {
    struct growing g = {image, {0}, (unsigned)(len / 4096), image[2], get16(image + 4), dry, 0};
    uint8_t buf[4700], proxy[8];
    unsigned page = (unsigned)(goes / 4096);
    if (!image[16 + 16 * class_of(get16(image + parent + 2)) + class_of(get16(node + 2))]) {
        unsigned q = free_page(&g, page);
        put_page(&g, q, node, size, 1, page);
        put_proxy(proxy, q);
        node = proxy;
        size = 8;
    }
    const uint8_t *rec = image + 4096u * (size_t)page;
    size_t used = splice_in(rec, get16(rec + 4082), goes % 4096, 0, node, size, parent / 4096 == page ? parent % 4096 : 0, buf);
    int splits = grow_up(&g, page, buf, used);
    *full = g.full;
    return splits;
}

/* The number of splits, or -1 if refused; the new node's position. */
static inline int plain_insert(uint8_t *image, size_t len, const uint8_t *path, size_t path_len, uint32_t child, unsigned kind, unsigned origin,
                               unsigned label, const uint8_t *content, size_t content_len, size_t *place) {
    uint8_t node[526], whole[92];
    size_t parent, goes;
    int full, splits;
    if (plain_check(image, len) || path_len > 88 || path_len % 4 || origin > 3 || content_len > 520) return -1;
    parent = walk_path(image, path, path_len);
    if (!parent || image[parent] != 1) return -1;
    goes = spot_of(image, parent, child);
    if (!goes) return -1;
    memcpy(put_node(node, kind, label, (unsigned)content_len + 6), content, content_len);
    node[1] = (uint8_t)origin;
    plain_once(image, len, parent, goes, node, content_len + 6, 1, &full);
    if (full) return -1;
    splits = plain_once(image, len, parent, goes, node, content_len + 6, 0, &full);
    memcpy(whole, path, path_len);
    for (int i = 0; i < 4; i++) whole[path_len + (size_t)i] = (uint8_t)(child >> (8 * i));
    *place = walk_path(image, whole, path_len + 4);
    return splits;
}

/* ── remove ── */

/* Frees the records of the proxies in these bytes, and all below them. */
static inline void free_below(uint8_t *image, size_t at, size_t end) {
    for (; at < end; at += image[at] == 1 ? 6 : get16(image + at + 4))
        if (image[at] == 3) {
            unsigned page = get16(image + at + 6);
            size_t stop, row = row_of(image, page, &stop);
            free_below(image, row, stop);
            memset(image + 4096u * (size_t)page, 0, 4096);
        }
}

/* Removes the node at a position. */
static inline void drop_node(uint8_t *image, size_t at) {
    uint8_t next[4096];
    free_below(image, at, at + get16(image + at + 4));
    if (at % 4096 == 0) {
        size_t proxy = proxy_to(image, get16(image + at + 4084), (unsigned)(at / 4096));
        memset(image + at, 0, 4096);
        at = proxy;
    }
    uint8_t *rec = image + at / 4096 * 4096;
    size_t from = at % 4096, used = splice_in(rec, get16(rec + 4082), from, get16(image + at + 4), rec, 0, around(rec, from), next);
    unsigned page = (unsigned)(at / 4096), holder = get16(rec + 4084);
    size_t helper = next[0] == 4 && 6 + get16(next + 10) == used ? 6 : 0; /* left with one child */
    if (helper && next[6] == 3) {
        unsigned child = get16(next + 12);
        put16(image + proxy_to(image, holder, page) + 6, child);
        put16(image + 4096u * (size_t)child + 4084, holder);
        memset(rec, 0, 4096);
        return;
    }
    used -= helper;
    memcpy(rec, next + helper, used);
    memset(rec + used, 0, 4080 - used);
    put16(rec + 4082, (unsigned)used);
}

#endif
