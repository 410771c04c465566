/* Images for the benchmarks and the stack test, built byte by byte. */
#ifndef IMAGES_H
#define IMAGES_H

#include <stdint.h>
#include <string.h>

static inline void put16(uint8_t *at, unsigned v) {
    at[0] = (uint8_t)(v % 256);
    at[1] = (uint8_t)(v / 256);
}

/* A header with origin 0. */
static inline uint8_t *put_node(uint8_t *at, unsigned kind, unsigned label, unsigned size) {
    at[0] = (uint8_t)kind;
    at[1] = 0;
    put16(at + 2, label);
    put16(at + 4, size);
    return at + 6;
}

static inline uint8_t *put_proxy(uint8_t *at, unsigned page) {
    put16(put_node(at, 3, 0, 8), page);
    return at + 8;
}

static inline void put_trailer(uint8_t *page, unsigned kind, unsigned settled, unsigned used, unsigned holder) {
    page[4080] = (uint8_t)kind;
    page[4081] = (uint8_t)settled;
    put16(page + 4082, used);
    put16(page + 4084, holder);
}

static inline void put_settings(uint8_t *image, unsigned pages) {
    put16(image, pages);
    image[2] = 128;
    put16(image + 4, 409);
    put16(image + 6, 1);
    memset(image + 16, 2, 256);
    put_trailer(image, 2, 0, 272, 0);
}

/* The root's record holds a proxy to each page of a fan, each fan record (a helper) proxies to up to 500 pages, and those hold one helper
 * with seven literals of 520 bytes and one that fills the record. */
static inline void make_full(uint8_t *image, unsigned pages) {
    memset(image, 0, (size_t)pages * 4096);
    put_settings(image, pages);
    unsigned fans = (pages - 2 + 500) / 501, next = 2 + fans;
    uint8_t *root = image + 4096, *at = root + 6;
    for (unsigned f = 0; f < fans; f++) at = put_proxy(at, 2 + f);
    put_node(root, 1, 7, (unsigned)(at - root));
    put_trailer(root, 1, 1, (unsigned)(at - root), 0);
    for (unsigned f = 0; f < fans; f++) {
        uint8_t *fan = image + 4096u * (2 + f);
        at = put_node(put_node(fan, 4, 0, 0), 2, 1, 6);
        for (unsigned k = 0; k < 500 && next < pages; k++, next++) {
            at = put_proxy(at, next);
            uint8_t *page = image + 4096u * next, *in = page + 6;
            for (int i = 0; i < 7; i++) {
                put_node(in, 2, 9, 526);
                memset(in + 6, i + 1, 520);
                in += 526;
            }
            put_node(in, 2, 9, 4080 - (unsigned)(in - page));
            memset(in + 6, 8, 4080 - (size_t)(in + 6 - page));
            put_node(page, 4, 0, 4080);
            put_trailer(page, 1, 0, 4080, 2 + f);
        }
        put_node(fan, 4, 0, (unsigned)(at - fan));
        put_trailer(fan, 1, 0, (unsigned)(at - fan), 1);
    }
}

/* A chain of helper records, each with a proxy to the next, filled by fill(at, bytes left, page), which gives how many
 * bytes it wrote: records nested as deep as can be. */
static inline void make_chain(uint8_t *image, unsigned pages, unsigned (*fill)(uint8_t *, unsigned, unsigned)) {
    memset(image, 0, (size_t)pages * 4096);
    put_settings(image, pages);
    for (unsigned p = 1; p < pages; p++) {
        uint8_t *page = image + 4096u * p, *at = page + 6;
        if (p + 1 < pages) at = put_proxy(at, p + 1);
        at += fill(at, 4080 - (unsigned)(at - page), p);
        put_node(page, p == 1 ? 1 : 4, p == 1 ? 7 : 0, (unsigned)(at - page));
        put_trailer(page, 1, p == 1, (unsigned)(at - page), p - 1);
    }
}

/* Literals of 520 bytes and a last one that fills what is left. */
static inline unsigned fill_literals(uint8_t *at, unsigned left, unsigned page) {
    unsigned n = 0;
    while (left - n > 526 + 6) {
        memset(put_node(at + n, 2, 9, 526), (int)(page % 255 + 1), 520);
        n += 526;
    }
    if (left - n > 526) {
        put_node(at + n, 2, 9, 6);
        n += 6;
    }
    memset(put_node(at + n, 2, 9, left - n), 8, left - n - 6);
    return left;
}

/* Fans on the pages from `page` on: helper records with an empty literal and up to 500 proxies; then the records that they lead to, under helpers, filled
 * by `fill`: so many pages in all. Proxies to the fans are put at `at` in the record on page `holder`; gives where they end, and adds to *shown how many
 * nodes they stand for. */
static inline uint8_t *put_fans(uint8_t *image, unsigned page, unsigned count, unsigned holder, uint8_t *at,
                                unsigned (*fill)(uint8_t *, unsigned, unsigned), uint32_t *shown) {
    unsigned fans = (count + 500) / 501, next = page + fans, end = page + count;
    for (unsigned f = page; f < page + fans; f++) {
        uint8_t *fan = image + 4096u * f, *in = put_node(put_node(fan, 4, 0, 0), 2, 1, 6);
        at = put_proxy(at, f);
        ++*shown;
        for (unsigned k = 0; k < 500 && next < end; k++, next++) {
            in = put_proxy(in, next);
            uint8_t *record = image + 4096u * next;
            unsigned n = 6 + fill(record + 6, 4074, next);
            for (unsigned i = 6; i < n; i += record[i + 4] + 256u * record[i + 5]) ++*shown;
            put_node(record, 4, 0, n);
            put_trailer(record, 1, 0, n, f);
        }
        put_node(fan, 4, 0, (unsigned)(in - fan));
        put_trailer(fan, 1, 0, (unsigned)(in - fan), holder);
    }
    return at;
}

/* An image without a free page: the root begins (or, with `last`, ends) with an aggregate that is the root of the record on page 2 and takes so many
 * records, that one included, under fans; all other pages hold records under fans of the root. Gives the aggregate's child number. */
static inline uint32_t make_branch(uint8_t *image, unsigned pages, unsigned records, int last, unsigned (*fill)(uint8_t *, unsigned, unsigned)) {
    memset(image, 0, (size_t)pages * 4096);
    put_settings(image, pages);
    uint32_t before = 0, inside = 0;
    uint8_t *root = image + 4096, *branch = image + 8192, *at = root + 6, *end = put_fans(image, 3, records - 1, 2, branch + 6, fill, &inside);
    put_node(branch, 1, 9, (unsigned)(end - branch));
    put_trailer(branch, 1, 0, (unsigned)(end - branch), 1);
    if (!last) at = put_proxy(at, 2);
    at = put_fans(image, 2 + records, pages - 2 - records, 1, at, fill, &before);
    if (last) at = put_proxy(at, 2);
    put_node(root, 1, 7, (unsigned)(at - root));
    put_trailer(root, 1, 1, (unsigned)(at - root), 0);
    return last ? before : 0;
}

/* An image with `free` free pages. The root's record begins (or, with `last`, ends) with a proxy to the first of `full` nested records of 4,080
 * bytes, each of which begins with a proxy to the next; if `full` is 0, to one with two nodes. An insert after the first node of the deepest
 * splits all the `full` ones (and none if there are none). All other pages hold records filled by `fill`, under fans of up to 500 proxies.
 * Gives the child number for that insert. */
static inline uint32_t make_nested(uint8_t *image, unsigned pages, unsigned free, unsigned full, int last,
                                   unsigned (*fill)(uint8_t *, unsigned, unsigned)) {
    memset(image, 0, (size_t)pages * 4096);
    put_settings(image, pages);
    uint32_t before = 0;
    unsigned nested = full ? full : 1;
    uint8_t *root = image + 4096, *at = root + 6;
    if (!last) at = put_proxy(at, 2);
    at = put_fans(image, 2 + nested, pages - free - 2 - nested, 1, at, fill, &before);
    if (last) at = put_proxy(at, 2);
    put_node(root, 1, 7, (unsigned)(at - root));
    put_trailer(root, 1, 1, (unsigned)(at - root), 0);
    for (unsigned i = 0; i < nested; i++) {
        uint8_t *page = image + 4096u * (2 + i);
        at = page + 6;
        if (i + 1 < nested) at = put_proxy(at, 3 + i);
        if (full)
            at += fill_literals(at, 4080 - (unsigned)(at - page), i);
        else
            at = put_node(put_node(at, 1, 9, 6), 1, 9, 6);
        put_node(page, 4, 0, (unsigned)(at - page));
        put_trailer(page, 1, 0, (unsigned)(at - page), 1 + i);
    }
    return last ? before + 1 : 1;
}

/* Two empty literals, the fewest nodes of a helper without a proxy: nearly all of the page is zeros past the length used. */
static inline unsigned fill_few(uint8_t *at, unsigned left, unsigned page) {
    (void)left, (void)page;
    put_node(put_node(at, 2, 9, 6), 2, 9, 6);
    return 12;
}

/* 677 aggregates of 6 bytes: the most nodes that have room beside a proxy. */
static inline unsigned fill_small(uint8_t *at, unsigned left, unsigned page) {
    unsigned n = 0;
    (void)left, (void)page;
    for (; n < 6 * 677; n += 6) put_node(at + n, 1, 9, 6);
    return n;
}

/* How many levels the fills below may take: those under the root. */
static unsigned fill_levels = 23;

/* Aggregates of which each is the only child of the last, down to level 24. */
static inline unsigned fill_nested(uint8_t *at, unsigned left, unsigned page) {
    unsigned n = 0;
    (void)page;
    while (n + 6 * fill_levels <= left)
        for (unsigned d = fill_levels; d >= 1; d--, n += 6) put_node(at + n, 1, 9, 6 * d);
    return n;
}

/* Small aggregates, short literals and pairs in an order that no branch predictor knows. */
static inline unsigned fill_mixed(uint8_t *at, unsigned left, unsigned page) {
    unsigned n = 0, seed = page;
    while (n + 24 <= left) {
        seed = seed * 1103515245u + 12345u;
        unsigned r = seed >> 28, z = (seed >> 20) % 13;
        if (r < 5) {
            put_node(at + n, 1, 9, 6);
            n += 6;
        } else if (r < 10) {
            put_node(at + n, 2, 9, 6 + z);
            n += 6 + z;
        } else {
            put_node(put_node(at + n, 1, 9, 12), 1, 9, 6);
            n += 12;
        }
    }
    return n;
}

/* Aggregates that hold the next one and an empty literal behind it. */
static inline unsigned comb(uint8_t *at, unsigned depth) {
    unsigned n = depth ? comb(at + 6, depth - 1) : 0;
    if (depth) put_node(at + 6 + n, 2, 9, 6);
    n += depth ? 12 : 6;
    put_node(at, 1, 9, n);
    return n;
}

static inline unsigned fill_combs(uint8_t *at, unsigned left, unsigned page) {
    unsigned n = 0;
    (void)page;
    while (n + (fill_levels - 1) * 12 + 6 <= left) n += comb(at + n, fill_levels - 1);
    return n;
}

/* Aggregates that hold one empty literal. */
static inline unsigned fill_pairs(uint8_t *at, unsigned left, unsigned page) {
    unsigned n = 0;
    (void)page;
    for (; n + 12 <= left; n += 12) put_node(put_node(at + n, 1, 9, 12), 2, 9, 6);
    return n;
}

/* Literals of 10 to 12 bytes in a random order: the image on which counting all siblings anew would cost most beside the check. */
static inline unsigned fill_short(uint8_t *at, unsigned left, unsigned page) {
    unsigned n = 0, seed = page;
    while (n + 12 <= left) {
        seed = seed * 1103515245u + 12345u;
        unsigned size = 10 + (seed >> 16) % 3;
        memset(put_node(at + n, 2, 9, size), 8, size - 6);
        n += size;
    }
    return n;
}

/* The fills by name. */
static const struct {
    const char *name;
    unsigned (*fill)(uint8_t *, unsigned, unsigned);
} fills[] = {{"full records", fill_literals}, {"6-byte nodes", fill_small}, {"nested nodes", fill_nested},
             {"mixed nodes", fill_mixed},     {"combs", fill_combs},       {"pairs", fill_pairs},
             {"short literals", fill_short}};

/* Those of which chains are made, by name. */
static const struct {
    const char *name;
    unsigned (*fill)(uint8_t *, unsigned, unsigned);
} chains[] = {{"6-byte nodes", fill_small}, {"nested nodes", fill_nested}, {"mixed nodes", fill_mixed},
              {"combs", fill_combs}, {"pairs", fill_pairs}, {"few nodes", fill_few}, {"short literals", fill_short}};

#endif
