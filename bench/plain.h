/* A plain check of the same rules, as a C programmer would write it; not proved. */
#ifndef PLAIN_H
#define PLAIN_H

#include <stddef.h>
#include <stdint.h>
#include <string.h>

static inline unsigned get16(const uint8_t *p) { return p[0] + 256u * p[1]; }

struct plain {
    const uint8_t *image;
    unsigned pages, left;
    uint8_t seen[1024];
};

static int plain_zero(const uint8_t *p, size_t n) { return !n || (!p[0] && !memcmp(p, p + 1, n - 1)); }

static int plain_list(struct plain *c, const uint8_t *p, const uint8_t *end, unsigned page, unsigned level);

static int plain_record(struct plain *c, unsigned page, unsigned holder, unsigned level) {
    const uint8_t *p = c->image + 4096u * page;
    unsigned used = get16(p + 4082);
    if (p[4080] != 1 || get16(p + 4084) != holder || used < 6) return 0;
    if (p[1] > 3 || get16(p + 4) != used) return 0;
    if (p[0] == 4) {
        if (p[4081] || p[1] || get16(p + 2) || used < 12) return 0;
        unsigned first = get16(p + 10);
        if (first < 6 || 6 + first >= used) return 0;
        return plain_list(c, p + 6, p + used, page, level);
    }
    if (level > 24) return 0;
    if (p[0] == 2) return used <= 526;
    return p[0] == 1 && plain_list(c, p + 6, p + used, page, level + 1);
}

static int plain_list(struct plain *c, const uint8_t *p, const uint8_t *end, unsigned page, unsigned level) {
    while (p < end) {
        if (end - p < 6) return 0;
        unsigned n = get16(p + 4);
        if (n < 6 || n > (size_t)(end - p) || p[1] > 3) return 0;
        if (p[0] == 3) {
            if (n != 8 || p[1] || get16(p + 2)) return 0;
            unsigned q = get16(p + 6);
            if (q < 2 || q >= c->pages || c->seen[q]) return 0;
            c->seen[q] = 1;
            c->left--;
            if (!plain_record(c, q, page, level)) return 0;
        } else {
            if (level > 24) return 0;
            if (p[0] == 2) {
                if (n > 526) return 0;
            } else if (p[0] != 1 || !plain_list(c, p + 6, p + n, page, level + 1))
                return 0;
        }
        p += n;
    }
    return 1;
}

static unsigned plain_check(const uint8_t *image, size_t len) {
    struct plain c = {image, (unsigned)(len / 4096), 0, {0}};
    if (len % 4096 || c.pages < 2 || c.pages > 1024) return 1;
    if (get16(image) != c.pages || image[2] < 64 || image[2] > 192 || image[3] || get16(image + 4) > 512 || get16(image + 6) != 1) return 3;
    for (int i = 16; i < 272; i++)
        if (image[i] != 0 && image[i] != 2) return 3;
    if (!plain_zero(image + 8, 8) || !plain_zero(image + 272, 3808) || get16(image + 4080) != 2 ||
        get16(image + 4082) != 272 || !plain_zero(image + 4084, 12)) return 3;
    for (unsigned q = 1; q < c.pages; q++) {
        const uint8_t *p = image + 4096u * q;
        if (p[4080] == 0) {
            if (q == 1 || !plain_zero(p, 4096)) return 3;
            continue;
        }
        unsigned used = get16(p + 4082);
        if (p[4080] != 1 || p[4081] > 1 || used > 4080 || !plain_zero(p + used, 4080 - used) || !plain_zero(p + 4086, 10)) return 3;
        c.left += q > 1;
    }
    if (image[4096 + 4081] != 1 || image[4096] != 1) return 3;
    return plain_record(&c, 1, 0, 1) && c.left == 0 ? 0 : 3;
}

#endif
