/* A removal from a 4 MB image against the check of the same image, side by side in one run; beside it the zeroing of the freed pages alone. */
#include <stdio.h>
#include <stdlib.h>

#include "../include/nichelarder.h"
#include "images.h"
#include "timing.h"

enum { PAGES = 1024, LEN = 4194304 };

/* The pages that have a record in the image and none in the copy. */
static unsigned freed_pages(const uint8_t *image, const uint8_t *copy, unsigned *freed) {
    unsigned n = 0;
    for (unsigned p = 2; p < PAGES; p++)
        if (image[4096u * p + 4080] != copy[4096u * p + 4080]) freed[n++] = p;
    return n;
}

/* One row, medians: each on a fresh copy of the image, in turns; the copy is not timed. The ratios are those of a turn; `least` is what the check and the
 * zeroing in C take, over the check. */
static int row(const char *name, const char *where, const uint8_t *image, uint8_t *copy, uint32_t child, unsigned records) {
    double check[TIMES], removal[TIMES], ratio[TIMES], least[TIMES];
    unsigned freed[PAGES];
    uint8_t path[4];
    for (int i = 0; i < 4; i++) path[i] = (uint8_t)(child >> (8 * i));
    for (int i = 0; i < TIMES; i++) {
        memcpy(copy, image, LEN);
        double a = now();
        uint32_t checked = nl_check(copy, LEN);
        check[i] = now() - a;
        memcpy(copy, image, LEN);
        a = now();
        uint32_t removed = nl_remove(copy, LEN, path, sizeof path);
        removal[i] = now() - a;
        unsigned n = freed_pages(image, copy, freed);
        if (checked || removed || n != records || (i == 0 && nl_check(copy, LEN))) {
            printf("%s: check %u, remove %u, %u records freed\n", name, checked, removed, n);
            return 1;
        }
        memcpy(copy, image, LEN);
        a = now();
        for (unsigned k = 0; k < n; k++) memset(copy + 4096u * freed[k], 0, 4096);
        least[i] = (check[i] + now() - a) / check[i];
        ratio[i] = removal[i] / check[i];
    }
    printf("%-14s %-5s %7u %10.1f %10.1f %13.2f %6.2f\n", name, where, records, 1e6 * median(check), 1e6 * median(removal), median(ratio), median(least));
    return 0;
}

/* Whether the child of the root is an aggregate. */
static int is_aggregate(const uint8_t *image, uint32_t child) {
    uint32_t place[NL_PLACE], node[NL_READ];
    uint8_t path[4];
    for (int i = 0; i < 4; i++) path[i] = (uint8_t)(child >> (8 * i));
    return !nl_find(image, LEN, path, sizeof path, place) && !nl_read(image, LEN, place[0], place[1], node) && node[NL_READ_KIND] == NL_AGGREGATE;
}

int main(void) {
    static const unsigned records[] = {0, 10, 1000, PAGES - 2};
    uint8_t *image = malloc(LEN), *copy = malloc(LEN);
    int bad = 0;
    if (!image || !copy) return 2;
    fill_levels = 22; /* what is in a branch begins a level further down */
    puts("microseconds   at    records      check     remove  remove/check  least");
    for (size_t f = 0; f < sizeof fills / sizeof *fills; f++) {
        /* behind the eight literals of the first record and the literal of the first fan: an aggregate that names no page, where the fill has one there */
        make_nested(image, PAGES, 0, 1, 0, fills[f].fill);
        if (is_aggregate(image, 9)) bad |= row(fills[f].name, "inner", image, copy, 9, 0);
        for (size_t r = 0; r < sizeof records / sizeof *records; r++)
            for (int last = 0; last < 2; last++) {
                /* a leaf is the second node of a full record; with all records in the branch, the root has no other child */
                uint32_t child = records[r] ? make_branch(image, PAGES, records[r], last, fills[f].fill) : make_nested(image, PAGES, 0, 1, last, fills[f].fill);
                if (records[r] < PAGES - 2 || !last) bad |= row(fills[f].name, last ? "end" : "front", image, copy, child, records[r]);
            }
    }
    free(image);
    free(copy);
    return bad;
}
