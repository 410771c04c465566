/* How many pages to plan for: certificates as fill.c makes them, and larger ones, in an image of 1,024 pages, grown by plain C (calls.h), which leaves the
 * library's images (fill.c compares them). Nothing here hangs on a clock: every run prints the same. */
#include <stdio.h>
#include <stdlib.h>

#include "../include/nichelarder.h"
#include "calls.h"
#include "random.h"

enum { PAGES = 1024, LEN = PAGES * 4096, TREES = 5, ISSUERS = 40, ISSUER = 8, CERTIFICATE = 10, FIELD = 11 };

enum order { APPENDED, NEWEST_FIRST, ANYWHERE, ORDERS };
static const char *const orders[] = {"appended", "newest first", "at random"};

static uint8_t *image;
static uint32_t inserted;

/* Gives 0 where no page is free; without a check of the image in each call, which would be nearly all of the time. */
static int insert(const uint8_t *path, size_t len, uint32_t child, unsigned kind, unsigned label, unsigned size) {
    static const uint8_t content[520] = {1, 2, 3};
    uint8_t node[526];
    size_t at = walk_path(image, path, len), spot = spot_of(image, at, child);
    int full = 0;
    memcpy(put_node(node, kind, label, size + 6), content, size);
    plain_once(image, LEN, at, spot, node, size + 6, 1, &full);
    if (full) return 0;
    plain_once(image, LEN, at, spot, node, size + 6, 0, &full);
    inserted++;
    return 1;
}

/* So many nodes, or certificates, or as many as the image takes. Certificates are aggregates with so many fields, which are appended one by one. */
static struct tree {
    uint32_t issuers, nodes, certificates;
    uint32_t least_fields, most_fields, least_bytes, most_bytes;
    enum order order;
    int apart;
} tree;

static uint32_t grow(void) {
    uint32_t kids[ISSUERS] = {0}, certificates = 0;
    uint8_t path[NL_PATH];
    memset(image, 0, LEN);
    put_settings(image, PAGES);
    if (tree.apart) image[16 + 16 * ISSUER + CERTIFICATE] = NL_APART;
    put_node(image + 4096, 1, 7, 6);
    put_trailer(image + 4096, 1, 1, 6, 0);
    inserted = 0;
    for (uint32_t i = 0; i < tree.issuers; i++) insert(path, 0, i, NL_AGGREGATE, ISSUER, 0);
    for (; inserted < tree.nodes && certificates < tree.certificates; certificates++) {
        uint32_t issuer = any(tree.issuers), *row = &kids[issuer];
        uint32_t child = tree.order == ANYWHERE ? any(*row + 1) : tree.order == APPENDED ? *row : 0;
        uint32_t fields = tree.least_fields + any(tree.most_fields - tree.least_fields + 1);
        size_t len = nl_path_append(path, 0, issuer);
        if (!insert(path, len, child, NL_AGGREGATE, CERTIFICATE, 0)) break;
        ++*row;
        len = nl_path_append(path, len, child);
        for (uint32_t i = 0; i < fields && inserted < tree.nodes; i++)
            if (!insert(path, len, i, NL_LITERAL, FIELD, tree.least_bytes + any(tree.most_bytes - tree.least_bytes + 1))) return certificates;
    }
    if (plain_check(image, LEN)) {
        puts("bench: the image does not pass");
        exit(1);
    }
    return certificates;
}

/* Pages with records, their mean fill, and how many of them are nested in one another below page 1, at most. */
static unsigned measure(double *fill, unsigned *deepest) {
    unsigned n = 0;
    double used = 0;
    for (unsigned page = 1; page < PAGES; page++) {
        unsigned deep = 0;
        if (!image[4096u * page + 4080]) continue;
        n++;
        used += get16(image + 4096u * page + 4082) / 4080.0;
        for (unsigned p = page; p > 1; p = get16(image + 4096u * p + 4084)) deep++;
        if (deep > *deepest) *deepest = deep;
    }
    *fill = used / n;
    return n;
}

static void small(uint32_t nodes) {
    for (int order = 0; order < ORDERS; order++) {
        unsigned deepest = 0;
        double pages = 0, fill = 0, one;
        for (seed = 1; seed <= TREES; seed++) {
            uint32_t first = seed;
            tree = (struct tree){ISSUERS, nodes, nodes, 8, 12, 4, 32, (enum order)order, 0};
            grow();
            pages += measure(&one, &deepest) / (double)TREES;
            fill += one / TREES;
            seed = first;
        }
        printf("%6u nodes, %-12s %6.0f %6.2f %8u\n", (unsigned)nodes, orders[order], pages, fill, deepest);
    }
}

static void large(uint32_t issuers, uint32_t fields, uint32_t bytes) {
    for (int order = 0; order < ORDERS; order++) {
        printf("%2u issuer%s %2u fields of %3u bytes, %-12s", (unsigned)issuers, issuers == 1 ? ", " : "s,", (unsigned)fields, (unsigned)bytes, orders[order]);
        for (int apart = 0; apart < 2; apart++) {
            unsigned deepest = 0, pages;
            double fill;
            seed = 1;
            tree = (struct tree){issuers, UINT32_MAX, UINT32_MAX, fields, fields, bytes, bytes, (enum order)order, apart};
            uint32_t certificates = grow();
            pages = measure(&fill, &deepest);
            printf("    %4u in %4u pages, %3u nested", (unsigned)certificates, pages, deepest);
        }
        puts("");
    }
}

int main(void) {
    image = malloc(LEN);
    if (!image) return 2;
    puts("certificates of 8 to 12 fields of 4 to 32 bytes, 40 issuers\n                              pages   fill   nested");
    small(5000);
    small(50000);
    puts("\nlarger certificates, as many as 1,024 pages take            free choice                         apart from the issuer");
    for (uint32_t issuers = 1; issuers <= ISSUERS; issuers += ISSUERS - 1) {
        large(issuers, 12, 60);
        large(issuers, 8, 200);
        large(issuers, 8, 520);
    }
    free(image);
    return 0;
}
