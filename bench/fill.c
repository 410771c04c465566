/* How full pages are after 20,000 inserts, with step 1 of growth as it is and as it was before E5: trees grown in several ways by plain C (calls.h), which
 * has both. Of one tree the library makes every call too, and must leave the same image. */
#include <stdio.h>
#include <stdlib.h>

#include "../include/nichelarder.h"
#include "calls.h"
#include "random.h"

enum { PAGES = 1024, LEN = PAGES * 4096, NODES = 20000, TREES = 5, MOST_PARENTS = 40 };

enum where { ANYWHERE, NEWEST_FIRST, APPENDED };

/* The root has so many aggregates (issuers). Each of them has literals of 0 to 60 bytes, or certificates: aggregates of 8 to 12 literals of 4 to 32 bytes,
 * which are appended one by one. Where it is busy, one in three turns takes out a literal, or a certificate with all its fields. */
static const struct way {
    const char *name;
    uint32_t parents;
    int certificates, busy;
    enum where where;
} ways[] = {{"certificates, anywhere", 40, 1, 0, ANYWHERE},
            {"certificates, newest first", 40, 1, 0, NEWEST_FIRST},
            {"certificates, appended", 40, 1, 0, APPENDED},
            {"certificates, busy", 40, 1, 1, ANYWHERE},
            {"literals, anywhere", 8, 0, 0, ANYWHERE},
            {"literals, newest first", 8, 0, 0, NEWEST_FIRST},
            {"literals, appended", 8, 0, 0, APPENDED},
            {"literals, busy", 8, 0, 1, ANYWHERE}};
enum { WAYS = sizeof ways / sizeof *ways };

static int by_library;
static uint32_t inserted;

static void fail(const char *what) {
    printf("bench: %s\n", what);
    exit(1);
}

static size_t path_of(const uint32_t *entries, size_t n, uint8_t *path) {
    for (size_t i = 0; i < 4 * n; i++) path[i] = (uint8_t)(entries[i / 4] >> (8 * (i % 4)));
    return 4 * n;
}

static void insert(uint8_t *image, const uint32_t *parent, size_t n, uint32_t child, unsigned kind, unsigned size) {
    static const uint8_t content[60] = {1, 2, 3};
    uint8_t path[8], node[66];
    size_t len = path_of(parent, n, path);
    int full = 0;
    inserted++;
    if (by_library) {
        uint32_t answer[3];
        int32_t lean;
        if (nl_insert(image, LEN, path, len, child, kind, NL_WIRE, 9, content, size, answer, &lean)) fail("insert");
        return;
    }
    /* without a check of the image in each call, which would be nearly all of the time */
    size_t at = walk_path(image, path, len), spot = spot_of(image, at, child);
    memcpy(put_node(node, kind, 9, size + 6), content, size);
    if (spot) plain_once(image, LEN, at, spot, node, size + 6, 0, &full);
    if (!spot || full) fail("plain insert");
}

static void take_out(uint8_t *image, const uint32_t *entries) {
    uint8_t path[8];
    size_t len = path_of(entries, 2, path);
    if (!by_library)
        drop_node(image, walk_path(image, path, len));
    else if (nl_remove(image, LEN, path, len))
        fail("remove");
}

static void grow(uint8_t *image, const struct way *way, uint32_t first_seed) {
    uint32_t kids[MOST_PARENTS] = {0};
    memset(image, 0, LEN);
    put_settings(image, PAGES);
    put_node(image + 4096, 1, 7, 6);
    put_trailer(image + 4096, 1, 1, 6, 0);
    seed = first_seed;
    inserted = 0;
    for (uint32_t i = 0; i < way->parents; i++) insert(image, NULL, 0, i, NL_AGGREGATE, 0);
    while (inserted < NODES) {
        uint32_t at[2] = {any(way->parents), 0}, *row = &kids[at[0]];
        if (way->busy && any(3) == 0) {
            if (!*row) continue;
            at[1] = any((*row)--);
            take_out(image, at);
            continue;
        }
        at[1] = way->where == ANYWHERE ? any(*row + 1) : way->where == APPENDED ? *row : 0;
        ++*row;
        insert(image, at, 1, at[1], way->certificates ? NL_AGGREGATE : NL_LITERAL, way->certificates ? 0 : any(61));
        for (uint32_t i = 0, fields = way->certificates ? 8 + any(5) : 0; i < fields && inserted < NODES; i++)
            insert(image, at, 2, i, NL_LITERAL, 4 + any(29));
    }
    if (plain_check(image, LEN)) fail("the image does not pass");
}

/* The number of record pages; their mean fill, length used over the most that it can be, is added for the mean of the trees. */
static unsigned measure(const uint8_t *image, double *fill) {
    unsigned n = 0;
    double used = 0;
    for (const uint8_t *p = image + 4096; p < image + LEN; p += 4096)
        if (p[4080]) n++, used += get16(p + 4082) / 4080.0;
    *fill += used / n / TREES;
    return n;
}

/* How many records are nested in one another below page 1, at most. */
static unsigned nested(const uint8_t *image) {
    unsigned most = 0;
    for (unsigned page = 2; page < PAGES; page++) {
        unsigned n = 0;
        for (unsigned p = page; image[4096u * p + 4080] && p > 1; p = get16(image + 4096u * p + 4084)) n++;
        if (n > most) most = n;
    }
    return most;
}

static void row(const struct way *way, uint8_t *image) {
    double pages[2] = {0}, fill[2] = {0}, least = 9, most = 0;
    unsigned deep[2] = {0};
    for (uint32_t tree = 1; tree <= TREES; tree++) {
        unsigned n[2];
        for (int now = 0; now < 2; now++) {
            left_sibling_only = !now;
            grow(image, way, tree);
            n[now] = measure(image, &fill[now]);
            pages[now] += (double)n[now] / TREES;
            if (nested(image) > deep[now]) deep[now] = nested(image);
        }
        double ratio = (double)n[1] / n[0];
        if (ratio < least) least = ratio;
        if (ratio > most) most = ratio;
    }
    printf("%-28s %6.0f %6.0f %11.2f   %4.2f to %4.2f %12.2f %5.2f %11.2f %14u %5u\n", way->name, pages[0], pages[1], pages[1] / pages[0], least, most,
           fill[0], fill[1], fill[1] / fill[0], deep[0], deep[1]);
}

int main(void) {
    uint8_t *image = malloc(LEN), *twin = malloc(LEN);
    if (!image || !twin) return 2;
    puts("20,000 inserts         pages before    now  now/before  of one tree    fill before   now  now/before  nested before   now");
    for (size_t w = 0; w < WAYS; w++) row(&ways[w], image);
    /* the last tree of the last row */
    by_library = 1;
    grow(twin, &ways[WAYS - 1], TREES);
    if (memcmp(image, twin, LEN)) fail("the library's image differs");
    printf("%s: the library leaves the same image\n", ways[WAYS - 1].name);
    free(image);
    free(twin);
    return 0;
}
