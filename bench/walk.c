/* A walk of the whole tree into a buffer that takes it, against the check of the same image, side by side in one run; beside it the writing of as many
 * bytes alone. */
#include <stdio.h>
#include <stdlib.h>

#include "../include/nichelarder.h"
#include "images.h"
#include "timing.h"

enum { PAGES = 1024, LEN = 4194304 };

/* The most numbers that a walk can write: nodes of 6 bytes in every record. */
static const size_t MOST = (size_t)PAGES * 680 * NL_ENTRY;

/* The nodes that an image shows: the aggregates and literals of all its records. */
static uint32_t nodes_of(const uint8_t *image, size_t len) {
    uint32_t n = 0;
    for (const uint8_t *page = image + 4096; page < image + len; page += 4096) {
        const uint8_t *end = page + page[4082] + 256u * page[4083];
        for (const uint8_t *at = page; at < end; at += at[0] == 1 || at[0] == 4 ? 6 : at[4] + 256u * at[5]) n += at[0] == 1 || at[0] == 2;
    }
    return n;
}

/* One row, medians, in turns; the buffer has been written before. The ratios are those of a turn; `least` is what the check and filling the entries' bytes
 * in C take, over the check. */
static int row(const char *name, const char *records, const uint8_t *image, size_t len, uint32_t *entries) {
    double check[TIMES], walk[TIMES], ratio[TIMES], least[TIMES];
    uint32_t nodes = nodes_of(image, len), answer[NL_WALK];
    size_t numbers = NL_ENTRY * (size_t)nodes;
    memset(entries, 1, numbers * sizeof *entries);
    for (int i = 0; i < TIMES; i++) {
        double a = now();
        uint32_t checked = nl_check(image, len);
        check[i] = now() - a;
        a = now();
        uint32_t walked = nl_walk(image, len, 1, 0, entries, numbers, answer);
        walk[i] = now() - a;
        if (checked || walked || answer[NL_WALK_ENTRIES] != nodes || answer[NL_WALK_MORE]) {
            printf("%s: check %u, walk %u, %u entries of %u\n", name, checked, walked, answer[NL_WALK_ENTRIES], nodes);
            return 1;
        }
        a = now();
        memset(entries, i, numbers * sizeof *entries);
        least[i] = (check[i] + now() - a) / check[i];
        ratio[i] = walk[i] / check[i];
    }
    printf("%-14s %-6s %6zu %8u %10.1f %10.1f %11.2f %6.2f\n", name, records, len / 4096, nodes, 1e6 * median(check), 1e6 * median(walk), median(ratio),
           median(least));
    return 0;
}

int main(void) {
    static const unsigned sizes[] = {4, 40, 400, 1000};
    uint8_t *image = malloc(LEN);
    uint32_t *entries = malloc(MOST * sizeof *entries);
    int bad = 0;
    if (!image || !entries) return 2;
    puts("microseconds   records pages    nodes      check       walk  walk/check  least");
    make_full(image, PAGES);
    bad |= row("full records", "side", image, LEN, entries);
    for (size_t i = 0; i < sizeof chains / sizeof *chains; i++) {
        make_chain(image, PAGES, chains[i].fill);
        bad |= row(chains[i].name, "nested", image, LEN, entries);
    }
    for (size_t i = 0; i < sizeof fills / sizeof *fills; i++) {
        make_nested(image, PAGES, 0, 0, 0, fills[i].fill);
        bad |= row(fills[i].name, "side", image, LEN, entries);
    }
    for (size_t i = 0; i < sizeof sizes / sizeof *sizes; i++) {
        make_full(image, sizes[i]);
        bad |= row("full records", "side", image, 4096u * (size_t)sizes[i], entries);
    }
    free(image);
    free(entries);
    return bad;
}
