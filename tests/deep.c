/* The deepest image, a chain through 1,022 record pages, passes every call, is walked whole, and is diagnosed where its last record is broken; the longest
 * cascade is done, and the deepest branch is removed; run under a small stack. */
#include <stdio.h>
#include <stdlib.h>

#include "../bench/images.h"
#include "../include/nichelarder.h"

static int wrong(const char *what) {
    printf("deep: %s\n", what);
    return 1;
}

/* The whole chain in one walk: the root, then the aggregates of each record from the last page back; behind a proxy, where there is one. */
static int walks(const uint8_t *image, size_t len) {
    const uint32_t nodes = 1 + 677u * 1023u;
    uint32_t *entries = malloc(sizeof *entries * NL_ENTRY * nodes), answer[4], page, k;
    const uint32_t *at = entries + NL_ENTRY;
    if (!entries) return wrong("no memory for the walk");
    if (nl_walk(image, len, 1, 0, entries, NL_ENTRY * nodes, answer)) return wrong("walk");
    if (answer[0] != nodes || answer[1] || answer[2] || answer[3]) return wrong("walk gives another number of nodes");
    const uint32_t root[NL_ENTRY] = {1, 1, 0, NL_AGGREGATE, 0, 7, 677u * 1023u, 0, 0};
    if (memcmp(entries, root, sizeof root)) return wrong("walk, the root");
    for (page = 1023; page; page--)
        for (k = 0; k < 677; k++, at += NL_ENTRY) {
            const uint32_t want[NL_ENTRY] = {2, page, (page == 1023 ? 6 : 14) + 6 * k, NL_AGGREGATE, 0, 9, 0, 0, 0};
            if (memcmp(at, want, sizeof want)) return wrong("walk, a node of a record");
        }
    free(entries);
    return 0;
}

/* Whether the image, with another byte at one place, is diagnosed so. */
static int is_diagnosed(uint8_t *image, size_t len, size_t at, unsigned byte, uint32_t stage, uint32_t page, uint32_t reason) {
    uint32_t answer[3];
    uint8_t kept = image[at];
    image[at] = (uint8_t)byte;
    uint32_t number = nl_diagnose(image, len, answer);
    image[at] = kept;
    return number == (stage ? 3u : 0u) && answer[0] == stage && answer[1] == page && answer[2] == reason;
}

/* Faults at the end of the chain, and after it. */
static int diagnoses(uint8_t *image, size_t len) {
    const size_t last = 1023u * 4096u;
    if (!is_diagnosed(image, len, last, image[last], 0, 0, 0)) return wrong("diagnose, nothing wrong");
    if (!is_diagnosed(image, len, last + 4079, 1, 3, 1023, 5)) return wrong("diagnose, past the length of the last record");
    if (!is_diagnosed(image, len, last + 6 * 677, 3, 3, 1023, 6)) return wrong("diagnose, the last node of the last record");
    if (!is_diagnosed(image, len, last - 4096 + 12, 1, 3, 1022, 8)) return wrong("diagnose, the last proxy");
    if (!is_diagnosed(image, len, 4096 + 14 + 6 * 676 + 1, 4, 3, 1, 6)) return wrong("diagnose, page 1 after the chain");
    if (!is_diagnosed(image, len, last + 4095, 1, 2, 1023, 3)) return wrong("diagnose, the last trailer");
    /* a literal in the place of the last proxy */
    if (!is_diagnosed(image, len, last - 4096 + 6, 2, 3, 1023, 9)) return wrong("diagnose, the last page not reached");
    return 0;
}

/* A literal after the first node of the deepest record of a chain: all its records split, if there are pages. */
static uint32_t insert_deep(uint8_t *image, size_t len, unsigned chain, uint32_t answer[3]) {
    static const uint8_t content[10];
    int32_t lean;
    memset(image, 0, len);
    make_chain(image, chain, fill_small);
    put16(image, (unsigned)(len / 4096));
    return nl_insert(image, len, content, 0, 1, NL_LITERAL, NL_DERIVED, 9, content, sizeof content, answer, &lean);
}

static int inserts(uint8_t *image, size_t len) {
    uint32_t answer[3], read[6];
    /* a chain through all pages: none is free, and nothing changes */
    if (insert_deep(image, len, 1024, answer) != NL_FULL || answer[0] || answer[1] || answer[2]) return wrong("insert into a full image");
    if (nl_check(image, len) || nl_read(image, len, 1, 0, read) || read[2] != 677u * 1023u) return wrong("the full image after it");
    /* 511 records, the root's among them: a cascade of 511 splits, after which every page is taken */
    if (insert_deep(image, len, 512, answer) || answer[2] != 511) return wrong("insert, a cascade of 511 splits");
    if (nl_check(image, len) || nl_read(image, len, 1, 0, read) || read[2] != 677u * 511u + 1u) return wrong("the image after the cascade");
    if (nl_read(image, len, answer[0], answer[1], read) || read[0] != NL_LITERAL || read[5] != NL_DERIVED) return wrong("the new node after the cascade");
    /* with one record more the last split finds no page */
    if (insert_deep(image, len, 513, answer) != NL_FULL) return wrong("insert, a cascade one page too long");
    return 0;
}

/* The chain in one branch: its node is the root of the record on page 2, or stands, with the proxy to that page, in the root's record. */
static void make_deep_branch(uint8_t *image, int is_root) {
    uint8_t *root = image + 4096;
    make_chain(image, 1024, fill_small);
    if (is_root) {
        put_node(image + 8192, 1, 9, 14 + 6 * 677);
        return;
    }
    memset(root, 0, 4096);
    put_proxy(put_node(put_node(root, 1, 7, 20), 1, 9, 14), 2);
    put_trailer(root, 1, 1, 20, 0);
}

/* The first child of the root, all 1,022 pages of records under it, is removed: page 1 has the only record, and every other page is free. */
static int removals(uint8_t *image, size_t len) {
    static const uint8_t first[4];
    for (int is_root = 0; is_root < 2; is_root++) {
        uint32_t read[6], written, left = is_root ? 677 : 0;
        uint8_t record[2];
        make_deep_branch(image, is_root);
        if (nl_check(image, len) || nl_read(image, len, 1, 0, read) || read[2] != left + 1) return wrong("the image with a branch");
        if (nl_remove(image, len, first, 4)) return wrong("remove, a branch of 1,022 records");
        if (nl_check(image, len) || nl_read(image, len, 1, 0, read) || read[2] != left) return wrong("the image after the removal");
        if (nl_records(image, len, record, sizeof record, &written) || written != 2 || record[0] != 1 || record[1]) return wrong("records are left");
        for (size_t i = 8192; i < len; i++)
            if (image[i]) return wrong("a page is not free");
    }
    /* the first node of the root's row stands in the last record of the chain, and only that one changes */
    make_chain(image, 1024, fill_small);
    if (nl_remove(image, len, first, 4) || nl_check(image, len)) return wrong("remove from the last record");
    if (image[1023 * 4096 + 4082] + 256 * image[1023 * 4096 + 4083] != 676 * 6 + 6) return wrong("the last record after the removal");
    return 0;
}

int main(void) {
    size_t len = 4194304;
    uint8_t *image = malloc(len), path[4];
    uint32_t place[2], written, answer[6], following[5];
    if (!image) return 2;
    make_chain(image, 1024, fill_small);
    if (nl_check(image, len)) return wrong("check");
    if (nl_read(image, len, 1, 0, answer) || answer[2] != 677u * 1023u) return wrong("read");
    /* the first child stands in the last record of the chain, the last child in the first */
    for (uint32_t k = 0; k < 677u * 1023u; k += 677u * 1023u - 1u) {
        for (int i = 0; i < 4; i++) path[i] = (uint8_t)(k >> (8 * i));
        if (nl_find(image, len, path, 4, place)) return wrong("find");
        if (place[0] != (k ? 1u : 1023u)) return wrong("find gives another place");
        uint8_t back[92] = {0};
        if (nl_climb(image, len, place[0], place[1], back, sizeof back, &written) || written != 4 || memcmp(back, path, 4)) return wrong("climb");
        if (nl_next(image, len, place[0], place[1], following) || following[0] != (k ? 0u : 1u)) return wrong("next");
    }
    /* from the last node of the deepest record up one, and from the root all the way down */
    if (nl_next(image, len, 1023, 4062, following) || following[1] != 1022 || following[2] != 14) return wrong("next, upwards");
    if (nl_next(image, len, 1, 0, following) || following[1] != 1023 || following[2] != 6) return wrong("next, downwards");
    if (walks(image, len) || diagnoses(image, len) || inserts(image, len) || removals(image, len)) return 1;
    free(image);
    puts("deep: passed");
    return 0;
}
