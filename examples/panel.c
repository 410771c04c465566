/* A front panel in small: makes an image of three pages, puts two nodes into it, finds the way back to one of them, prints all there is, removes one
 * of them and prints all again.
 * From the repository's root: rt staticlib nichelarder && cc -std=c99 examples/panel.c target/staticlib/libnichelarder.a -o panel && ./panel */
#include "../include/nichelarder.h"
#include <stdio.h>
#include <string.h>

static const char *const origins[] = NL_ORIGIN_NAMES;
static uint8_t image[3 * NL_PAGE];

/* Says what a refused call refused; every call can be checked this way. */
static int refused(const char *call, uint32_t number) {
    if (number)
        printf("%s: %s (%u)\n", call, nl_refusal_name(number), (unsigned)number);
    return number != NL_OK;
}

/* The usual settings: split in the middle, nodes of 409 bytes or more may be divided, every pair of labels may share a record. */
static int format(void) {
    uint8_t matrix[NL_MATRIX];
    memset(matrix, NL_FREE, sizeof matrix);
    return refused("format", nl_format(image, sizeof image, 3, NL_TARGET_USUAL, NL_TOLERANCE_USUAL, NL_FORM, matrix, sizeof matrix, 7));
}

/* Literal 9 with two bytes, typed in, as the root's first child, then aggregate 300, derived, in front of it. The root's path is empty: no bytes. */
static int fill(void) {
    const uint8_t root[1] = {0}, content[2] = {0x41, 0x42};
    uint32_t answer[3];
    int32_t lean;
    if (refused("insert", nl_insert(image, sizeof image, root, 0, 0, NL_LITERAL, NL_TYPED_IN, 9, content, 2, answer, &lean)))
        return 1;
    if (refused("insert", nl_insert(image, sizeof image, root, 0, 0, NL_AGGREGATE, NL_DERIVED, 300, content, 0, answer, &lean)))
        return 1;
    printf("aggregate 300 stands on page %u at byte %u; %u records were split\n", (unsigned)answer[0], (unsigned)answer[1], (unsigned)answer[2]);
    return 0;
}

/* From the path of the second child (number 1) to its place, and back. */
static int find_and_climb(void) {
    const uint8_t second[4] = {1, 0, 0, 0};
    uint8_t path[NL_PATH];
    uint32_t place[2], written;
    if (refused("find", nl_find(image, sizeof image, second, sizeof second, place)))
        return 1;
    if (refused("climb", nl_climb(image, sizeof image, place[0], place[1], path, sizeof path, &written)))
        return 1;
    printf("child 1 stands on page %u at byte %u; its path has %u bytes and begins with %u\n", (unsigned)place[0], (unsigned)place[1],
           (unsigned)written, path[0]);
    return 0;
}

/* Every node in document order, from the root on page 1 at byte 0: as many as there is room for, then on from the first that was left. */
static int print_all(void) {
    uint32_t entries[2 * NL_ENTRY], walked[NL_WALK] = {0, 1, 1, 0}, i;
    const uint32_t *node;
    while (walked[NL_WALK_MORE]) {
        if (refused("walk", nl_walk(image, sizeof image, walked[NL_WALK_PAGE], walked[NL_WALK_OFFSET], entries, 2 * NL_ENTRY, walked)))
            return 1;
        for (node = entries; node < entries + NL_ENTRY * walked[NL_WALK_ENTRIES]; node += NL_ENTRY) {
            printf("%s %u, origin %s, %u children,", node[NL_ENTRY_KIND] == NL_AGGREGATE ? "aggregate" : "literal", (unsigned)node[NL_ENTRY_LABEL],
                   origins[node[NL_ENTRY_ORIGIN]], (unsigned)node[NL_ENTRY_CHILDREN]);
            for (i = 0; i < node[NL_ENTRY_LENGTH]; i++)
                printf(" %02x", image[node[NL_ENTRY_START] + i]);
            printf(node[NL_ENTRY_LENGTH] ? "\n" : " no content\n");
        }
    }
    return 0;
}

/* The first child of the root, with all under it; places from before are void, and what was child 1 is child 0. */
static int remove_first(void) {
    const uint8_t first[4] = {0, 0, 0, 0};
    if (refused("remove", nl_remove(image, sizeof image, first, sizeof first)))
        return 1;
    printf("aggregate 300 is removed\n");
    return 0;
}

int main(void) { return format() || fill() || find_and_climb() || print_all() || remove_first() || print_all(); }
