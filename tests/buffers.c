/* Buffers that are only read may lie in the image, and a byte buffer of length 0 may be null.
 * Each call with such buffers is made on a second image too, with copies of them in memory of their own: answers and images must agree. */
#include "../bench/random.h"
#include "../include/nichelarder.h"
#include <stdio.h>
#include <stdlib.h>
#include <string.h>

#define MOST (NL_PAGE * 16u)
#define MATRIX 16u /* where the entries lie on page 0 */

static uint8_t image[MOST], twin[MOST], before[MOST], copy[NL_PAGE];
static size_t len;
static unsigned long tests;

static void expect(int ok, const char *what) {
    tests++;
    if (!ok) {
        printf("buffers: %s\n", what);
        exit(1);
    }
}

/* Format with the entries at a byte of the image, and with a copy of them. */
static uint32_t format_within(uint32_t pages, size_t at, size_t entries) {
    uint32_t a, b;
    len = (size_t)pages * NL_PAGE;
    memcpy(twin, image, len);
    memcpy(before, image, len);
    memcpy(copy, image + at, entries);
    a = nl_format(image, len, pages, 128, 409, 1, image + at, entries, 7);
    b = nl_format(twin, len, pages, 128, 409, 1, copy, entries, 7);
    expect(a == b && !memcmp(image, twin, len), "format with the matrix in the image differs from format with a copy");
    if (a)
        expect(!memcmp(image, before, len), "a refused format changed the image");
    else
        expect(!memcmp(image + MATRIX, copy, entries) && nl_check(image, len) == 0, "format did not keep the entries");
    return a;
}

/* Insert with path and content in the image, and with copies of them; of any origin. */
static uint32_t insert_within(size_t path, size_t path_len, uint32_t child, uint32_t kind, uint16_t label, size_t content, size_t content_len) {
    uint32_t a, b, origin = any(4), here[3], there[3];
    int32_t lean, other;
    memcpy(copy, image + path, path_len);
    memcpy(copy + 128, image + content, content_len);
    a = nl_insert(image, len, image + path, path_len, child, kind, origin, label, image + content, content_len, here, &lean);
    b = nl_insert(twin, len, copy, path_len, child, kind, origin, label, copy + 128, content_len, there, &other);
    expect(a == b && !memcmp(here, there, sizeof here) && lean == other && !memcmp(image, twin, len), "insert from the image differs from insert from copies");
    return a;
}

/* Remove with the path in the image, and with a copy of it. */
static uint32_t remove_within(size_t path, size_t path_len) {
    uint32_t a, b;
    memcpy(copy, image + path, path_len);
    memcpy(before, image, len);
    a = nl_remove(image, len, image + path, path_len);
    b = nl_remove(twin, len, copy, path_len);
    expect(a == b && !memcmp(image, twin, len), "remove by a path in the image differs from remove by a copy");
    expect(nl_check(image, len) == 0 && (!a || !memcmp(image, before, len)), "the image after a removal");
    return a;
}

static void matrices(void) {
    size_t at;
    uint32_t i;
    /* its own matrix, all 2 and with some 0 */
    memset(image, 2, MOST);
    expect(format_within(3, 1000, 256) == 0, "format refused");
    expect(format_within(3, MATRIX, 256) == 0, "format with its own matrix refused");
    for (i = 0; i < 256; i++)
        expect(image[MATRIX + i] == 2, "an entry is not 2");
    for (i = 0; i < 256; i += 7)
        image[MATRIX + i] = 0;
    expect(format_within(3, MATRIX, 256) == 0, "format with its own matrix refused");
    for (i = 0; i < 256; i++)
        expect(image[MATRIX + i] == (i % 7 ? 2 : 0), "an entry was not kept");
    /* anywhere in an image of entries; one byte further, one short, a value that is none */
    for (at = 0; at + 256 <= 3 * NL_PAGE; at += 61) {
        for (i = 0; i < 3 * NL_PAGE; i++)
            image[i] = (uint8_t)(2 * any(2));
        expect(format_within(3, at, 256) == 0, "format with entries in the image refused");
    }
    expect(format_within(3, MATRIX, 255) == NL_SETTINGS && format_within(3, MATRIX, 257) == NL_SETTINGS, "a matrix of another length");
    expect(format_within(3, 1, 256) == NL_SETTINGS, "a matrix with another value");
}

/* Four zeros in the image, the path of the first child: on page 0, or behind the record of page 1, where the call itself may write. */
static size_t zeros_at(void) {
    size_t used = image[NL_PAGE + 4082] + 256u * image[NL_PAGE + 4083];
    return any(2) && used + 4 <= NL_CAPACITY ? NL_PAGE + used : 8;
}

/* Content is taken from where Read finds it, and paths from zeros of the image: appended, put in front and below the first child, to many splits. */
static void copies(int apart) {
    uint32_t place[2], node[6], n, i;
    len = MOST;
    memset(copy, apart ? 0 : 2, 256);
    expect(nl_format(image, len, MOST / NL_PAGE, 128, 409, 1, copy, 256, 7) == 0, "format refused");
    memcpy(twin, image, len);
    for (i = 0; i < NL_CONTENT; i++)
        copy[i] = (uint8_t)i;
    memcpy(before, copy, NL_CONTENT);
    for (i = 0; i < 2; i++) {
        uint8_t *to = i ? twin : image;
        uint32_t answer[3];
        int32_t lean;
        expect(nl_insert(to, len, NULL, 0, 0, NL_AGGREGATE, NL_WIRE, 3, NULL, 0, answer, &lean) == 0, "an empty path and empty content, both null");
        expect(nl_insert(to, len, NULL, 0, 1, NL_LITERAL, NL_WIRE, 4, before, NL_CONTENT, answer, &lean) == 0, "an empty path that is null");
    }
    for (;;) {
        uint32_t below_first = any(3) == 0;
        uint8_t path[4];
        /* the root's children, then one of them; a literal's content, or what stands at its place if it has none */
        expect(nl_find(image, len, image + 8, 0, place) == 0 && nl_read(image, len, place[0], place[1], node) == 0, "no root");
        n = node[2];
        i = 1 + any(n - 1);
        path[0] = (uint8_t)i, path[1] = (uint8_t)(i >> 8), path[2] = 0, path[3] = 0;
        expect(nl_find(image, len, path, 4, place) == 0 && nl_read(image, len, place[0], place[1], node) == 0, "no child");
        i = insert_within(zeros_at(), below_first ? 4 : 0, below_first ? 0 : 1 + any(n), NL_LITERAL, (uint16_t)any(20), node[3], any(node[4] + 1));
        expect(i == 0 || i == NL_FULL, "insert refused");
        if (i == 0 && any(4) == 0)
            i = insert_within(zeros_at(), below_first ? 4 : 0, 0, NL_AGGREGATE, 5, 8, 0);
        if (i)
            return;
    }
}

static uint32_t root_children(void) {
    uint32_t node[6];
    expect(nl_read(image, len, 1, 0, node) == 0, "no root");
    return node[2];
}

/* A literal whose content is a path of one entry, put into both images; gives where in the image the content lies, or 0 if the store is full. */
static size_t path_put(const uint8_t *parent, size_t parent_len, uint32_t child, uint32_t entry) {
    uint8_t content[4];
    uint32_t place[3], node[6];
    int32_t lean;
    int i;
    for (i = 0; i < 4; i++)
        content[i] = (uint8_t)(entry >> (8 * i));
    if (nl_insert(image, len, parent, parent_len, child, NL_LITERAL, NL_WIRE, 6, content, 4, place, &lean))
        return 0;
    expect(nl_insert(twin, len, parent, parent_len, child, NL_LITERAL, NL_WIRE, 6, content, 4, node, &lean) == 0, "insert differs");
    expect(nl_read(image, len, place[0], place[1], node) == 0 && node[4] == 4, "no content");
    return node[3];
}

/* Paths are taken from literals: a literal that names itself, which the call overwrites or zeroes, one that names a node beside it, and one that names the
 * branch in which it stands; then from zeros, until the root is alone. */
static void removals(void) {
    static const uint8_t first[4];
    uint32_t turn, n, child, entry;
    size_t at;
    expect(remove_within(8, 4) == 0, "remove refused"); /* a page for the literals */
    for (turn = 0; turn < 200 && (n = root_children()) > 1; turn++) {
        child = any(n + 1);
        entry = any(2) ? child : any(n + 1);
        at = path_put(NULL, 0, child, entry);
        if (at && any(4) == 0)
            expect(remove_within(at, any(4)) != 0 && remove_within(at, 5) == NL_ABSENT, "a path that is not whole");
        expect(remove_within(at ? at : zeros_at(), 4) == 0, "remove refused");
        if (any(3) == 0)
            expect(remove_within(zeros_at(), 4) == 0, "remove refused");
    }
    expect(insert_within(8, 0, 0, NL_AGGREGATE, 3, 8, 0) == 0, "no branch");
    while ((at = path_put(first, 4, 0, 0)) == 0)
        expect(remove_within(8, 4) == 0 && insert_within(8, 0, 0, NL_AGGREGATE, 3, 8, 0) == 0, "no branch");
    expect(remove_within(at, 4) == 0, "remove the branch in which the path stands");
    while (root_children())
        expect(remove_within(zeros_at(), 4) == 0, "remove refused");
    expect(remove_within(zeros_at(), 4) == NL_ABSENT && remove_within(8, 0) == NL_EMPTY, "the root alone");
}

static void empty(void) {
    uint32_t number, six[6];
    int32_t lean;
    uint8_t *none = NULL, zeros[4] = {0, 0, 0, 0};
    expect(nl_find(image, len, none, 0, six) == 0 && six[0] == 1 && six[1] == 0, "find with an empty path that is null");
    expect(nl_climb(image, len, 1, 0, none, 0, &number) == 0 && number == 0, "climb from the root to a buffer that is null");
    expect(nl_find(image, len, zeros, 4, six) == 0, "no first child");
    expect(nl_climb(image, len, six[0], six[1], none, 0, &number) == NL_SHORT && number == 0, "climb to a buffer that is null");
    expect(nl_records(image, len, none, 0, &number) == NL_SHORT && number == 0, "records to a buffer that is null");
    memcpy(before, image, len);
    expect(nl_remove(image, len, none, 0) == NL_EMPTY && !memcmp(before, image, len), "remove with an empty path that is null");
    expect(nl_format(image, len, MOST / NL_PAGE, 128, 409, 1, none, 0, 7) == NL_SETTINGS && !memcmp(before, image, len), "format with a matrix that is null");
    /* an image of no bytes */
    expect(nl_format(none, 0, 2, 128, 409, 1, copy, 256, 7) == NL_LENGTH && nl_check(none, 0) == NL_LENGTH, "an image that is null");
    expect(nl_insert(none, 0, none, 0, 0, NL_AGGREGATE, NL_WIRE, 1, none, 0, six, &lean) == NL_LENGTH, "an image that is null: insert");
    expect(nl_remove(none, 0, none, 0) == NL_LENGTH, "an image that is null: remove");
    expect(nl_find(none, 0, none, 0, six) == NL_LENGTH && nl_read(none, 0, 1, 0, six) == NL_LENGTH, "an image that is null: find, read");
    expect(nl_climb(none, 0, 1, 0, none, 0, &number) == NL_LENGTH && nl_next(none, 0, 1, 0, six) == NL_LENGTH, "an image that is null: climb, next");
    expect(nl_records(none, 0, none, 0, &number) == NL_LENGTH, "an image that is null: records");
}

int main(void) {
    matrices();
    copies(0);
    empty();
    removals();
    copies(1);
    empty();
    removals();
    printf("buffers: %lu tests\n", tests);
    return 0;
}
