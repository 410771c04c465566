/* A walk against the calls for one node: it gives what next, read and climb give, from every node on, in one call and in steps, on a grown image and on
 * the deepest nesting of records. Then from every byte of an image, and on images that are refused.
 * All that is lent and not written must stay: the numbers behind those that are lent too. */
#include "../bench/images.h"
#include "../bench/random.h"
#include "../include/nichelarder.h"
#include <stdio.h>
#include <stdlib.h>

#define MOST_NODES 2100u
#define NUMBERS (NL_ENTRY * (MOST_NODES + 1u))
#define LENT 0xa7a7a7a7u
#define LEAST_NODES 300u

static uint8_t *image, *before;
static size_t len;
static uint32_t want[NUMBERS], got[NUMBERS], nodes;
static unsigned long tests;

static void expect(int ok, const char *what) {
    tests++;
    if (!ok) {
        printf("walk: %s\n", what);
        exit(1);
    }
}

/* The entry of the node at a place, as read and climb give it. */
static void entry_at(const uint32_t *place, uint32_t *entry) {
    uint32_t node[NL_READ], written;
    uint8_t path[NL_PATH];
    expect(nl_read(image, len, place[0], place[1], node) == 0, "read");
    expect(nl_climb(image, len, place[0], place[1], path, sizeof path, &written) == 0, "climb");
    entry[NL_ENTRY_LEVEL] = written / 4 + 1;
    entry[NL_ENTRY_PAGE] = place[0];
    entry[NL_ENTRY_OFFSET] = place[1];
    entry[NL_ENTRY_KIND] = node[NL_READ_KIND];
    entry[NL_ENTRY_ORIGIN] = node[NL_READ_ORIGIN];
    entry[NL_ENTRY_LABEL] = node[NL_READ_LABEL];
    entry[NL_ENTRY_CHILDREN] = node[NL_READ_CHILDREN];
    entry[NL_ENTRY_START] = node[NL_READ_START];
    entry[NL_ENTRY_LENGTH] = node[NL_READ_LENGTH];
}

/* What a walk of the whole tree must give, node by node. */
static void node_by_node(void) {
    uint32_t next[NL_NEXT] = {1, 1, 0};
    for (nodes = 0; next[NL_NEXT_FOUND]; nodes++) {
        expect(nodes < MOST_NODES, "more nodes than there is room for");
        entry_at(next + NL_NEXT_PAGE, want + NL_ENTRY * nodes);
        expect(nl_next(image, len, next[NL_NEXT_PAGE], next[NL_NEXT_OFFSET], next) == 0, "next");
    }
}

static int is_lent(size_t from) {
    while (from < NUMBERS && got[from] == LENT)
        from++;
    return from == NUMBERS;
}

/* A walk from node `first` on with so many numbers lent; gives the number of the node that comes next. */
static uint32_t walk_from(uint32_t first, size_t room) {
    uint32_t answer[NL_WALK], written = nodes - first, after;
    const uint32_t *from = want + NL_ENTRY * first;
    if (room / NL_ENTRY < written)
        written = (uint32_t)(room / NL_ENTRY);
    after = first + written;
    memset(got, LENT & 255, sizeof got);
    expect(nl_walk(image, len, from[NL_ENTRY_PAGE], from[NL_ENTRY_OFFSET], room ? got : NULL, room, answer) == 0, "a walk from a node is refused");
    expect(answer[NL_WALK_ENTRIES] == written, "a walk gives another number of entries");
    expect(!memcmp(got, from, sizeof *got * NL_ENTRY * written), "a walk differs from next, read and climb");
    expect(is_lent(NL_ENTRY * written), "a walk wrote more than its entries");
    expect(answer[NL_WALK_MORE] == (after < nodes), "whether more nodes follow");
    expect(answer[NL_WALK_PAGE] == (after < nodes ? want[NL_ENTRY * after + NL_ENTRY_PAGE] : 0) &&
               answer[NL_WALK_OFFSET] == (after < nodes ? want[NL_ENTRY * after + NL_ENTRY_OFFSET] : 0),
           "the place to go on from");
    return after;
}

/* The whole tree in steps: walk_from has found that the answer's place is that of the node it gives. */
static void steps(uint32_t entries, size_t spare) {
    uint32_t at = 0;
    while (at < nodes)
        at = walk_from(at, NL_ENTRY * entries + spare);
}

static void compare(const char *name) {
    static const uint32_t few[] = {1, 2, 7};
    uint32_t i;
    memcpy(before, image, len);
    node_by_node();
    expect(walk_from(0, NL_ENTRY * nodes) == nodes && walk_from(0, NL_ENTRY * nodes - 1) == nodes - 1, "the whole tree in one call");
    for (i = 0; i < 3; i++)
        steps(few[i], i * 4);
    for (i = 0; i < nodes; i++) {
        walk_from(i, NUMBERS - NL_ENTRY);
        walk_from(i, 0);
        walk_from(i, any(2 * NL_ENTRY));
    }
    expect(!memcmp(before, image, len), "a walk changed the image");
    printf("walk: %s: %u nodes\n", name, (unsigned)nodes);
}

/* A walk that is refused: its number, zeros, and nothing written. */
static uint32_t refused(size_t length, uint32_t page, uint32_t offset) {
    uint32_t answer[NL_WALK] = {1, 2, 3, 4}, number;
    number = nl_walk(image, length, page, offset, got, 4 * NL_ENTRY, answer);
    expect(!answer[0] && !answer[1] && !answer[2] && !answer[3], "a refused walk gives numbers");
    expect(is_lent(0), "a refused walk wrote to the buffer");
    return number;
}

/* Every byte of the image and some places beyond it: a walk begins where read finds a node, and nowhere else. */
static void every_byte(void) {
    uint32_t page, offset, node[NL_READ], begun = 0, pages = (uint32_t)(len / NL_PAGE);
    memset(got, LENT & 255, sizeof got);
    for (page = 0; page <= pages; page++)
        for (offset = 0; offset <= NL_PAGE; offset++) {
            if (nl_read(image, len, page, offset, node) == 0)
                begun++;
            else
                expect(refused(len, page, offset) == NL_STRAY, "a walk from no node");
        }
    expect(begun == nodes, "another number of nodes");
    expect(refused(len, 1, 65536) == NL_STRAY && refused(len, 65537, 0) == NL_STRAY && refused(len, 0xffffffffu, 0xffffffffu) == NL_STRAY &&
               refused(len, 1048577, 0) == NL_STRAY,
           "a walk from numbers that are no place");
}

static void refusals(void) {
    expect(refused(len - 1, 1, 0) == NL_LENGTH && refused(0, 1, 0) == NL_LENGTH && refused(NL_PAGE, 9, 9) == NL_LENGTH, "a walk on a wrong length");
    image[len - 1] ^= 1;
    expect(refused(len, 1, 0) == NL_BROKEN && refused(len, 9, 9) == NL_BROKEN && refused(len - 1, 9, 9) == NL_LENGTH, "a walk on a broken image");
    image[len - 1] ^= 1;
}

/* The path of an aggregate: down from the root by any children, to any level that takes a child. */
static size_t some_aggregate(uint8_t *path) {
    uint32_t place[NL_PLACE], node[NL_READ], child;
    size_t path_len = 0;
    int i;
    for (;;) {
        expect(nl_find(image, len, path, path_len, place) == 0 && nl_read(image, len, place[0], place[1], node) == 0, "no aggregate");
        if (!node[NL_READ_CHILDREN] || path_len == 88 || any(4) == 0)
            return path_len;
        child = any(node[NL_READ_CHILDREN]);
        for (i = 0; i < 4; i++)
            path[path_len + (size_t)i] = (uint8_t)(child >> (8 * i));
        expect(nl_find(image, len, path, path_len + 4, place) == 0 && nl_read(image, len, place[0], place[1], node) == 0, "no child");
        if (node[NL_READ_KIND] == NL_LITERAL)
            return path_len;
        path_len += 4;
    }
}

/* An image that is full, with nodes of all origins, down to level 24; some labels get records of their own. */
static void grow(uint32_t pages, uint32_t apart) {
    uint8_t matrix[256], path[NL_PATH] = {0}, content[NL_CONTENT];
    uint32_t i, kind, answer[NL_INSERT], number;
    size_t path_len, content_len;
    int32_t lean;
    len = pages * NL_PAGE;
    for (i = 0; i < 256; i++)
        matrix[i] = i % 16 < apart ? 0 : 2;
    memset(content, 0x41, sizeof content);
    expect(nl_format(image, len, pages, 128, 409, 1, matrix, 256, 7) == 0, "format");
    for (path_len = 0; path_len <= 88; path_len += 4)
        expect(nl_insert(image, len, path, path_len, 0, NL_AGGREGATE, NL_WIRE, 9, NULL, 0, answer, &lean) == 0, "insert down to level 24");
    do {
        path_len = some_aggregate(path);
        kind = 1 + any(2);
        content_len = kind == NL_AGGREGATE ? 0 : any(4) ? any(40) : any(NL_CONTENT + 1);
        number = nl_insert(image, len, path, path_len, 0, kind, any(4), (uint16_t)any(20), content, content_len, answer, &lean);
    } while (!number);
    expect(number == NL_FULL, "insert");
}

int main(void) {
    image = malloc(NL_PAGES * NL_PAGE), before = malloc(NL_PAGES * NL_PAGE);
    if (!image || !before)
        return 2;
    grow(16, 0);
    compare("grown");
    expect(nodes >= LEAST_NODES, "the grown image is small");
    every_byte();
    refusals();
    grow(40, 3);
    compare("grown, with records apart");
    len = NL_PAGES * NL_PAGE;
    make_chain(image, NL_PAGES, fill_few);
    compare("the deepest nesting");
    free(image);
    free(before);
    printf("walk: %lu tests\n", tests);
    return 0;
}
