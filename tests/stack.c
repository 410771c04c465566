/* How much stack the calls take, measured on a thread whose stack is painted, in bytes. Each keeps to the header's figures on every image: NL_STACK_READ for a
 * call that changes nothing, NL_STACK_CHANGE for any. Records that are nested in one another take nothing: with 1 and with 1,022 of them a call takes as much,
 * but for 64 bytes at most. An insert takes at most 24 KB beside the check of the same image, a removal at most 8 KB.
 * The images: a small tree; one grown by inserts; two whose splits cascade, the second through as many records as can be; one whose split goes down through
 * all levels; aggregates on all levels with a node beside each, since the check goes into those with a call a level, in one record and each the root of its
 * own; the deepest nesting of records, a chain of helper records through 1,022 pages, in the root's row, in one branch, which is removed whole, and in the
 * last of the aggregates, and the same with a chain of one. Then broken ones: a level too many, alone and with the chain, and the chains broken at their end.
 * `stack save FILE` writes the image whose split goes down through all levels. `stack first CALL FILE` measures the first call of a process, on that image:
 * where the program is bound lazily, the loader looks up memset and memcpy on the caller's stack then. */
#define _POSIX_C_SOURCE 200809L
#include "../bench/images.h"
#include "../include/nichelarder.h"
#include <fcntl.h>
#include <pthread.h>
#include <stdio.h>
#include <stdlib.h>
#include <string.h>
#include <unistd.h>

#define STACK (1u << 20)
#define PAINT 0xa5
#define MOST_INSERT 24576
#define MOST_REMOVAL 8192

static uint8_t *image, *before;
static size_t image_len;
static uint8_t content[520], path[92];
static uint32_t number, child, answer[3], place[2], numbers[6], entries[NL_ENTRY * 2 * NL_PAGES];
static uint8_t lent[2 * NL_PAGES];
static size_t above; /* the parent's path is so many zeros of the content; that of the node to remove has an entry more */
static int32_t lean;

static void *check(void *unused) {
    (void)unused;
    number = nl_check(image, image_len);
    return NULL;
}

static void *format_again(void *unused) {
    (void)unused;
    number = nl_format(image, image_len, (uint32_t)(image_len / NL_PAGE), 128, 409, NL_FORM, image + 16, NL_MATRIX, 7);
    return NULL;
}

static void *insert(void *unused) {
    (void)unused;
    number = nl_insert(image, image_len, content, above, child, NL_LITERAL, NL_WIRE, 9, content, 520, answer, &lean);
    return NULL;
}

static void *removal(void *unused) {
    (void)unused;
    number = nl_remove(image, image_len, path, above + 4);
    return NULL;
}

static void *diagnose(void *unused) {
    (void)unused;
    number = nl_diagnose(image, image_len, numbers);
    return NULL;
}

static void *find(void *unused) {
    (void)unused;
    number = nl_find(image, image_len, path, above, numbers);
    return NULL;
}

static void *climb(void *unused) {
    (void)unused;
    number = nl_climb(image, image_len, place[0], place[1], lent, NL_PATH, numbers);
    return NULL;
}

static void *read_node(void *unused) {
    (void)unused;
    number = nl_read(image, image_len, place[0], place[1], numbers);
    return NULL;
}

static void *next_node(void *unused) {
    (void)unused;
    number = nl_next(image, image_len, place[0], place[1], numbers);
    return NULL;
}

static void *walk(void *unused) {
    (void)unused;
    number = nl_walk(image, image_len, place[0], place[1], entries, sizeof entries / sizeof *entries, numbers);
    return NULL;
}

static void *records(void *unused) {
    (void)unused;
    number = nl_records(image, image_len, lent, sizeof lent, numbers);
    return NULL;
}

static void *nothing(void *unused) { return unused; }

static size_t used(void *(*run)(void *)) {
    static uint8_t *stack;
    volatile uint8_t *paint; /* no memset: it would look itself up for the first call */
    pthread_attr_t attr;
    pthread_t thread;
    size_t i;
    if (!stack && posix_memalign((void **)&stack, 4096, STACK))
        exit(2);
    for (paint = stack, i = 0; i < STACK; i++)
        paint[i] = PAINT;
    i = 0;
    pthread_attr_init(&attr);
    if (pthread_attr_setstack(&attr, stack, STACK) || pthread_create(&thread, &attr, run, NULL))
        exit(2);
    pthread_join(thread, NULL);
    while (i < STACK && stack[i] == PAINT)
        i++;
    return STACK - i;
}

static size_t base, worst_insert, worst_removal; /* the most that each took beside the check so far */

/* What each call takes, at most. */
struct taken {
    const char *name;
    void *(*run)(void *);
    size_t figure; /* the header's, which it must not pass */
    size_t most;
};

/* What was measured on the images with a chain of one record and, in the same order, with one of 1,022: how many times so far, and which of the two. */
static size_t seen[2][512], times;
static int chain = -1;
static uint32_t wanted; /* what every call is to answer */

static struct taken reads[] = {
    {"check", check, NL_STACK_READ, 0},     {"diagnose", diagnose, NL_STACK_READ, 0}, {"walk", walk, NL_STACK_READ, 0},
    {"find", find, NL_STACK_READ, 0},       {"climb", climb, NL_STACK_READ, 0},       {"read", read_node, NL_STACK_READ, 0},
    {"next", next_node, NL_STACK_READ, 0}, {"records", records, NL_STACK_READ, 0}};
static struct taken inserts = {"insert", insert, NL_STACK_CHANGE, 0}, removals = {"remove", removal, NL_STACK_CHANGE, 0};
static struct taken formats = {"format", format_again, NL_STACK_CHANGE, 0};

enum { READS = sizeof reads / sizeof *reads };

static void raise_to(size_t *most, size_t n) {
    if (n > *most)
        *most = n;
}

static size_t take(struct taken *t) {
    size_t n = used(t->run) - base;
    if (number != wanted || times == sizeof seen[0] / sizeof *seen[0])
        exit(2);
    raise_to(&t->most, n);
    if (chain >= 0)
        seen[chain][times++] = n;
    return n;
}

/* Runs a call that changes the image, which stays. */
static size_t beside(struct taken *t, size_t c, size_t *worst) {
    size_t n = take(t);
    memcpy(image, before, image_len);
    raise_to(worst, n > c ? n - c : 0);
    return n;
}

/* The calls that change nothing, at the place in `place`. */
static void measure_reads(void) {
    int i;
    for (i = 0; i < READS; i++)
        take(reads + i);
}

/* Prints what a call takes; 1 if that is more than the header says. */
static int report(const struct taken *t) {
    printf("%-8s %5zu bytes of stack at most\n", t->name, t->most);
    if (t->most > t->figure)
        printf("stack: %s takes %zu, and the header says %zu\n", t->name, t->most, t->figure);
    return t->most > t->figure;
}

/* 1 if a call takes another amount, by over 64 bytes, where 1,022 records are nested in one another than where one is. */
static int report_nested(size_t ones) {
    size_t i, most = 0;
    for (i = 0; i < times; i++)
        raise_to(&most, seen[0][i] < seen[1][i] ? seen[1][i] - seen[0][i] : seen[0][i] - seen[1][i]);
    printf("with 1 and with 1,022 records nested in one another, %zu calls: they differ by %zu bytes at most\n", times, most);
    return most > 64 || times != ones || !times;
}

/* All calls on a broken image, which they refuse. */
static void measure_broken(void) {
    wanted = NL_BROKEN;
    measure_reads();
    take(&inserts);
    take(&removals);
    wanted = NL_OK;
}

/* The path of a child of the parent. */
static void put_child(uint32_t k) {
    int i;
    memset(path, 0, above);
    for (i = 0; i < 4; i++)
        path[above + (size_t)i] = (uint8_t)(k >> (8 * i));
}

/* The calls that change nothing, at the root, at the parent and at its first and its last child; format; insert as the first and as the last child of the
 * parent, and removal of its first and of its last child. */
static void measure(const char *name) {
    uint32_t parent[6];
    size_t c = used(check) - base, n;
    int last;
    memset(path, 0, sizeof path);
    place[0] = 1, place[1] = 0;
    measure_reads();
    nl_find(image, image_len, content, above, place);
    nl_read(image, image_len, place[0], place[1], parent);
    measure_reads();
    memcpy(before, image, image_len);
    for (last = 0; last < 2 && parent[2]; last++) {
        put_child(last ? parent[2] - 1 : 0);
        nl_find(image, image_len, path, above + 4, place);
        measure_reads();
    }
    take(&formats);
    memcpy(image, before, image_len);
    for (last = 0; last < 2; last++) {
        child = last ? parent[2] : 0;
        n = beside(&inserts, c, &worst_insert);
        if (name)
            printf("%-8s check %7zu  insert %7zu bytes of stack, answer %u, %u splits\n", name, c, n, number, answer[2]);
    }
    for (last = 0; last < 2 && parent[2]; last++) {
        put_child(last ? parent[2] - 1 : 0);
        n = beside(&removals, c, &worst_removal);
        if (name)
            printf("%-8s check %7zu  remove %7zu bytes of stack, answer %u\n", name, c, n, number);
    }
}

static void two(uint8_t *p, unsigned v) { p[0] = v & 255; p[1] = v >> 8; }

static uint32_t format(unsigned pages, unsigned tolerance) {
    uint8_t matrix[256];
    memset(matrix, 2, sizeof matrix);
    image_len = 4096u * pages;
    return nl_format(image, image_len, pages, 128, tolerance, 1, matrix, 256, 7);
}

/* A record of a helper with a literal and the proxy of the next page's record. */
static void link_page(unsigned page, unsigned last) {
    uint8_t *p = image + 4096u * page;
    unsigned n = 0;
    if (page == 1) {
        two(p, 1), two(p + 2, 7), n = 6;
    } else {
        two(p, 4), n = 6;
        two(p + n, 2), two(p + n + 4, 6), n += 6;
    }
    if (page < last)
        two(p + n, 3), two(p + n + 4, 8), two(p + n + 6, page + 1), n += 8;
    else
        two(p + n, 2), two(p + n + 4, 6), n += 6;
    two(p + 4, n);
    p[4080] = 1, p[4081] = page == 1, two(p + 4082, n), two(p + 4084, page - 1);
}

/* The chain of records from page 1 on, in so many pages. */
static void make_links(unsigned pages) {
    unsigned k;
    if (format(pages, 409))
        exit(2);
    for (k = 1; k < pages; k++)
        link_page(k, pages - 1);
}

/* So many aggregates in one another, each with a literal after it. The last holds a literal, after a proxy to the records of all other pages, if there are
 * any: each is a helper with the proxy of the next and a literal after it. */
static void make_levels(unsigned levels, unsigned pages) {
    unsigned page;
    image_len = 4096u * pages;
    memset(image, 0, image_len);
    put_settings(image, pages);
    for (page = 1; page < pages; page++) {
        uint8_t *p = image + 4096u * page, *inner = page == 1 ? p + 6 * levels : p, *at = inner + 6;
        at = page + 1 < pages ? put_proxy(at, page + 1) : put_node(at, 2, 9, 6);
        at = put_node(at, 2, 9, 6);
        for (; inner > p; inner -= 6) {
            put_node(inner, 1, 9, (unsigned)(at - inner));
            at = put_node(at, 2, 9, 6);
        }
        put_node(p, page == 1 ? 1 : 4, page == 1 ? 7 : 0, (unsigned)(at - p));
        put_trailer(p, 1, page == 1, (unsigned)(at - p), page - 1);
    }
}

/* One aggregate in another down to level 23, the last full of literals: with tolerance 0, a split goes down to them. */
static void make_deep_split(void) {
    unsigned k;
    if (format(64, 0))
        exit(2);
    for (above = 0; above < 88; above += 4)
        if (nl_insert(image, image_len, content, above, 0, NL_AGGREGATE, NL_WIRE, 9, content, 0, answer, &lean))
            exit(2);
    for (k = 0; k < 7; k++)
        if (nl_insert(image, image_len, content, above, 0, NL_LITERAL, NL_WIRE, 9, content, 520, answer, &lean))
            exit(2);
}

/* Aggregates on all levels, each the root of a record of its own, with a literal behind the proxy of the next. */
static void make_roots(void) {
    unsigned page;
    image_len = 4096u * (NL_LEVELS + 1);
    memset(image, 0, image_len);
    put_settings(image, NL_LEVELS + 1);
    for (page = 1; page <= NL_LEVELS; page++) {
        uint8_t *p = image + 4096u * page, *at = p + 6;
        if (page < NL_LEVELS)
            at = put_node(put_proxy(at, page + 1), 2, 9, 6);
        put_node(p, 1, 9, (unsigned)(at - p));
        put_trailer(p, 1, page == 1, (unsigned)(at - p), page - 1);
    }
}

/* A chain of records, whole, and broken in its last one: its last node, then a byte past it. */
static void measure_chain(const char *name, unsigned pages) {
    uint8_t *last = image + 4096u * (pages - 1u);
    measure(pages == NL_PAGES ? name : NULL);
    last[12] = 5;
    measure_broken();
    last[12] = 2;
    last[4079] = 1;
    measure_broken();
    last[4079] = 0;
}

/* All images with so many pages in which helpers' records are nested, whole and broken. */
static void measure_nested(unsigned pages) {
    above = 88;
    make_levels(22, pages);
    measure_chain("all", pages);
    make_levels(23, pages);
    measure_broken();
    above = 0;
    make_links(pages);
    measure_chain("deepest", pages);
    /* the proxy of page 2 in an aggregate of the root */
    memcpy(image + 4096 + 12, image + 4096 + 6, 8);
    two(image + 4096 + 6, 1), two(image + 4096 + 8, 9), two(image + 4096 + 10, 14);
    two(image + 4096 + 4, 20), two(image + 4096 + 4082, 20);
    measure_chain("branch", pages);
}

/* The image of a file, as `save` writes it. */
static void load(const char *name) {
    int file = open(name, O_RDONLY);
    ssize_t n = file < 0 ? -1 : read(file, image, 4096u * NL_PAGES);
    if (n <= 0)
        exit(2);
    image_len = (size_t)n;
    above = 88;
    place[0] = 1;
}

/* The first call of this process, by its name: what it takes, and whether that is more than the header says. */
static int first(const char *name) {
    struct taken *all[READS + 3] = {&inserts, &removals, &formats};
    int i;
    for (i = 0; i < READS; i++)
        all[i + 3] = reads + i;
    for (i = 0; i < READS + 3; i++)
        if (!strcmp(all[i]->name, name)) {
            size_t n = used(all[i]->run) - base;
            printf("%-8s %5zu bytes of stack as a process's first call, answer %u\n", name, n, number);
            if (n > all[i]->figure)
                printf("stack: the header says %zu\n", all[i]->figure);
            return number || n > all[i]->figure;
        }
    return 2;
}

int main(int argc, char **argv) {
    unsigned k;
    size_t ones;
    int over;
    base = used(nothing);
    image = malloc(4096u * 1024), before = malloc(4096u * 1024);
    if (!image || !before)
        return 2;
    if (argc == 4) {
        load(argv[3]);
        return first(argv[2]);
    }
    if (argc == 3) {
        FILE *out = fopen(argv[2], "wb");
        make_deep_split();
        return !out || fwrite(image, 1, image_len, out) != image_len || fclose(out);
    }
    if (format(64, 409))
        return 2;
    measure("small");
    /* in front of each other, until several records have been split */
    for (k = 0; k < 40; k++) {
        if (nl_insert(image, image_len, content, 0, 0, k % 3 ? NL_LITERAL : NL_AGGREGATE, k % 4, 9, content, k % 3 ? 520 : 0, answer, &lean))
            break;
        measure(NULL);
    }
    measure("grown");
    /* five nested records that are full: a node in front goes into the deepest, and all are split */
    make_nested(image, 64, 16, 5, 0, fill_literals);
    measure("cascade");
    make_deep_split();
    measure("split");
    /* aggregates down to level 23; a level more breaks the image */
    make_levels(22, 2);
    measure("levels");
    make_levels(23, 2);
    measure_broken();
    above = 0;
    make_roots();
    measure("roots");
    /* the longest cascade: 511 full records */
    make_chain(image, 512, fill_small);
    memset(image + 4096u * 512, 0, 4096u * 512);
    put16(image, 1024);
    image_len = 4096u * 1024;
    measure("longest");
    chain = 0;
    measure_nested(3);
    ones = times, times = 0, chain = 1;
    measure_nested(NL_PAGES);
    over = report(&formats) + report(&inserts) + report(&removals) + report_nested(ones);
    for (k = 0; k < READS; k++)
        over += report(reads + k);
    printf("insert beside the check: at most %zu bytes\n", worst_insert);
    printf("remove beside the check: at most %zu bytes\n", worst_removal);
    return worst_insert > MOST_INSERT || worst_removal > MOST_REMOVAL || over;
}
