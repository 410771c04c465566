/* The calls side by side in one run: the library, a plain C implementation of the same calls (calls.h), reading the image once, and SQLite
 * with the same tree as rows. The library and plain C check the whole image in every call; SQLite checks nothing. */
#include <sqlite3.h>
#include <stdio.h>
#include <stdlib.h>

#include "../include/nichelarder.h"
#include "calls.h"
#include "random.h"
#include "timing.h"

enum { NODES = 10000, LOOKUPS = 1000, MOST = 1024 * 4096 };

static void fail(const char *what) {
    printf("bench: %s\n", what);
    exit(1);
}

static volatile uint64_t sink;
static uint64_t sum(const uint8_t *p, size_t n) {
    uint64_t s = 0;
    for (size_t i = 0; i < n; i++) s += p[i];
    return s;
}

/* ── how cost grows ── */

/* The least of several times. */
#define LEAST(t, times, before, call)          \
    do {                                       \
        (t) = 1e9;                             \
        for (int i_ = 0; i_ < (times); i_++) { \
            before;                            \
            double a_ = now();                 \
            call;                              \
            double b_ = now() - a_;            \
            if (b_ < (t)) (t) = b_;            \
        }                                      \
    } while (0)

static void row(const char *call, unsigned pages, double s, double p, double l) {
    printf("%5u %-7s %9.1f %9.1f %9.1f %8.2f %8.2f\n", pages, call, 1e6 * s, 1e6 * p, 1e6 * l, l / s, l / p);
}

/* An image of which all but a few pages are used: literals of 100 bytes, put at random places of the root's row. */
static void grown(uint8_t *image, unsigned pages, uint32_t *children) {
    uint8_t matrix[256], content[100] = {1};
    uint32_t answer[3];
    int32_t lean;
    memset(matrix, 2, sizeof matrix);
    if (nl_format(image, 4096u * (size_t)pages, pages, 128, 409, 1, matrix, 256, 7)) fail("format");
    /* most of it as records side by side, so that this takes no time */
    if (pages > 8) make_nested(image, pages, 16, 0, 0, fill_literals);
    *children = width_of(image, 4096 + 6, 4096 + get16(image + 4096 + 4));
    for (int i = 0; i < 5; i++, ++*children)
        if (nl_insert(image, 4096u * (size_t)pages, content, 0, any(*children + 1), NL_LITERAL, NL_WIRE, 9, content, 100, answer, &lean)) fail("insert");
}

static void growth(unsigned pages, uint8_t *image, uint8_t *copy) {
    size_t len = 4096u * (size_t)pages, at;
    uint32_t children, place[2], written, next[5], answer[3];
    uint8_t path[4], back[92], content[100] = {2};
    int32_t lean;
    double s, p, l;
    grown(image, pages, &children);
    for (int i = 0; i < 4; i++) path[i] = (uint8_t)(children / 2 >> (8 * i));
    LEAST(s, 30, , sink += sum(image, len));
    LEAST(p, 30, , sink += (uint64_t)plain_check(image, len));
    LEAST(l, 30, , sink += nl_check(image, len));
    row("check", pages, s, p, l);
    LEAST(p, 30, , at = plain_find(image, len, path, 4));
    LEAST(l, 30, , sink += nl_find(image, len, path, 4, place));
    if (at != 4096u * (size_t)place[0] + place[1]) fail("find differs");
    row("find", pages, s, p, l);
    LEAST(p, 30, , written = (uint32_t)plain_climb(image, len, at, back));
    if (written != 4 || memcmp(back, path, 4)) fail("plain climb differs");
    LEAST(l, 30, , sink += nl_climb(image, len, place[0], place[1], back, 92, &written));
    if (written != 4 || memcmp(back, path, 4)) fail("climb differs");
    row("climb", pages, s, p, l);
    size_t after = 0;
    LEAST(p, 30, , after = plain_next(image, len, at));
    LEAST(l, 30, , sink += nl_next(image, len, place[0], place[1], next));
    if (after != 4096u * (size_t)next[1] + next[2] || next[3] != image[after] || next[4] != image[after + 1]) fail("next differs");
    row("next", pages, s, p, l);
    int splits = 0;
    LEAST(p, 30, memcpy(copy, image, len), splits = plain_insert(copy, len, path, 0, children / 2, 2, NL_TYPED_IN, 9, content, 100, &after));
    uint64_t want = sum(copy, len);
    LEAST(l, 30, memcpy(copy, image, len), sink += nl_insert(copy, len, path, 0, children / 2, NL_LITERAL, NL_TYPED_IN, 9, content, 100, answer, &lean));
    if (splits != (int)answer[2] || after != 4096u * (size_t)answer[0] + answer[1] || want != sum(copy, len)) fail("insert differs");
    row("insert", pages, s, p, l);
}

/* ── a tree of 10,000 nodes ── */

static sqlite3 *db;
static sqlite3_stmt *stmt(const char *sql) {
    sqlite3_stmt *s;
    if (sqlite3_prepare_v2(db, sql, -1, &s, NULL) != SQLITE_OK) fail(sqlite3_errmsg(db));
    return s;
}

static void run(sqlite3_stmt *s) {
    if (sqlite3_step(s) != SQLITE_DONE) fail(sqlite3_errmsg(db));
    sqlite3_reset(s);
}

/* Which aggregate of the second level each node goes under, and where; 1 is the root. */
static uint32_t parents[NODES], places[NODES], kids[101];

static void plan(void) {
    memset(kids, 0, sizeof kids);
    for (uint32_t i = 0; i < NODES; i++) {
        parents[i] = i < 100 ? 0 : 1 + any(100);
        places[i] = i < 100 ? i : any(kids[parents[i]] + 1);
        kids[parents[i]]++;
    }
}

static void path_of(uint32_t parent, uint8_t *path) {
    for (int i = 0; i < 4; i++) path[i] = (uint8_t)((parent - 1) >> (8 * i));
}

/* The tree in order, each node by a call of its own. */
static double walk_by_next(const uint8_t *image, size_t len) {
    uint32_t next[5] = {1, 1, 0, 0, 0}, count = 1;
    double a = now();
    for (;; count++) {
        if (nl_next(image, len, next[1], next[2], next)) fail("next");
        if (!next[0]) break;
    }
    a = now() - a;
    if (count != NODES + 1) fail("the walk is short");
    return a;
}

static double walk_by_plain(const uint8_t *image, size_t len) {
    size_t at = 4096, count = 0;
    double a = now();
    for (; at; count++) at = plain_next(image, len, at);
    a = now() - a;
    if (count != NODES + 1) fail("the plain walk is short");
    return a;
}

/* The same by walks of so many entries a call; the numbers are read, as SQLite's rows are. The median. */
static double walk_by_walks(const uint8_t *image, size_t len, size_t entries) {
    static uint32_t numbers[NL_ENTRY * (NODES + 1)];
    double t[TIMES];
    memset(numbers, 1, sizeof numbers);
    for (int i = 0; i < TIMES; i++) {
        uint32_t walked[NL_WALK] = {0, 1, 1, 0}, count = 0;
        t[i] = now();
        while (walked[NL_WALK_MORE]) {
            if (nl_walk(image, len, walked[NL_WALK_PAGE], walked[NL_WALK_OFFSET], numbers, NL_ENTRY * entries, walked)) fail("walk");
            for (uint32_t k = 0; k < walked[NL_WALK_ENTRIES]; k++) sink += numbers[NL_ENTRY * k + NL_ENTRY_START];
            count += walked[NL_WALK_ENTRIES];
        }
        t[i] = now() - t[i];
        if (count != NODES + 1) fail("the walk by walks is short");
    }
    return median(t);
}

/* The median. */
static double walk_by_query(void) {
    sqlite3_stmt *walk = stmt("with recursive t(id, path) as (select 1, '' union all select n.id, "
                              "t.path || printf('%08x', n.pos) from node n join t on n.parent = t.id) "
                              "select n.id, n.content from t join node n on n.id = t.id order by t.path");
    double t[TIMES];
    for (int i = 0; i < TIMES; i++) {
        size_t count = 0;
        t[i] = now();
        for (; sqlite3_step(walk) == SQLITE_ROW; count++) sink += (uint64_t)sqlite3_column_int64(walk, 0);
        t[i] = now() - t[i];
        if (count != NODES + 1) fail("SQLite's walk is short");
        sqlite3_reset(walk);
    }
    sqlite3_finalize(walk);
    return median(t);
}

/* Milliseconds of a row; plain C has no walk. */
static void tree_row(const char *name, const double *t) {
    printf("%-24s %9.2f", name, 1e3 * t[0]);
    if (t[1] > 0)
        printf(" %9.2f %9.2f %14.2f", 1e3 * t[1], 1e3 * t[2], t[0] / t[1]);
    else
        printf(" %9s %9.2f %14s", "-", 1e3 * t[2], "-");
    printf(" %15.2f\n", t[0] / t[2]);
}

static void tree(uint8_t *image, size_t pages, uint8_t *copy) {
    size_t len = 4096 * pages, at = 4096;
    uint8_t matrix[256], content[60] = {3}, path[8];
    uint32_t answer[3], place[2];
    int32_t lean;
    double t[5][3], a;
    plan();
    memset(matrix, 2, sizeof matrix);

    a = now();
    if (nl_format(image, len, (uint32_t)pages, 128, 409, 1, matrix, 256, 7)) fail("format");
    for (uint32_t i = 0; i < NODES; i++) {
        path_of(parents[i], path);
        if (nl_insert(image, len, path, parents[i] ? 4 : 0, places[i], parents[i] ? NL_LITERAL : NL_AGGREGATE, i % 4, 9, content, parents[i] ? 60 : 0,
                      answer, &lean)) fail("insert");
    }
    t[0][0] = now() - a;
    a = now();
    nl_format(copy, len, (uint32_t)pages, 128, 409, 1, matrix, 256, 7);
    for (uint32_t i = 0; i < NODES; i++) {
        path_of(parents[i], path);
        if (plain_insert(copy, len, path, parents[i] ? 4 : 0, places[i], parents[i] ? 2 : 1, i % 4, 9, content, parents[i] ? 60 : 0, &at) < 0)
            fail("plain insert");
    }
    t[0][1] = now() - a;
    if (memcmp(image, copy, len)) fail("the images differ");

    if (sqlite3_open(":memory:", &db) != SQLITE_OK) fail("sqlite");
    sqlite3_exec(db, "create table node(id integer primary key, parent integer, pos integer, kind integer, origin integer, label integer, content blob);"
                     "create index child on node(parent, pos);", NULL, NULL, NULL);
    sqlite3_stmt *move = stmt("update node set pos = pos + 1 where parent = ? and pos >= ?"), *put = stmt("insert into node values(?, ?, ?, ?, ?, ?, ?)");
    a = now();
    sqlite3_exec(db, "begin; insert into node values(1, 0, 0, 1, 0, 7, null)", NULL, NULL, NULL);
    for (uint32_t i = 0; i < NODES; i++) {
        sqlite3_int64 parent = 1 + (sqlite3_int64)parents[i];
        sqlite3_bind_int64(move, 1, parent), sqlite3_bind_int64(move, 2, places[i]), run(move);
        sqlite3_bind_int64(put, 1, 2 + (sqlite3_int64)i), sqlite3_bind_int64(put, 2, parent), sqlite3_bind_int64(put, 3, places[i]);
        sqlite3_bind_int(put, 4, parents[i] ? 2 : 1), sqlite3_bind_int(put, 5, (int)(i % 4)), sqlite3_bind_int(put, 6, 9),
            sqlite3_bind_blob(put, 7, content, parents[i] ? 60 : 0, SQLITE_STATIC), run(put);
    }
    sqlite3_exec(db, "commit", NULL, NULL, NULL);
    t[0][2] = now() - a;

    t[1][0] = walk_by_next(image, len), t[1][1] = walk_by_plain(image, len);
    t[2][0] = walk_by_walks(image, len, 64), t[3][0] = walk_by_walks(image, len, NODES + 1), t[2][1] = t[3][1] = 0;
    t[1][2] = t[2][2] = t[3][2] = walk_by_query();

    uint32_t at_parent[LOOKUPS], at_child[LOOKUPS];
    for (int i = 0; i < LOOKUPS; i++) at_parent[i] = 1 + any(100), at_child[i] = any(kids[at_parent[i]]);
    for (int who = 0; who < 3; who++) {
        sqlite3_stmt *child = stmt("select id from node where parent = ? and pos = ?");
        a = now();
        for (int i = 0; i < LOOKUPS; i++) {
            uint32_t steps[2] = {at_parent[i] - 1, at_child[i]};
            for (int k = 0; k < 8; k++) path[k] = (uint8_t)(steps[k / 4] >> (8 * (k % 4)));
            if (who == 0 && nl_find(image, len, path, 8, place)) fail("find");
            if (who == 1 && !plain_find(image, len, path, 8)) fail("plain find");
            sqlite3_int64 id = 1;
            for (int k = 0; who == 2 && k < 2; k++) {
                sqlite3_bind_int64(child, 1, id), sqlite3_bind_int64(child, 2, steps[k]);
                if (sqlite3_step(child) != SQLITE_ROW) fail("SQLite's find");
                id = sqlite3_column_int64(child, 0);
                sqlite3_reset(child);
            }
        }
        t[4][who] = now() - a;
        sqlite3_finalize(child);
    }
    const char *names[] = {"build 10,000 nodes", "next, node by node", "walk, 64 entries a call", "walk, one call", "look up 1,000 paths"};
    puts("\nmilliseconds               library   plain C    SQLite  library/plain  library/SQLite");
    for (int i = 0; i < 5; i++) tree_row(names[i], t[i]);
}

int main(void) {
    static const unsigned sizes[] = {4, 40, 400, 1000};
    uint8_t *image = malloc(MOST), *copy = malloc(MOST);
    if (!image || !copy) return 2;
    puts("microseconds (the least of 30)\npages call     read once   plain C   library /read    /plain");
    for (int i = 0; i < 4; i++) growth(sizes[i], image, copy);
    tree(image, 400, copy);
    return 0;
}
