/* A tool for the desk: looks at an image in a file, by the calls of nichelarder.h. It changes no image.
 * Whether an image is damaged, on which page and for what reason, is the library's verdict alone. The rules of trailers and nodes are repeated here only to
 * say which field is wrong, and to draw.
 * From the repository's root: cc -std=c99 -O2 tools/nichelarder.c target/staticlib/libnichelarder.a -o target/nichelarder */
#include "../include/nichelarder.h"
#include <errno.h>
#include <stdarg.h>
#include <stdio.h>
#include <stdlib.h>
#include <string.h>

static const char usage[] = "usage: nichelarder COMMAND .. [IMAGE]\n"
                            "  check [IMAGE]                     whether the image keeps all rules\n"
                            "  diagnose [IMAGE]                  what is wrong with it, in one sentence\n"
                            "  list [IMAGE]                      every node: level, A or L, label, content, origin\n"
                            "  records [IMAGE]                   every record: its page, holder, length, nesting, kind\n"
                            "  find PATH [IMAGE]                 the node at a path such as 0/3/1, and its place; / is the root\n"
                            "  climb PAGE OFFSET [IMAGE]         the path of the node at a place\n"
                            "  picture OUT.svg [IMAGE [PAGE]]    a drawing of the pages, and of one of them its nodes\n"
                            "  --help, --version\n"
                            "IMAGE is a file, or - or none for standard input. In the drawing, PAGE is page 1, or the damaged one, if\n"
                            "it is not given; OUT.svg may be - for standard output.\n"
                            "Exit status: 0 done, 1 refused or damaged, 2 a wrong command line, or a file that cannot be read or written.\n";

enum status { DONE = 0, REFUSED = 1, TROUBLE = 2 };

/* The numbers of the format: headers, trailers and where a trailer's fields stand in a page. */
enum { HEADER = 6, TYPE = 4080, SETTLED = 4081, USED = 4082, BACK = 4084, SETTINGS_LENGTH = 272 };
enum { PROXY = 3, HELPER = 4 };
enum { IS_FREE = 0, IS_RECORD = 1, IS_SETTINGS = 2 };

static const char *const kinds[] = {"node", "aggregate", "literal", "proxy", "helper"};
static const char *const origins[] = NL_ORIGIN_NAMES;

/* One byte more than an image can have is kept, so that the library is lent a wrong length where the input has one; `total` counts all of it. */
enum { MOST = 4096 * 1024 };

struct image {
    const char *name;
    uint8_t *bytes;
    size_t len, total;
};

static unsigned two(const uint8_t *at) { return at[0] + 256u * at[1]; }
static unsigned pages_of(const struct image *image) { return (unsigned)(image->len / NL_PAGE); }
static const uint8_t *page_at(const struct image *image, unsigned page) { return image->bytes + (size_t)NL_PAGE * page; }

/* A sentence, or a part of one; it lasts until the next one is made. */
static const char *say(const char *format, ...) {
    static char text[400];
    va_list values;
    va_start(values, format);
    vsnprintf(text, sizeof text, format, values);
    va_end(values);
    return text;
}

/* ── reading the input and the command line ── */

static int misused(const char *what) {
    fprintf(stderr, "nichelarder: %s\n%s", what, usage);
    return TROUBLE;
}

static int trouble(const char *name) {
    fprintf(stderr, "nichelarder: %s: %s\n", name, strerror(errno));
    return TROUBLE;
}

static int is_standard(const char *name) { return name == NULL || strcmp(name, "-") == 0; }

/* Reads all there is; what is past the longest image is only counted, so that whoever writes it into a pipe is not stopped. */
static int read_all(FILE *in, struct image *image) {
    static uint8_t spare[NL_PAGE];
    uint8_t *exact;
    size_t n;
    while (image->len <= MOST && (n = fread(image->bytes + image->len, 1, MOST + 1 - image->len, in)) > 0)
        image->len += n;
    image->total = image->len;
    while ((n = fread(spare, 1, sizeof spare, in)) > 0)
        image->total += n;
    if (ferror(in))
        return trouble(image->name);
    exact = realloc(image->bytes, image->len ? image->len : 1);
    if (exact)
        image->bytes = exact;
    return DONE;
}

static int load(const char *name, struct image *image) {
    FILE *in = is_standard(name) ? stdin : fopen(name, "rb");
    int status;
    image->name = is_standard(name) ? "standard input" : name;
    image->bytes = NULL;
    image->len = image->total = 0;
    if (!in)
        return trouble(name);
    image->bytes = malloc(MOST + 1);
    status = image->bytes ? read_all(in, image) : trouble(image->name);
    if (in != stdin)
        fclose(in);
    return status;
}

/* A whole number in decimal, up to 2^32 - 1; gives the end of its digits, or NULL if there is none. */
static const char *number_in(const char *text, uint32_t *number) {
    uint64_t n = 0;
    const char *at = text;
    for (; *at >= '0' && *at <= '9'; at++) {
        n = 10 * n + (uint64_t)(*at - '0');
        if (n > UINT32_MAX)
            return NULL;
    }
    *number = (uint32_t)n;
    return at > text ? at : NULL;
}

static int is_number(const char *text, uint32_t *number) {
    const char *end = number_in(text, number);
    return end && *end == '\0';
}

/* The bytes of a path such as 0/3/1; room for one entry more than a path may have, which the library then refuses. */
static int is_path(const char *text, uint8_t path[NL_PATH + 4], size_t *len) {
    uint32_t child;
    int i;
    *len = 0;
    if (*text == '/')
        text++;
    while (*text) {
        text = number_in(text, &child);
        if (!text || (*text && (*text != '/' || !text[1])))
            return 0;
        if (*text)
            text++;
        for (i = 0; *len < NL_PATH + 4 && i < 4; i++, child >>= 8)
            path[(*len)++] = (uint8_t)(child & 255u);
    }
    return 1;
}

/* ── refusals ── */

/* What a refusal is, and what to do about it. */
static const char *refusal(const struct image *image, uint32_t number) {
    const char *todo = "";
    char length[120];
    switch (number) {
    case NL_LENGTH:
        snprintf(length, sizeof length, "the input has %lu bytes, and an image 2 to 1,024 pages of 4,096; copy the whole image and nothing more",
                 (unsigned long)image->total);
        todo = length;
        break;
    case NL_BROKEN: todo = "the image is damaged or was never formatted; `nichelarder diagnose` says where"; break;
    case NL_LEVEL: todo = "a path has at most 23 child numbers"; break;
    case NL_ABSENT: todo = "look the node up again; `nichelarder list` shows all"; break;
    case NL_STRAY: todo = "the place is from before a change, or never was one; find the node by its path"; break;
    default: break;
    }
    return say("%s (%lu): %s", nl_refusal_name(number), (unsigned long)number, todo);
}

static int refused(const struct image *image, uint32_t number) {
    fprintf(stderr, "nichelarder: %s: %s\n", image->name, refusal(image, number));
    return REFUSED;
}

/* ── a record's nodes, as far as its bytes are nodes ── */

/* The nodes of a page's record in the order of bytes, each holder before what it holds. */
struct scan {
    const uint8_t *page;
    unsigned at, depth, aggregates; /* holders around the next node; aggregates among them */
    unsigned ends[NL_CAPACITY / HEADER + 1];
    uint8_t holders[NL_CAPACITY / HEADER + 1];
};

struct node {
    unsigned at, kind, origin, label, size, depth, aggregates;
};

static void begin(struct scan *scan, const uint8_t *page) {
    unsigned used = two(page + USED);
    memset(scan, 0, sizeof *scan);
    scan->page = page;
    scan->ends[0] = used > NL_CAPACITY ? NL_CAPACITY : used;
}

/* What is wrong with a node by itself or with where it stands, or NULL. */
static const char *node_fault(const struct scan *scan, const struct node *node, unsigned left) {
    unsigned holder = scan->holders[scan->depth];
    const uint8_t *at = scan->page + node->at;
    if (left < HEADER)
        return say("at byte %u there are %u bytes for a node, and it has 6 at least", node->at, left);
    if (node->size < HEADER || node->size > left)
        return say("the size of its node at byte %u is %u, and 6 to %u fit there", node->at, node->size, left);
    if (node->kind < NL_AGGREGATE || node->kind > HELPER)
        return say("the kind of its node at byte %u is %u, and there are 1 to 4", node->at, node->kind);
    if (holder == 0 ? node->kind == PROXY : node->kind == HELPER)
        return say("at byte %u it has a %s %s", node->at, kinds[node->kind], holder == 0 ? "as the record's root" : "inside another node");
    if (node->origin > NL_DERIVED || (node->kind > NL_LITERAL && node->origin))
        return say("the origin of its %s at byte %u is %u, and %s", kinds[node->kind], node->at, node->origin,
                   node->kind > NL_LITERAL ? "it has none" : "there are 0 to 3");
    if (node->kind > NL_LITERAL && node->label)
        return say("the label of its %s at byte %u is %u, and it has none", kinds[node->kind], node->at, node->label);
    if (node->kind == NL_LITERAL && node->size > HEADER + NL_CONTENT)
        return say("its literal at byte %u has %u content bytes, and at most 520 fit", node->at, node->size - HEADER);
    if (node->kind == PROXY && node->size != HEADER + 2)
        return say("the size of its proxy at byte %u is %u, and must be 8", node->at, node->size);
    if (node->kind == HELPER && (node->size < 2 * HEADER || two(at + 10) < HEADER || HEADER + two(at + 10) >= node->size))
        return say("its helper at byte %u holds fewer than two nodes", node->at);
    return NULL;
}

/* The next node: 1, or 0 at the end; or -1 where the bytes are no node that may stand there, and *fault says why. */
static int next_node(struct scan *scan, struct node *node, const char **fault) {
    const uint8_t *at = scan->page + scan->at;
    unsigned left;
    for (; scan->depth && scan->at == scan->ends[scan->depth]; scan->depth--)
        if (scan->holders[scan->depth] == NL_AGGREGATE)
            scan->aggregates--;
    left = scan->ends[scan->depth] - scan->at;
    if (left == 0)
        return 0;
    node->at = scan->at;
    node->kind = at[0];
    node->origin = at[1];
    node->label = two(at + 2);
    node->size = two(at + 4);
    node->depth = scan->depth;
    node->aggregates = scan->aggregates;
    *fault = node_fault(scan, node, left);
    if (*fault)
        return -1;
    if (node->kind == NL_AGGREGATE || node->kind == HELPER) {
        scan->depth++;
        scan->ends[scan->depth] = scan->at + node->size;
        scan->holders[scan->depth] = (uint8_t)node->kind;
        scan->aggregates += node->kind == NL_AGGREGATE;
        scan->at += HEADER;
    } else {
        scan->at += node->size;
    }
    return 1;
}

/* The proxy to a page in the record of another; 1 if there is one. */
static int proxy_to(const struct image *image, unsigned holder, unsigned page, struct node *node) {
    struct scan scan;
    const char *fault;
    for (begin(&scan, page_at(image, holder)); next_node(&scan, node, &fault) == 1;)
        if (node->kind == PROXY && two(scan.page + node->at + HEADER) == page)
            return 1;
    return 0;
}

/* How many nodes a page's record has, as far as it goes. */
static unsigned count_nodes(const uint8_t *page) {
    struct scan scan;
    struct node node;
    const char *fault;
    unsigned n = 0;
    for (begin(&scan, page); next_node(&scan, &node, &fault) == 1;)
        n++;
    return n;
}

/* ── what is wrong with a broken image ── */

/* The pages that are to be loaded again, in order; where there are more than can be named, it is the whole image. */
struct again {
    unsigned n, pages[12];
};
enum { NAMED = sizeof((struct again *)0)->pages / sizeof(unsigned) };

static void add(struct again *again, unsigned page) {
    unsigned i = again->n++;
    if (i >= NAMED)
        return;
    for (; i && again->pages[i - 1] > page; i--)
        again->pages[i] = again->pages[i - 1];
    again->pages[i] = page;
}

/* "page 4", "pages 4 and 5", "pages 4, 5 and 7". */
static const char *named(const struct again *again, char *text, size_t room) {
    unsigned i;
    snprintf(text, room, "page%s", again->n > 1 ? "s" : "");
    for (i = 0; i < again->n && i < NAMED; i++) {
        size_t at = strlen(text);
        snprintf(text + at, room - at, "%s %u", i == 0 ? "" : i + 1 < again->n ? "," : " and", again->pages[i]);
    }
    return text;
}

/* The page that a record's trailer names as its holder. */
static unsigned back_of(const struct image *image, unsigned page) { return two(page_at(image, page) + BACK); }

/* The first byte from `from` on that is not zero, or `to`. */
static unsigned not_zero(const uint8_t *page, unsigned from, unsigned to) {
    while (from < to && page[from] == 0)
        from++;
    return from;
}

static const char *settings_trailer_fault(const uint8_t *page) {
    unsigned at = not_zero(page, BACK, NL_PAGE);
    if (page[TYPE] != IS_SETTINGS)
        return say("the type in its trailer is %u, and must be 2 (settings)", page[TYPE]);
    if (page[SETTLED])
        return say("the settled byte in its trailer is %u, and must be 0", page[SETTLED]);
    if (two(page + USED) != SETTINGS_LENGTH)
        return say("its trailer says %u bytes, and settings have 272", two(page + USED));
    return say("byte %u of it is %u, and must be 0", at, page[at < NL_PAGE ? at : 0]);
}

static const char *settings_fault(const struct image *image) {
    const uint8_t *page = page_at(image, 0);
    unsigned at = not_zero(page, 8, 16);
    if (two(page) != pages_of(image))
        return say("its settings are for %u pages, and the input has %u", two(page), pages_of(image));
    if (page[2] < NL_TARGET_MIN || page[2] > NL_TARGET_MAX)
        return say("the target is %u, and must be 64 to 192", page[2]);
    if (page[3])
        return say("byte 3 of it is %u, and must be 0", page[3]);
    if (two(page + 4) > NL_TOLERANCE_MAX)
        return say("the tolerance is %u, and must be 0 to 512", two(page + 4));
    if (two(page + 6) != NL_FORM)
        return say("the form is %u, and only 1 is known: it is damaged, or a later version has made the image", two(page + 6));
    if (at < 16)
        return say("byte %u of it is %u, and must be 0", at, page[at]);
    for (at = 16; at < SETTINGS_LENGTH; at++)
        if (page[at] != NL_APART && page[at] != NL_FREE)
            return say("entry %u of the split matrix is %u, and must be 0 or 2", at - 16, page[at]);
    at = not_zero(page, SETTINGS_LENGTH, TYPE);
    return at < TYPE ? say("byte %u of it is %u, and must be 0", at, page[at]) : settings_trailer_fault(page);
}

static const char *trailer_fault(const struct image *image, unsigned number) {
    const uint8_t *page = page_at(image, number);
    unsigned used = two(page + USED), back = two(page + BACK), at = not_zero(page, page[TYPE] == IS_FREE ? SETTLED : BACK + 2, NL_PAGE);
    if (page[TYPE] == IS_FREE && number == 1)
        return "its trailer says that it is free, and it has the root's record";
    if (page[TYPE] == IS_FREE)
        return say("its trailer says that it is free, and byte %u of the trailer is %u", at - TYPE, page[at < NL_PAGE ? at : 0]);
    if (page[TYPE] != IS_RECORD)
        return say("the type in its trailer is %u, and must be 0 (free) or 1 (record)", page[TYPE]);
    if (page[SETTLED] > 1 || (number == 1 && page[SETTLED] != 1))
        return say("the settled byte in its trailer is %u, and must be %s", page[SETTLED], number == 1 ? "1" : "0 or 1");
    if (used < HEADER || used > NL_CAPACITY)
        return say("its trailer says %u bytes, and %s", used, used < HEADER ? "a record has 6 at least" : "at most 4,080 fit");
    if (number == 1 && back)
        return say("its trailer names page %u as its holder, and the root's record has none", back);
    if (number > 1 && (back == 0 || back == number || back >= pages_of(image)))
        return say("its trailer names page %u as its holder, which is %s", back,
                   back == 0        ? "that of the settings"
                   : back == number ? "itself"
                                    : "not in the image");
    return say("byte %u of its trailer is %u, and must be 0", at - TYPE, page[at < NL_PAGE ? at : 0]);
}

static const char *record_fault(const struct image *image, unsigned number) {
    const uint8_t *page = page_at(image, number);
    struct scan scan;
    struct node node;
    const char *fault;
    int more;
    if (number == 1 && page[0] != NL_AGGREGATE)
        return say("the kind at its start is %u, and the root is an aggregate (1)", page[0]);
    if (page[SETTLED] && page[0] == HELPER)
        return "its trailer says settled, and a helper is never settled";
    if (two(page + 4) != two(page + USED))
        return say("the size at its start is %u, and its trailer says %u", two(page + 4), two(page + USED));
    begin(&scan, page);
    while ((more = next_node(&scan, &node, &fault)) == 1)
        ;
    return more < 0 ? fault : "one of its nodes is against the rules";
}

/* The level at which a record's nodes stand, by the proxies on the way down to it. */
static unsigned level_of(const struct image *image, unsigned page) {
    unsigned level = 1, steps = pages_of(image);
    struct node node;
    for (; page > 1 && steps; steps--) {
        unsigned holder = back_of(image, page);
        level += proxy_to(image, holder, page, &node) ? node.aggregates : 0;
        page = holder;
    }
    return level;
}

/* The pages on the way up to page 1 are added: each has a part in the level, and may be the one that is wrong. */
static const char *level_fault(const struct image *image, unsigned number, struct again *holders) {
    unsigned level = level_of(image, number), page = number;
    struct scan scan;
    struct node node;
    const char *fault;
    while (page > 1 && holders->n < pages_of(image)) {
        page = back_of(image, page);
        add(holders, page);
    }
    for (begin(&scan, page_at(image, number)); next_node(&scan, &node, &fault) == 1;)
        if (node.kind <= NL_LITERAL && level + node.aggregates > NL_LEVELS)
            return say("its %s at byte %u stands at level %u, and a tree has 24", kinds[node.kind], node.at, level + node.aggregates);
    return "one of its nodes stands below level 24";
}

/* The pages among which a proxy may choose. */
static const char *link_range(const struct image *image, char *text, size_t room) {
    unsigned pages = pages_of(image);
    if (pages == 2)
        return "an image of 2 pages has no record but the root's";
    if (pages == 3)
        return "it can name page 2 only";
    snprintf(text, room, "records stand on pages 2 to %u", pages - 1);
    return text;
}

/* The page and the one that the proxy names are added, if the image has that one. */
static const char *link_fault(const struct image *image, unsigned number, struct again *again) {
    uint8_t seen[NL_PAGES] = {0};
    char range[60];
    struct scan scan;
    struct node node;
    const char *fault;
    for (begin(&scan, page_at(image, number)); next_node(&scan, &node, &fault) == 1;) {
        unsigned other = node.kind == PROXY ? two(scan.page + node.at + HEADER) : 0;
        const uint8_t *page;
        if (node.kind != PROXY)
            continue;
        if (other < 2 || other >= pages_of(image))
            return say("its proxy at byte %u names page %u, and %s", node.at, other, link_range(image, range, sizeof range));
        page = page_at(image, other);
        if (page[TYPE] == IS_RECORD && two(page + BACK) == number && !seen[other]) {
            seen[other] = 1;
            continue;
        }
        add(again, number);
        add(again, other);
        if (page[TYPE] != IS_RECORD)
            return say("its proxy at byte %u names page %u, which is free", node.at, other);
        if (two(page + BACK) != number)
            return say("its proxy at byte %u names page %u, whose trailer names page %u as its holder", node.at, other, two(page + BACK));
        return say("its proxy at byte %u names page %u, as one before it does", node.at, other);
    }
    return "one of its proxies names a wrong page";
}

/* Goes up by back links as long as the holder has a proxy to the page below it. The two pages between which that ends are added: one of them is wrong.
 * Where it never ends the links go round, and all pages of the ring are added. */
static const char *unreached_fault(const struct image *image, unsigned number, struct again *again) {
    unsigned page = number, holder = back_of(image, page), steps = pages_of(image), first;
    const char *wrong;
    struct node node;
    for (; steps && page_at(image, holder)[TYPE] == IS_RECORD && proxy_to(image, holder, page, &node); steps--) {
        page = holder;
        holder = back_of(image, page);
    }
    if (steps == 0) {
        first = page;
        do {
            add(again, page);
            page = back_of(image, page);
        } while (page != first);
        return "its back links lead into a ring, and not to the root";
    }
    add(again, page);
    add(again, holder);
    wrong = page_at(image, holder)[TYPE] == IS_RECORD ? "has no proxy to it" : "is free";
    if (page == number)
        return say("its trailer names page %u as its holder, which %s", holder, wrong);
    return say("its back links lead to page %u, whose trailer names page %u as its holder, which %s", page, holder, wrong);
}

/* Whether all bytes of a page are 0, or all are 255. */
static int is_blank(const uint8_t *page) { return (page[0] == 0 || page[0] == 255) && memcmp(page, page + 1, NL_PAGE - 1) == 0; }

/* Page 0 is blank: all of the image is, or what is on the other pages can be saved. */
static const char *blank_fault(const struct image *image) {
    unsigned value = image->bytes[0], page = 1;
    while (page < pages_of(image) && is_blank(page_at(image, page)))
        page++;
    if (page < pages_of(image))
        return say("page 0: all its bytes are %u: it is erased, and other pages are not; load page 0 again: formatting would destroy the others", value);
    return say("page 0: all its bytes are %u: the image %s; load the image, or format it", value, value ? "is erased" : "was never formatted");
}

/* The diagnosis in one sentence, with what to do. */
static const char *diagnosis(const struct image *image, const uint32_t fault[NL_FAULT]) {
    unsigned page = fault[NL_FAULT_PAGE], at;
    const uint8_t *bytes = page_at(image, page);
    const char *what, *todo = "load the page again";
    struct again again = {0}, holders = {0};
    char text[200], list[100];
    switch (fault[NL_FAULT_REASON]) {
    case NL_UNFORMATTED: return blank_fault(image);
    case NL_BAD_SETTINGS:
        what = settings_fault(image);
        if (two(bytes) != pages_of(image))
            todo = "load the whole image again";
        break;
    case NL_BAD_TRAILER: what = trailer_fault(image, page); break;
    case NL_BAD_FREE:
        at = not_zero(bytes, 0, TYPE);
        what = say("its trailer says that it is free, and byte %u of the page is %u", at, bytes[at]);
        break;
    case NL_BAD_TAIL:
        at = not_zero(bytes, two(bytes + USED), TYPE);
        what = say("its record ends at byte %u, and byte %u after it is %u, not 0", two(bytes + USED), at, bytes[at]);
        break;
    case NL_BAD_NODE: what = record_fault(image, page); break;
    case NL_BAD_LEVEL: what = level_fault(image, page, &holders); break;
    case NL_BAD_LINK: what = link_fault(image, page, &again); break;
    case NL_UNREACHED: what = unreached_fault(image, page, &again); break;
    default: what = nl_reason_name(fault[NL_FAULT_REASON]); break;
    }
    snprintf(text, sizeof text, "%s", what);
    if (again.n > NAMED || holders.n > NAMED)
        return say("page %u: %s; load the whole image again", page, text);
    if (holders.n)
        return say("page %u: %s; load the page again, and %s, which hold%s it", page, text, named(&holders, list, sizeof list), holders.n == 1 ? "s" : "");
    if (again.n)
        return say("page %u: %s; load %s again", page, text, named(&again, list, sizeof list));
    return say("page %u: %s; %s", page, text, todo);
}

/* ── the commands ── */

static int check(const struct image *image) {
    uint32_t number = nl_check(image->bytes, image->len);
    puts(number ? refusal(image, number) : "ok");
    return number ? REFUSED : DONE;
}

static int diagnose(const struct image *image) {
    uint32_t fault[NL_FAULT], number = nl_diagnose(image->bytes, image->len, fault);
    puts(number == NL_OK ? "the image passes the check" : number == NL_BROKEN ? diagnosis(image, fault) : refusal(image, number));
    return number ? REFUSED : DONE;
}

static void put_hex(const uint8_t *bytes, size_t n, FILE *out) {
    static const char digits[] = "0123456789abcdef";
    size_t i;
    for (i = 0; i < n; i++) {
        putc(digits[bytes[i] / 16], out);
        putc(digits[bytes[i] % 16], out);
    }
}

static void put_line(const struct image *image, const uint32_t *node) {
    printf("%lu %c %lu ", (unsigned long)node[NL_ENTRY_LEVEL], node[NL_ENTRY_KIND] == NL_AGGREGATE ? 'A' : 'L', (unsigned long)node[NL_ENTRY_LABEL]);
    if (node[NL_ENTRY_LENGTH])
        put_hex(image->bytes + node[NL_ENTRY_START], node[NL_ENTRY_LENGTH], stdout);
    else
        putchar('-');
    printf(" %lu\n", (unsigned long)node[NL_ENTRY_ORIGIN]);
}

static int list(const struct image *image) {
    static uint32_t entries[4096 * NL_ENTRY];
    static uint8_t records[2 * NL_PAGES];
    uint32_t walked[NL_WALK] = {0, 1, 1, 0}, number, written, i;
    number = nl_records(image->bytes, image->len, records, sizeof records, &written);
    if (number)
        return refused(image, number);
    printf("pages %u free %lu records %lu\n", pages_of(image), (unsigned long)(pages_of(image) - 1 - written / 2), (unsigned long)(written / 2));
    while (walked[NL_WALK_MORE]) {
        number = nl_walk(image->bytes, image->len, walked[NL_WALK_PAGE], walked[NL_WALK_OFFSET], entries, sizeof entries / sizeof *entries, walked);
        if (number)
            return refused(image, number);
        for (i = 0; i < walked[NL_WALK_ENTRIES]; i++)
            put_line(image, entries + NL_ENTRY * i);
    }
    return DONE;
}

/* In how many records a record stands, by back links; at most as many as there are pages, also where damaged links go round. */
static unsigned nesting(const struct image *image, unsigned page) {
    unsigned n = 0;
    for (; page > 1 && page < pages_of(image) && page_at(image, page)[TYPE] == IS_RECORD && n < pages_of(image); n++)
        page = two(page_at(image, page) + BACK);
    return n;
}

/* A record is settled, or what a split has made of several nodes (under a helper) or of one. */
static const char *sort_of(const uint8_t *page) { return page[SETTLED] ? "settled" : page[0] == HELPER ? "several nodes" : "one node"; }

static int records(const struct image *image) {
    static uint8_t pages[2 * NL_PAGES];
    uint32_t written, i, number = nl_records(image->bytes, image->len, pages, sizeof pages, &written);
    unsigned deepest = 0;
    if (number)
        return refused(image, number);
    puts("page holder used nested record");
    for (i = 0; i < written; i += 2) {
        unsigned page = two(pages + i), deep = nesting(image, page);
        const uint8_t *bytes = page_at(image, page);
        if (page == 1)
            printf("%4u      - %4u %6u %s\n", page, two(bytes + USED), deep, sort_of(bytes));
        else
            printf("%4u %6u %4u %6u %s\n", page, two(bytes + BACK), two(bytes + USED), deep, sort_of(bytes));
        if (deep > deepest)
            deepest = deep;
    }
    printf("%lu record%s, nested up to %u deep\n", (unsigned long)(written / 2), written == 2 ? "" : "s", deepest);
    return DONE;
}

static int find(const struct image *image, const uint8_t *path, size_t path_len) {
    uint32_t place[NL_PLACE], node[NL_READ], number = nl_find(image->bytes, image->len, path, path_len, place);
    if (!number)
        number = nl_read(image->bytes, image->len, place[NL_PLACE_PAGE], place[NL_PLACE_OFFSET], node);
    if (number)
        return refused(image, number);
    printf("page %lu offset %lu: %s %lu, origin %s, ", (unsigned long)place[NL_PLACE_PAGE], (unsigned long)place[NL_PLACE_OFFSET],
           kinds[node[NL_READ_KIND]], (unsigned long)node[NL_READ_LABEL], origins[node[NL_READ_ORIGIN]]);
    if (node[NL_READ_KIND] == NL_AGGREGATE)
        printf("children: %lu", (unsigned long)node[NL_READ_CHILDREN]);
    else if (node[NL_READ_LENGTH])
        printf("content: ");
    else
        printf("no content");
    put_hex(image->bytes + node[NL_READ_START], node[NL_READ_LENGTH], stdout);
    putchar('\n');
    return DONE;
}

static int climb(const struct image *image, uint32_t page, uint32_t offset) {
    uint8_t path[NL_PATH];
    uint32_t written, number = nl_climb(image->bytes, image->len, page, offset, path, sizeof path, &written);
    size_t i;
    if (number)
        return refused(image, number);
    if (!written)
        putchar('/');
    for (i = 0; i < written / 4; i++)
        printf("%s%lu", i ? "/" : "", (unsigned long)nl_path_entry(path, i));
    putchar('\n');
    return DONE;
}

/* ── the drawing ── */

enum look { SETTINGS_LOOK, FREE_LOOK, SETTLED_LOOK, SEVERAL_LOOK, ONE_LOOK, UNKNOWN_LOOK, LOOKS };

static const struct {
    const char *name, *pale, *strong;
} looks[LOOKS] = {{"settings", "#e3e6ea", "#6b7280"},           {"free", "#ffffff", "#c3c9d1"},
                  {"record, settled", "#dcf1e6", "#1f8a5b"},    {"record of several nodes (helper)", "#fdebd3", "#d97f12"},
                  {"record of one node", "#dde9fb", "#3b74c9"}, {"no known type", "#fbdcdc", "#b3261e"}};

static enum look look_of(const struct image *image, unsigned number) {
    const uint8_t *page = page_at(image, number);
    if (number == 0)
        return page[TYPE] == IS_SETTINGS ? SETTINGS_LOOK : UNKNOWN_LOOK;
    if (page[TYPE] > IS_RECORD)
        return UNKNOWN_LOOK;
    return page[TYPE] == IS_FREE ? FREE_LOOK : page[SETTLED] ? SETTLED_LOOK : page[0] == HELPER ? SEVERAL_LOOK : ONE_LOOK;
}

/* The page that holds the proxy to this one, by its trailer; 0 if none. */
static unsigned holder_of(const struct image *image, unsigned page) {
    unsigned holder = two(page_at(image, page) + BACK);
    return page < 2 || page_at(image, page)[TYPE] != IS_RECORD || holder >= pages_of(image) || holder == page ? 0 : holder;
}

/* Where things stand, in pixels. The fewer pages, the larger the cells. */
struct drawing {
    FILE *out;
    const struct image *image;
    unsigned pages, chosen, fault; /* fault: the damaged page, or NONE */
    int columns, rows, cell_w, cell_h, gap, font;
    int top, left, grid_w, grid_h, panel_x, panel_w, panel_h, lines, width, height;
};
enum { NONE = 0xffff, MARGIN = 24, LINE = 17, INDENT = 10, PANEL = 480, LEAST_LINES = 26, LEGEND_LINE = 26 };

static int cell_x(const struct drawing *d, unsigned page) { return d->left + (int)page % d->columns * (d->cell_w + d->gap); }
static int cell_y(const struct drawing *d, unsigned page) { return d->top + (int)page / d->columns * (d->cell_h + d->gap); }

/* Text that may have any bytes in it, cut off after so many. */
static void put_text(FILE *out, const char *text, int room) {
    if ((int)strlen(text) <= room)
        room += 2;
    for (; *text && room > 2; text++, room--)
        if (*text == '<')
            fputs("&lt;", out);
        else if (*text == '>')
            fputs("&gt;", out);
        else if (*text == '&')
            fputs("&amp;", out);
        else
            putc(*text < ' ' || *text > '~' ? '?' : *text, out);
    if (*text)
        fputs("..", out);
}

/* The rest of the element, its look, is given whole: it has no text of the image in it. */
static void put_box(FILE *out, int x, int y, int w, int h, const char *look) {
    fprintf(out, "<rect x='%d' y='%d' width='%d' height='%d' %s/>\n", x, y, w, h, look);
}

static const char *look_text(enum look look) {
    return say("rx='3' fill='%s' stroke='%s'%s", looks[look].pale, looks[look].strong, look == FREE_LOOK ? " stroke-dasharray='3 2'" : "");
}

/* What the legend explains beside the looks. */
enum { BAR = LOOKS, ARROW, CHOSEN, LINKED, DAMAGED, SIGNS };

static void put_sign(FILE *out, int sign, int x, int y) {
    if (sign < LOOKS) {
        put_box(out, x, y - 12, 22, 15, look_text((enum look)sign));
    } else if (sign == BAR) {
        put_box(out, x, y - 8, 22, 6, "fill='#fff' stroke='#9aa2ad'");
        put_box(out, x, y - 8, 14, 6, "fill='#5b6470'");
    } else if (sign == ARROW) {
        fprintf(out, "<path d='M%d %d h19' class='arrow strong' marker-end='url(#head)'/>\n", x, y - 5);
    } else {
        put_box(out, x + 1, y - 11, 20, 13, sign == CHOSEN ? "class='chosen'" : sign == LINKED ? "class='linked'" : "class='fault'");
    }
}

/* The legend flows in lines. Gives the y of the last one; with no file that is all it does. */
static int legend(const struct drawing *d, FILE *out) {
    static const char *const names[] = {"used, of 4,080 bytes", "from holder to held", "page shown at the right", "its holder, and those it holds",
                                        "damaged page"};
    int sign, x = MARGIN, y = 62;
    for (sign = 0; sign < SIGNS; sign++) {
        const char *name = sign < LOOKS ? looks[sign].name : names[sign - LOOKS];
        int w = 44 + 7 * (int)strlen(name);
        if (d->fault == NONE && (sign == UNKNOWN_LOOK || sign == DAMAGED))
            continue;
        if (x + w > d->width - MARGIN) {
            x = MARGIN;
            y += LEGEND_LINE;
        }
        if (out) {
            put_sign(out, sign, x, y);
            fprintf(out, "<text x='%d' y='%d' font-size='13'>%s</text>\n", x + 28, y, name);
        }
        x += w;
    }
    return y;
}

static void plan(struct drawing *d) {
    int legend_end, wanted;
    d->columns = d->pages <= 8 ? (int)(d->pages < 4 ? d->pages : 4) : d->pages <= 64 ? 8 : d->pages <= 256 ? 16 : 32;
    d->rows = ((int)d->pages + d->columns - 1) / d->columns;
    d->cell_w = d->pages <= 64 ? 88 : d->pages <= 256 ? 54 : 38;
    d->cell_h = d->pages <= 64 ? 52 : d->pages <= 256 ? 36 : 26;
    d->gap = d->pages <= 64 ? 30 : d->pages <= 256 ? 18 : 12;
    d->font = d->pages <= 64 ? 14 : d->pages <= 256 ? 12 : 11;
    d->grid_w = d->columns * (d->cell_w + d->gap) - d->gap;
    d->grid_h = d->rows * (d->cell_h + d->gap) - d->gap;
    d->left = MARGIN + d->gap / 2;
    d->panel_x = d->left + d->grid_w + d->gap / 2 + 2 * MARGIN;
    d->panel_w = PANEL;
    d->width = d->panel_x + d->panel_w + MARGIN;
    legend_end = legend(d, NULL);
    d->top = legend_end + 34 + d->gap;
    d->lines = d->grid_h / LINE - 5 < LEAST_LINES ? LEAST_LINES : d->grid_h / LINE - 5;
    wanted = (int)count_nodes(page_at(d->image, d->chosen)) + 1;
    d->panel_h = ((wanted < 6 ? 6 : wanted < d->lines ? wanted : d->lines) + 4) * LINE;
    d->height = d->top + (d->grid_h > d->panel_h ? d->grid_h : d->panel_h) + MARGIN;
}

/* A curve from the holder to what it holds. It begins and ends between the cells and lies under them: an arch above the row if both stand in one, else
 * from the side of the one that faces the other. */
static void put_arrow(const struct drawing *d, unsigned holder, unsigned page) {
    int x0 = cell_x(d, holder) + d->cell_w / 2, y0 = cell_y(d, holder), x1 = cell_x(d, page) + d->cell_w / 2, y1 = cell_y(d, page);
    int near = d->gap / 6 + 1, bend0, bend1;
    const char *look = holder == d->chosen || page == d->chosen ? "arrow strong' marker-end='url(#head)"
                       : d->pages <= 256                        ? "arrow' marker-end='url(#pale)"
                                                                : "arrow fine";
    if (y0 == y1) {
        x1 += x1 > x0 ? -d->cell_w / 5 : d->cell_w / 5;
        y1 -= near;
        bend0 = bend1 = 4 - d->gap;
    } else if (y0 < y1) {
        bend0 = d->gap + (y1 - y0) / 4;
        bend1 = -bend0;
        y0 += d->cell_h;
        y1 -= near;
    } else {
        bend1 = d->gap + (y0 - y1) / 4;
        bend0 = -bend1;
        y1 += d->cell_h + near;
    }
    fprintf(d->out, "<path class='%s' d='M%d %d C%d %d %d %d %d %d'/>\n", look, x0, y0, x0, y0 + bend0, x1, y1 + bend1, x1, y1);
}

/* What a pointer that rests on the cell is told. */
static void put_hint(const struct drawing *d, unsigned page, enum look look, unsigned holder) {
    fprintf(d->out, "<title>page %u: %s", page, looks[look].name);
    if (holder)
        fprintf(d->out, ", held by page %u", holder);
    fputs("</title>", d->out);
}

static void put_cell(const struct drawing *d, unsigned page) {
    enum look look = look_of(d->image, page);
    int x = cell_x(d, page), y = cell_y(d, page), w = d->cell_w, h = d->cell_h, pad = w / 14, room = w - 2 * pad, bar = h / 5, foot = y + h - pad - bar;
    int has_length = look != FREE_LOOK && look != UNKNOWN_LOOK, text_y = y + d->font + pad / 2 + 1;
    unsigned used = has_length ? two(page_at(d->image, page) + USED) : 0, holder = holder_of(d->image, page);
    if (used > NL_CAPACITY)
        used = NL_CAPACITY;
    fputs("<g>", d->out);
    put_hint(d, page, look, holder);
    put_box(d->out, x, y, w, h, look_text(look));
    fprintf(d->out, "<text x='%d' y='%d' font-size='%d'%s>%u</text>\n", x + pad + 1, text_y, d->font, has_length ? "" : " fill='#8b939e'", page);
    if (has_length) {
        put_box(d->out, x + pad, foot, room, bar, "fill='#fff'");
        put_box(d->out, x + pad, foot, ((int)used * room + 4079) / 4080, bar, say("fill='%s'", looks[look].strong));
        if (d->pages <= 64)
            fprintf(d->out, "<text x='%d' y='%d' font-size='12' text-anchor='end' fill='#4b5563'>%u B</text>\n", x + w - pad, text_y, used);
    }
    if (page == d->chosen || page == d->fault)
        put_box(d->out, x - 2, y - 2, w + 4, h + 4, page == d->fault ? "rx='4' class='fault'" : "rx='4' class='chosen'");
    else if ((holder && holder == d->chosen) || (page && page == holder_of(d->image, d->chosen)))
        put_box(d->out, x, y, w, h, "rx='3' class='linked'");
    fputs("</g>\n", d->out);
}

static void put_row(const struct drawing *d, int line, const char *colour, int at, unsigned depth, const char *text) {
    int y = d->top + (line + 4) * LINE, indent = depth > 20 ? 20 : (int)depth, room = (d->panel_w - 66 - INDENT * indent) * 10 / 73;
    if (at >= 0)
        fprintf(d->out, "<text x='%d' y='%d' class='code' text-anchor='end' fill='#8b939e'>%d</text>", d->panel_x + 46, y, at);
    fprintf(d->out, "<text x='%d' y='%d' class='code' fill='%s'>", d->panel_x + 56 + INDENT * indent, y, colour);
    put_text(d->out, text, room);
    fputs("</text>\n", d->out);
}

/* What a node is, in a line: kind, label, origin, and its size or that of its content, whose first bytes follow. */
static const char *node_text(const uint8_t *page, const struct node *node) {
    enum { SHOWN = 24 };
    char bytes[2 * SHOWN + 4] = "";
    unsigned i, n = node->size - HEADER;
    if (node->kind == PROXY)
        return say("proxy to page %u", two(page + node->at + HEADER));
    if (node->kind == HELPER)
        return say("helper, %u B", node->size);
    if (node->kind == NL_AGGREGATE)
        return say("aggregate %u, %s, %u B", node->label, origins[node->origin], node->size);
    for (i = 0; i < n && i < SHOWN; i++)
        snprintf(bytes + 2 * i, 3, "%02x", page[node->at + HEADER + i]);
    if (n > SHOWN)
        memcpy(bytes + 2 * SHOWN, "..", 3);
    if (n == 0)
        return say("literal %u, %s, empty", node->label, origins[node->origin]);
    return say("literal %u, %s, %u B: %s", node->label, origins[node->origin], n, bytes);
}

/* The nodes of the chosen page's record, as many as there is room for, and of a damaged one as far as it goes. */
static void put_nodes(const struct drawing *d) {
    struct scan scan;
    struct node node;
    const char *fault = NULL;
    unsigned total = 0;
    int more, line = 0;
    begin(&scan, page_at(d->image, d->chosen));
    for (; (more = next_node(&scan, &node, &fault)) == 1; total++)
        if (line < d->lines - 1)
            put_row(d, line++, node.kind > NL_LITERAL ? "#6b7280" : "#1f2937", (int)node.at, node.depth, node_text(scan.page, &node));
    if (more < 0)
        put_row(d, line, "#b3261e", (int)node.at, 0, "here the bytes are no node that may stand here");
    else if (total > (unsigned)line)
        put_row(d, line, "#6b7280", -1, 0, say("and %u more nodes", total - (unsigned)line));
}

static void put_settings(const struct drawing *d) {
    const uint8_t *page = page_at(d->image, 0);
    unsigned i, apart = 0;
    for (i = 16; i < SETTINGS_LENGTH; i++)
        apart += page[i] == NL_APART;
    put_row(d, 0, "#1f2937", 0, 0, say("pages: %u", two(page)));
    put_row(d, 1, "#1f2937", 2, 0, say("target: %u of 256", page[2]));
    put_row(d, 2, "#1f2937", 4, 0, say("tolerance: %u bytes", two(page + 4)));
    put_row(d, 3, "#1f2937", 6, 0, say("form: %u", two(page + 6)));
    put_row(d, 4, "#1f2937", 16, 0, say("split matrix: %u of 256 pairs apart", apart));
}

static void put_panel(const struct drawing *d) {
    const uint8_t *page = page_at(d->image, d->chosen);
    enum look look = look_of(d->image, d->chosen);
    unsigned holder = holder_of(d->image, d->chosen), held = 0, i;
    put_box(d->out, d->panel_x, d->top - 2, d->panel_w, d->panel_h, "rx='4' fill='#fff' stroke='#c3c9d1'");
    for (i = 2; i < d->pages; i++)
        held += holder_of(d->image, i) == d->chosen;
    fprintf(d->out, "<text x='%d' y='%d' font-size='15' font-weight='bold'>Page %u: %s</text>\n", d->panel_x + 12, d->top + LINE, d->chosen,
            looks[look].name);
    if (look == FREE_LOOK || look == UNKNOWN_LOOK)
        return;
    fprintf(d->out, "<text x='%d' y='%d' font-size='13' fill='#4b5563'>%u of 4080 bytes used", d->panel_x + 12, d->top + 2 * LINE, two(page + USED));
    if (holder)
        fprintf(d->out, "; held by page %u", holder);
    if (held)
        fprintf(d->out, "; holds %u record%s", held, held == 1 ? "" : "s");
    fputs("</text>\n", d->out);
    if (look == SETTINGS_LOOK)
        put_settings(d);
    else
        put_nodes(d);
}

static void put_title(const struct drawing *d, const char *wrong) {
    unsigned i, free_pages = 0, records_here = 0, deepest = 0;
    for (i = 1; i < d->pages; i++) {
        unsigned deep = nesting(d->image, i);
        free_pages += look_of(d->image, i) == FREE_LOOK;
        records_here += page_at(d->image, i)[TYPE] == IS_RECORD;
        deepest = deep > deepest ? deep : deepest;
    }
    fprintf(d->out, "<text x='%d' y='30' font-size='18' font-weight='bold'>", MARGIN);
    put_text(d->out, d->image->name, 60);
    fprintf(d->out, ": %u pages, %u free, %u record%s, nested up to %u deep</text>\n", d->pages, free_pages, records_here, records_here == 1 ? "" : "s",
            deepest);
    if (wrong) {
        int fits = (d->width - 2 * MARGIN) * 5 / (3 * (int)strlen(wrong)); /* a letter is some three fifths as wide as the font is high */
        fprintf(d->out, "<text x='%d' y='%d' font-size='%d' fill='#b3261e'>", MARGIN, d->top - d->gap - 6, fits > 15 ? 15 : fits < 9 ? 9 : fits);
        put_text(d->out, wrong, 400);
        fputs("</text>\n", d->out);
    }
}

static void draw(struct drawing *d, const char *wrong) {
    static const char style[] = "<style>text{font-family:'DejaVu Sans','Liberation Sans',Arial,sans-serif}\n"
                                ".code{font-family:'DejaVu Sans Mono','Liberation Mono',monospace;font-size:12px}\n"
                                ".arrow{fill:none;stroke:#aab1bb;stroke-width:1}.fine{stroke-width:.6}.strong{stroke:#111827;stroke-width:1.6}\n"
                                ".linked{fill:none;stroke:#111827;stroke-width:1.6}.chosen{fill:none;stroke:#111827;stroke-width:3}\n"
                                ".fault{fill:none;stroke:#d11a1a;stroke-width:4}</style>\n";
    unsigned page;
    int strong;
    fputs("<?xml version='1.0' encoding='UTF-8'?>\n<svg xmlns='http://www.w3.org/2000/svg' fill='#1f2937' ", d->out);
    fprintf(d->out, "width='%d' height='%d' viewBox='0 0 %d %d'>\n", d->width, d->height, d->width, d->height);
    fputs(style, d->out);
    fputs("<defs><marker id='pale' markerWidth='7' markerHeight='6' refX='6' refY='3' orient='auto' markerUnits='userSpaceOnUse'>"
          "<path d='M0 0 L7 3 L0 6 z' fill='#aab1bb'/></marker><marker id='head' markerWidth='9' markerHeight='8' refX='8' refY='4' orient='auto' "
          "markerUnits='userSpaceOnUse'><path d='M0 0 L9 4 L0 8 z' fill='#111827'/></marker></defs>\n",
          d->out);
    put_box(d->out, 0, 0, d->width, d->height, "fill='#f7f8fa'");
    put_title(d, wrong);
    legend(d, d->out);
    for (strong = 0; strong < 2; strong++)
        for (page = 2; page < d->pages; page++) {
            unsigned holder = holder_of(d->image, page);
            if (holder && (holder == d->chosen || page == d->chosen) == strong)
                put_arrow(d, holder, page);
        }
    for (page = 0; page < d->pages; page++)
        put_cell(d, page);
    put_panel(d);
    fputs("</svg>\n", d->out);
}

/* The page's number is NULL if none is given. A damaged image is drawn too, by its trailers. */
static int picture(const struct image *image, const char *name, const uint32_t *page) {
    uint32_t fault[NL_FAULT], number = nl_diagnose(image->bytes, image->len, fault);
    struct drawing d = {0};
    char wrong[400];
    int failed;
    if (number == NL_LENGTH)
        return refused(image, number);
    if (page && *page >= pages_of(image))
        return misused(say("no page %lu in an image of %u pages", (unsigned long)*page, pages_of(image)));
    d.image = image;
    d.pages = pages_of(image);
    d.fault = number ? fault[NL_FAULT_PAGE] : NONE;
    d.chosen = page ? *page : number ? d.fault : 1;
    if (number) {
        snprintf(wrong, sizeof wrong, "%s", diagnosis(image, fault));
        fprintf(stderr, "nichelarder: %s: %s\n", image->name, wrong);
    }
    d.out = is_standard(name) ? stdout : fopen(name, "wb");
    if (!d.out)
        return trouble(name);
    plan(&d);
    draw(&d, number ? wrong : NULL);
    failed = ferror(d.out);
    if (d.out != stdout && fclose(d.out))
        failed = 1;
    if (failed)
        return trouble(name);
    return number ? REFUSED : DONE;
}

/* ── the command line ── */

enum command { CHECK, DIAGNOSE, LIST, RECORDS, FIND, CLIMB, PICTURE, COMMANDS };

/* How many words come before the image's name, and how many may come after it. */
static const struct {
    const char *name;
    int before, after;
} commands[COMMANDS] = {{"check", 0, 0}, {"diagnose", 0, 0}, {"list", 0, 0}, {"records", 0, 0}, {"find", 1, 0}, {"climb", 2, 0}, {"picture", 1, 1}};

struct order {
    enum command command;
    const char *name, *out;
    uint8_t path[NL_PATH + 4];
    size_t path_len;
    uint32_t page, offset;
    int has_page;
};

static int is_drawing(const char *name) {
    size_t n = strlen(name);
    return n > 4 && strcmp(name + n - 4, ".svg") == 0;
}

/* Reads the words of the command line; what is wrong with them, or NULL. Nothing is read from the input before. */
static const char *understand(int n, char **words, struct order *order) {
    int command = 0, before;
    memset(order, 0, sizeof *order);
    if (n == 0)
        return "no command";
    while (command < COMMANDS && strcmp(words[0], commands[command].name))
        command++;
    if (command == COMMANDS)
        return say("no command %s", words[0]);
    before = commands[command].before;
    if (n < 1 + before || n > 2 + before + commands[command].after)
        return say("too %s words for %s", n < 1 + before ? "few" : "many", words[0]);
    order->command = (enum command)command;
    order->name = n > 1 + before ? words[1 + before] : NULL;
    if (command == FIND && !is_path(words[1], order->path, &order->path_len))
        return "a path is child numbers with / between them, or / alone";
    if (command == CLIMB && !(is_number(words[1], &order->page) && is_number(words[2], &order->offset)))
        return "a place is two numbers, a page and an offset";
    if (command == PICTURE && !is_standard(words[1]) && !is_drawing(words[1]))
        return "the name of a drawing ends in .svg: so no image is written over";
    order->out = words[1];
    if (n == 3 + before) {
        order->has_page = 1;
        if (!is_number(words[2 + before], &order->page))
            return "a page is a number";
    }
    return NULL;
}

static int run(const struct order *order, const struct image *image) {
    switch (order->command) {
    case CHECK: return check(image);
    case DIAGNOSE: return diagnose(image);
    case LIST: return list(image);
    case RECORDS: return records(image);
    case FIND: return find(image, order->path, order->path_len);
    case CLIMB: return climb(image, order->page, order->offset);
    default: return picture(image, order->out, order->has_page ? &order->page : NULL);
    }
}

int main(int argc, char **argv) {
    struct order order;
    struct image image;
    const char *wrong;
    int status;
    if (argc == 2 && (!strcmp(argv[1], "--help") || !strcmp(argv[1], "--version"))) {
        fputs(argv[1][2] == 'h' ? usage : "nichelarder " NL_VERSION "\n", stdout);
        return fflush(stdout) ? trouble("standard output") : DONE;
    }
    wrong = understand(argc - 1, argv + 1, &order);
    if (wrong)
        return misused(wrong);
    status = load(order.name, &image);
    if (status == DONE)
        status = run(&order, &image);
    free(image.bytes);
    if (fflush(stdout) || ferror(stdout))
        status = trouble("standard output");
    return status;
}
