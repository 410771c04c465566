/* An insert against the check of the same image, side by side in one run: into a 4 MB image, and into images of 4, 40, 400 and 1,000 pages. */
#include <stdio.h>
#include <stdlib.h>

#include "../include/nichelarder.h"
#include "images.h"
#include "timing.h"

enum { PAGES = 1024, LEN = 4194304 };

static const uint8_t content[520] = {1, 2, 3};

/* A node that splits, or is to split nothing, as child `child` of the root. */
static uint32_t put(uint8_t *image, size_t len, uint32_t child, uint32_t splits, uint32_t answer[3]) {
    int32_t lean;
    return nl_insert(image, len, content, 0, child, NL_LITERAL, NL_TYPED_IN, 9, content, splits ? sizeof content : 6, answer, &lean);
}

/* One row, medians: both calls on fresh copies of the image, in turns; the copy is not timed. A turn has as many calls as make up 1,024 pages, so that the
 * clock does not matter with a short image. The ratio is that of a turn. */
static int row(const char *name, const char *where, const uint8_t *image, unsigned pages, uint8_t *copy, uint32_t child, uint32_t splits) {
    double check[TIMES], insert[TIMES], ratio[TIMES];
    size_t len = 4096u * (size_t)pages;
    unsigned calls = PAGES / pages;
    for (int i = 0; i < TIMES; i++) {
        check[i] = insert[i] = 0;
        for (unsigned k = 0; k < calls; k++) {
            uint32_t answer[3];
            memcpy(copy, image, len);
            double a = now();
            uint32_t checked = nl_check(copy, len);
            double b = now();
            check[i] += (b - a) / calls;
            memcpy(copy, image, len);
            a = now();
            uint32_t inserted = put(copy, len, child, splits, answer);
            b = now();
            insert[i] += (b - a) / calls;
            if (checked || inserted || answer[2] != splits || (i == 0 && k == 0 && nl_check(copy, len))) {
                printf("%s: check %u, insert %u, splits %u\n", name, checked, inserted, answer[2]);
                return 1;
            }
        }
        ratio[i] = insert[i] / check[i];
    }
    printf("%-14s %-10s %5u %7u %10.2f %10.2f %13.3f\n", name, where, pages, splits, 1e6 * median(check), 1e6 * median(insert), median(ratio));
    return 0;
}

/* An image of full records for an insert that splits so many: 16 pages are free, of 4 pages one is. */
static uint32_t make_few(uint8_t *image, unsigned pages, unsigned splits) {
    return make_nested(image, pages, pages < 40 ? 1 : 16, splits, 0, fill_literals);
}

/* One check and one insert, for a tool that counts instructions. */
static int count(uint8_t *image, uint8_t *copy, unsigned pages, uint32_t splits) {
    uint32_t child = make_few(image, pages, splits), answer[3];
    size_t len = 4096u * (size_t)pages;
    memcpy(copy, image, len);
    uint32_t checked = nl_check(copy, len), inserted = put(copy, len, child, splits, answer);
    printf("%u pages: check %u, insert %u, splits %u\n", pages, checked, inserted, answer[2]);
    return checked || inserted || answer[2] != splits;
}

static int rows(uint8_t *image, uint8_t *copy) {
    static const unsigned splits[] = {0, 1, 5}, sizes[] = {4, 40, 400, 1000};
    int bad = 0;
    puts("microseconds   at         pages  splits      check     insert  insert/check");
    for (size_t f = 0; f < sizeof fills / sizeof *fills; f++)
        for (int last = 0; last < 2; last++) {
            uint32_t child;
            for (size_t s = 0; s < 3; s++) {
                child = make_nested(image, PAGES, 16, splits[s], last, fills[f].fill);
                bad |= row(fills[f].name, last ? "end" : "front", image, PAGES, copy, child, splits[s]);
            }
            /* where the two nodes of the nested record end or begin: the siblings stand in two records */
            child = make_nested(image, PAGES, 16, 0, last, fills[f].fill);
            bad |= row(fills[f].name, last ? "end seam" : "front seam", image, PAGES, copy, last ? child - 1 : child + 1, 0);
        }
    for (size_t i = 0; i < sizeof sizes / sizeof *sizes; i++)
        for (size_t s = 0; s < (sizes[i] < 40 ? 2 : 3); s++) {
            uint32_t child = make_few(image, sizes[i], splits[s]);
            bad |= row("full records", "front", image, sizes[i], copy, child, splits[s]);
        }
    return bad;
}

/* Without arguments the rows; with a number of pages, 4 or 40 to 1,024, and of splits what is to be counted. */
int main(int argc, char **argv) {
    unsigned pages = argc == 3 ? (unsigned)atoi(argv[1]) : 4, splits = argc == 3 ? (unsigned)atoi(argv[2]) : 0;
    uint8_t *image = malloc(LEN), *copy = malloc(LEN);
    if (!image || !copy) return 2;
    if ((pages != 4 && pages < 40) || pages > PAGES || splits > (pages < 40 ? 1 : 15)) return 2;
    int bad = argc == 3 ? count(image, copy, pages, splits) : rows(image, copy);
    free(image);
    free(copy);
    return bad;
}
