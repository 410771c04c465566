/* The check against reading the image once and against a plain C check, side by side in one run. */
#include <stdio.h>
#include <stdlib.h>

#include "../include/nichelarder.h"
#include "images.h"
#include "plain.h"
#include "timing.h"

static uint64_t sum(const uint8_t *p, size_t n) {
    uint64_t s = 0;
    for (size_t i = 0; i < n; i++) s += p[i];
    return s;
}

static volatile uint64_t sink;

#define BEST(t, times, call)                 \
    do {                                     \
        (t) = 1e9;                           \
        for (int i_ = 0; i_ < (times); i_++) { \
            double a_ = now();               \
            sink += (call);                  \
            double b_ = now() - a_;          \
            if (b_ < (t)) (t) = b_;          \
        }                                    \
    } while (0)

static int row(const char *name, const uint8_t *image, size_t len) {
    double s, p, c;
    BEST(s, 40, sum(image, len));
    BEST(p, 40, plain_check(image, len));
    BEST(c, 40, nl_check(image, len));
    printf("%-14s %8.1f %8.1f %8.1f %10.2f %10.2f\n", name, 1e6 * s, 1e6 * p, 1e6 * c, c / s, c / p);
    if (plain_check(image, len) || nl_check(image, len)) {
        puts("an image does not pass");
        return 1;
    }
    return 0;
}

int main(void) {
    size_t len = 4194304;
    uint8_t *image = malloc(len);
    int bad = 0;
    if (!image) return 2;
    puts("microseconds    sum      plain    check   check/sum check/plain");
    make_full(image, 1024);
    bad |= row("full records", image, len);
    for (size_t i = 0; i < sizeof chains / sizeof *chains; i++) {
        make_chain(image, 1024, chains[i].fill);
        bad |= row(chains[i].name, image, len);
    }
    for (unsigned pages = 4; pages <= 1000; pages = pages < 400 ? pages * 10 : 1000) {
        char name[32];
        snprintf(name, sizeof name, "full, %u pages", pages);
        make_full(image, pages);
        bad |= row(name, image, (size_t)pages * 4096);
        if (pages == 1000) break;
    }
    free(image);
    return bad;
}
