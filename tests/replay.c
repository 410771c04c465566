/* Replays call scripts on the library: every answer field, the lent buffer and the checksum of the image after every call are compared; the numbers of
 * a walk and of a diagnosis are lent between guards.
 * Usage: replay SCRIPT..   A script may be a pipe (/dev/stdin). The format of a script is described in tests/README.md. */
#include <stdio.h>
#include <stdlib.h>
#include <string.h>

#include "../include/nichelarder.h"

#define RULES 5u          /* the rule set: the base with E1 to E5 */
#define LENT 0xa7a7a7a7u  /* each number of a buffer for a walk */
#define GUARD 0x5b5b5b5bu
#define GUARDS 16u        /* guards on each side: more than an entry */

static uint8_t *image, *kept;
static size_t image_len, kept_len;
static uint32_t crc_table[8][256];

/* crc_table[k][b]: the byte b followed by k zero bytes. */
static void make_crc(void) {
    for (uint32_t i = 0; i < 256; i++) {
        uint32_t c = i;
        for (int k = 0; k < 8; k++) c = c & 1 ? 0xEDB88320u ^ (c >> 1) : c >> 1;
        crc_table[0][i] = c;
    }
    for (int k = 1; k < 8; k++)
        for (int i = 0; i < 256; i++) crc_table[k][i] = crc_table[0][crc_table[k - 1][i] & 255] ^ (crc_table[k - 1][i] >> 8);
}

/* Eight bytes at a time: the checksum of a big image is most of the work. */
static uint32_t crc(const uint8_t *p, size_t n) {
    uint32_t c = 0xFFFFFFFFu;
    for (; n >= 8; n -= 8, p += 8)
        c = crc_table[7][(c ^ p[0]) & 255] ^ crc_table[6][(c >> 8 ^ p[1]) & 255] ^ crc_table[5][(c >> 16 ^ p[2]) & 255] ^
            crc_table[4][(c >> 24 ^ p[3]) & 255] ^
            crc_table[3][p[4]] ^ crc_table[2][p[5]] ^ crc_table[1][p[6]] ^ crc_table[0][p[7]];
    for (; n; n--, p++) c = crc_table[0][(c ^ *p) & 255] ^ (c >> 8);
    return c ^ 0xFFFFFFFFu;
}

static void *room(size_t n) {
    void *p = malloc(n ? n : 1);
    if (!p) {
        fputs("replay: no memory\n", stderr);
        exit(2);
    }
    return p;
}

static int digit(char c) { return c <= '9' ? c - '0' : c - 'a' + 10; }

/* Bytes in hexadecimal, `-` for none. */
static uint8_t *bytes(const char *s, size_t *n) {
    size_t len = strcmp(s, "-") ? strlen(s) / 2 : 0;
    uint8_t *b = room(len);
    for (size_t i = 0; i < len; i++) b[i] = (uint8_t)(16 * digit(s[2 * i]) + digit(s[2 * i + 1]));
    *n = len;
    return b;
}

static char *hex(char *at, const uint8_t *b, size_t n) {
    if (!n) *at++ = '-';
    for (size_t i = 0; i < n; i++) at += sprintf(at, "%02x", b[i]);
    *at = 0;
    return at;
}

static int by_number(const void *a, const void *b) {
    const uint8_t *x = a, *y = b;
    return (x[0] + 256 * x[1]) - (y[0] + 256 * y[1]);
}

static unsigned long number(const char *s) { return strtoul(s, 0, 10); }

/* n numbers, all the same, between guards that a call must leave as they are. */
static uint32_t *lend(size_t n, uint32_t value) {
    uint32_t *p = room((n + 2 * GUARDS) * sizeof *p);
    for (size_t i = 0; i < n + 2 * GUARDS; i++) p[i] = i < GUARDS || i >= n + GUARDS ? GUARD : value;
    return p + GUARDS;
}

/* Ends the loan; a guard that was written makes the answer differ. */
static void give_back(uint32_t *p, size_t n, char *out) {
    size_t kept = 0;
    for (size_t i = 1; i <= GUARDS; i++) kept += (*(p - i) == GUARD) + (p[n + i - 1] == GUARD);
    if (kept != 2 * GUARDS) strcat(out, " beyond the lent numbers");
    free(p - GUARDS);
}

/* Four bytes a number, low byte first. */
static void hex_numbers(char *at, const uint32_t *p, size_t n) {
    for (size_t i = 0; i < n; i++, p++) at += sprintf(at, "%02x%02x%02x%02x", *p & 255, *p >> 8 & 255, *p >> 16 & 255, *p >> 24);
    strcpy(at, n ? "" : "-");
}

static void walk(char **w, char *out) {
    size_t n = number(w[3]);
    uint32_t *p = lend(n, LENT), *v = lend(4, 77);
    uint32_t r = nl_walk(image, image_len, (uint32_t)number(w[1]), (uint32_t)number(w[2]), p, n, v);
    char *at = out + sprintf(out, "%u %u %u %u %u ", r, v[0], v[1], v[2], v[3]);
    hex_numbers(at, p, n);
    give_back(p, n, out);
    give_back(v, 4, out);
}

static void diagnose(char *out) {
    uint32_t *v = lend(3, 77);
    uint32_t r = nl_diagnose(image, image_len, v);
    sprintf(out, "%u %u %u %u", r, v[0], v[1], v[2]);
    give_back(v, 3, out);
}

/* Makes the call of a line, of w words, and writes what it answers; 0 if the library has no such call. */
static int call(char **w, int words, char *out) {
    size_t a, b;
    if (!strcmp(w[0], "format") && words == 7) {
        uint8_t *m = bytes(w[5], &a);
        uint32_t r = nl_format(image, image_len, number(w[1]), number(w[2]), number(w[3]), number(w[4]), m, a, (uint16_t)number(w[6]));
        sprintf(out, "%u", r);
        free(m);
    } else if (!strcmp(w[0], "check")) {
        sprintf(out, "%u", nl_check(image, image_len));
    } else if (!strcmp(w[0], "insert")) {
        uint32_t answer[3] = {77, 77, 77};
        int32_t lean = 77;
        uint8_t *p = bytes(w[1], &a), *c = bytes(w[6], &b);
        uint32_t r = nl_insert(image, image_len, p, a, number(w[2]), number(w[3]), number(w[4]), (uint16_t)number(w[5]), c, b, answer, &lean);
        sprintf(out, "%u %u %u %u %d", r, answer[0], answer[1], answer[2], (int)lean);
        free(p);
        free(c);
    } else if (!strcmp(w[0], "remove")) {
        uint8_t *p = bytes(w[1], &a);
        sprintf(out, "%u", nl_remove(image, image_len, p, a));
        free(p);
    } else if (!strcmp(w[0], "find")) {
        uint32_t place[2] = {77, 77};
        uint8_t *p = bytes(w[1], &a);
        uint32_t r = nl_find(image, image_len, p, a, place);
        sprintf(out, "%u %u %u", r, place[0], place[1]);
        free(p);
    } else if (!strcmp(w[0], "climb") || !strcmp(w[0], "records")) {
        int climb = w[0][0] == 'c';
        size_t n = number(w[climb ? 3 : 1]);
        uint8_t *p = room(n);
        uint32_t written = 77, r;
        memset(p, 0xa7, n);
        if (climb)
            r = nl_climb(image, image_len, number(w[1]), number(w[2]), p, n, &written);
        else {
            r = nl_records(image, image_len, p, n, &written);
            if (written <= n) qsort(p, written / 2, 2, by_number);
        }
        out += sprintf(out, "%u %u ", r, written);
        hex(out, p, n);
        free(p);
    } else if (!strcmp(w[0], "read")) {
        uint32_t v[6] = {77, 77, 77, 77, 77, 77};
        uint32_t r = nl_read(image, image_len, number(w[1]), number(w[2]), v);
        out += sprintf(out, "%u %u %u %u %u ", r, v[0], v[1], v[5], v[2]);
        b = (size_t)v[3] + v[4] <= image_len ? v[4] : 0;
        out = hex(out, image + (b ? v[3] : 0), b);
        sprintf(out, " %u", v[3]);
    } else if (!strcmp(w[0], "next")) {
        uint32_t v[5] = {77, 77, 77, 77, 77};
        uint32_t r = nl_next(image, image_len, number(w[1]), number(w[2]), v);
        sprintf(out, "%u %u %u %u %u %u", r, v[0], v[1], v[2], v[3], v[4]);
    } else if (!strcmp(w[0], "walk") && words == 4) {
        walk(w, out);
    } else if (!strcmp(w[0], "diagnose")) {
        diagnose(out);
    } else
        return 0;
    return 1;
}

static long calls, bad, skipped;

static void line(char *s, char *out, char *want, int *waiting) {
    char *w[10];
    int words = 0;
    if (s[0] == '#' || !s[0]) return;
    if (s[0] == '=' && s[1] == ' ') {
        if (!*waiting) return;
        *waiting = 0;
        sprintf(out + strlen(out), " %08x", crc(image, image_len));
        calls++;
        if (strcmp(out, s + 2)) {
            if (bad++ < 5) printf("differs: %.300s\n wanted: %.300s\n    got: %.300s\n", want, s + 2, out);
        }
        return;
    }
    sprintf(want, "%.400s", s);
    for (char *t = strtok(s, " "); t && words < 10; t = strtok(0, " ")) w[words++] = t;
    if (!strcmp(w[0], "V")) return;
    if (!strcmp(w[0], "I")) {
        free(image);
        image_len = number(w[1]);
        image = room(image_len);
        memset(image, 0, image_len);
    } else if (!strcmp(w[0], "B")) {
        size_t n;
        uint8_t *b = bytes(w[2], &n);
        memcpy(image + number(w[1]), b, n);
        free(b);
    } else if (!strcmp(w[0], "C")) {
        if (crc(image, image_len) != strtoul(w[1], 0, 16)) bad++, printf("differs: the image before %s\n", want);
    } else if (!strcmp(w[0], "S")) {
        free(kept);
        kept = room(image_len);
        memcpy(kept, image, kept_len = image_len);
    } else if (!strcmp(w[0], "R")) {
        free(image);
        image = room(kept_len);
        memcpy(image, kept, image_len = kept_len);
    } else if (call(w, words, out))
        *waiting = 1;
    else
        skipped++;
}

static int replay(const char *name) {
    FILE *f = fopen(name, "r");
    unsigned long longest = 0;
    unsigned rules = 0;
    char first[64];
    if (!f || !fgets(first, sizeof first, f) || sscanf(first, "V 1 %u %lu", &rules, &longest) != 2) {
        fprintf(stderr, "replay: %s is no script\n", name);
        return 2;
    }
    if (rules != RULES) {
        fprintf(stderr, "replay: %s is of rule set %u, not %u\n", name, rules, RULES);
        return 2;
    }
    longest += 400000;
    char *s = room(longest), *out = room(longest), *want = room(512);
    int waiting = 0;
    calls = bad = skipped = 0;
    free(image);
    image = room(image_len = 0);
    while (fgets(s, (int)longest, f)) {
        s[strcspn(s, "\n")] = 0;
        line(s, out, want, &waiting);
    }
    fclose(f);
    free(s);
    free(out);
    free(want);
    printf("%s: %ld calls, %ld differences, %ld lines skipped\n", name, calls, bad, skipped);
    return bad || !calls;
}

int main(int argc, char **argv) {
    int failed = argc < 2;
    make_crc();
    for (int i = 1; i < argc; i++) failed |= replay(argv[i]);
    return failed ? 1 : 0;
}
