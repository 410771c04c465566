/* Writes images of 3, 40 and 1,024 pages, grown by the library, for tests/tool.sh:
 *     grow_images FOLDER
 * three.img has a few nodes, forty.img certificates at random places, first.img (1,024 pages) certificates of which the newest comes first, and nested.img
 * (1,024 pages) large aggregates that are filled one after the other, which nests records deep. */
#include "../bench/random.h"
#include "../include/nichelarder.h"
#include <stdio.h>
#include <stdlib.h>
#include <string.h>

enum order { ANYWHERE, NEWEST_FIRST, APPENDED };

static const struct {
    const char *name;
    uint32_t pages, nodes, issuers, fields, most; /* fields of a certificate, and the most bytes of each */
    enum order order;
} images[] = {{"three", 3, 6, 1, 2, 20, APPENDED},
              {"forty", 40, 600, 6, 10, 120, ANYWHERE},
              {"first", NL_PAGES, 6000, 40, 10, 400, NEWEST_FIRST},
              {"nested", NL_PAGES, 3000, 1, 8, 520, APPENDED}};

static uint8_t *image;
static size_t image_len;
static uint32_t inserted;

/* Gives 0, or 1 if the image is full. */
static int insert(const uint8_t *parent, size_t parent_len, uint32_t child, uint32_t kind, uint32_t label, size_t size) {
    uint8_t content[NL_CONTENT];
    uint32_t answer[NL_INSERT], number;
    int32_t lean;
    memset(content, (int)(inserted % 255 + 1), sizeof content);
    number = nl_insert(image, image_len, parent, parent_len, child, kind, inserted % 4, (uint16_t)label, content, size, answer, &lean);
    if (number && number != NL_FULL) {
        fprintf(stderr, "grow_images: insert: %s\n", nl_refusal_name(number));
        exit(1);
    }
    inserted++;
    return number != 0;
}

static void grow(size_t k) {
    uint32_t kids[64] = {0}, i, fields;
    uint8_t path[NL_PATH], matrix[NL_MATRIX];
    size_t len;
    int full = 0;
    memset(matrix, NL_FREE, sizeof matrix);
    image_len = images[k].pages * NL_PAGE;
    seed = 7, inserted = 0;
    nl_format(image, image_len, images[k].pages, NL_TARGET_USUAL, NL_TOLERANCE_USUAL, NL_FORM, matrix, sizeof matrix, 7);
    for (i = 0; i < images[k].issuers; i++)
        insert(path, 0, i, NL_AGGREGATE, 8, 0);
    while (inserted < images[k].nodes && !full) {
        uint32_t issuer = any(images[k].issuers), child = images[k].order == NEWEST_FIRST ? 0 : images[k].order == APPENDED ? kids[issuer] : any(kids[issuer] + 1);
        len = nl_path_append(path, 0, issuer);
        full = insert(path, len, child, NL_AGGREGATE, 300, 0);
        kids[issuer]++;
        len = nl_path_append(path, len, child);
        for (i = 0, fields = images[k].fields; i < fields && !full; i++)
            full = insert(path, len, i, NL_LITERAL, i, images[k].order == APPENDED ? images[k].most : any(images[k].most + 1));
    }
}

int main(int argc, char **argv) {
    size_t k;
    image = malloc((size_t)NL_PAGES * NL_PAGE);
    if (argc != 2 || !image)
        return 2;
    for (k = 0; k < sizeof images / sizeof *images; k++) {
        char name[4096];
        FILE *out;
        grow(k);
        snprintf(name, sizeof name, "%s/%s.img", argv[1], images[k].name);
        out = fopen(name, "wb");
        if (!out || fwrite(image, 1, image_len, out) != image_len || fclose(out))
            return 2;
    }
    free(image);
    return 0;
}
