/* The header stands by itself, in C99 and in C++, with all warnings on: all calls link, and its helpers do what they say. */
#include "../include/nichelarder.h"
#include <string.h>

const char *const header_names[] = NL_REFUSAL_NAMES;
const char *const header_origins[] = NL_ORIGIN_NAMES;
const char *const header_reasons[] = NL_REASON_NAMES;

uint32_t header_calls(uint8_t *image, size_t n, uint32_t *numbers, int32_t *lean);
uint32_t header_calls(uint8_t *image, size_t n, uint32_t *numbers, int32_t *lean) {
    return nl_format(image, n, 2, NL_TARGET_USUAL, NL_TOLERANCE_USUAL, NL_FORM, image, NL_MATRIX, 7) | nl_check(image, n) |
           nl_diagnose(image, n, numbers) | nl_insert(image, n, image, 0, 0, NL_LITERAL, NL_TYPED_IN, 9, image, 0, numbers, lean) |
           nl_remove(image, n, image, 4) | nl_find(image, n, image, 0, numbers) | nl_climb(image, n, 1, 0, image, NL_PATH, numbers) |
           nl_read(image, n, 1, 0, numbers) | nl_next(image, n, 1, 0, numbers) | nl_walk(image, n, 1, 0, numbers + NL_WALK, NL_ENTRY, numbers) |
           nl_records(image, n, image, 2 * NL_PAGES, numbers);
}

/* The last name of each list of places is its length, and there is a name for every refusal, reason and origin. */
int header_lists(const uint32_t *place);
int header_lists(const uint32_t *place) {
    typedef char as_declared[NL_PLACE == 2 && NL_INSERT == 3 && NL_READ == 6 && NL_NEXT == 5 && NL_WALK == 4 && NL_FAULT == 3 && NL_ENTRY == 9 ? 1 : -1];
    typedef char as_many[sizeof header_names / sizeof *header_names == 15 && sizeof header_reasons / sizeof *header_reasons == 10 &&
                                 sizeof header_origins / sizeof *header_origins == 4
                             ? 1
                             : -1];
    return sizeof(as_declared) == 1 && sizeof(as_many) == 1 && place[NL_PLACE_PAGE] != place[NL_PLACE_OFFSET];
}

/* The first name, the last and one between, and what is said of numbers past the end. */
int header_texts(void);
int header_texts(void) {
    return strcmp(nl_refusal_name(NL_OK), "ok") != 0 || strcmp(nl_refusal_name(NL_ABSENT), "no such node") != 0 ||
           strcmp(nl_refusal_name(NL_FULL), "store full") != 0 || strcmp(nl_refusal_name(NL_EMPTY), "path is empty") != 0 ||
           strcmp(nl_refusal_name(15), "unknown refusal") != 0 || strcmp(nl_refusal_name(0xffffffffu), "unknown refusal") != 0 ||
           strcmp(nl_reason_name(NL_SOUND), "nothing wrong") != 0 || strcmp(nl_reason_name(NL_BAD_TAIL), "bytes past the record") != 0 ||
           strcmp(nl_reason_name(NL_UNREACHED), "page not reached") != 0 || strcmp(nl_reason_name(10), "unknown reason") != 0 ||
           strcmp(nl_reason_name(0xffffffffu), "unknown reason") != 0 || strcmp(header_origins[NL_WIRE], "wire") != 0 ||
           strcmp(header_origins[NL_TYPED_IN], "typed in") != 0 || strcmp(header_origins[NL_DERIVED], "derived") != 0;
}

/* A path is built and read back; one that is full, or not whole entries, stays as it is. */
int header_helpers(void);
int header_helpers(void) {
    uint8_t path[NL_PATH] = {0};
    size_t len = 0, next = 0;
    uint32_t i;
    for (i = 0; (next = nl_path_append(path, len, 0x01020304u + i)) != 0; i++)
        len = next;
    for (i = 0; 4 * i < len; i++)
        if (nl_path_entry(path, i) != 0x01020304u + i)
            return 1;
    return len != NL_PATH || path[0] != 4 || path[3] != 1 || nl_path_append(path, 2, 5) != 0 || path[2] != 2 || nl_path_parent(len) != NL_PATH - 4 ||
           nl_path_parent(0) != 0;
}

int main(void) { return header_helpers() || header_texts(); }
