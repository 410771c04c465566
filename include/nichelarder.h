/* Nichelarder: a proved tree store in a block of memory that the caller lends.
 *
 * An image is 2 to 1,024 pages of 4,096 bytes. Page 0 holds the settings, page 1 the root record, every other page is free or holds one
 * record. The store keeps one ordered tree: an aggregate has a label and children, a literal a label and 0 to 520 content bytes; both have an
 * origin, which says where the field came from.
 * A path is a list of child numbers from 0, four bytes each, low byte first; the empty path is the root. A place is a page and a byte
 * offset at which a node starts; it lasts until the next accepted insert, removal or format.
 *
 * Each function returns 0, or the number of the first refusal that applies, in the order in which its comment names them. A refused call writes
 * zeros to its answer numbers and changes nothing of the image and of a lent buffer, be it of bytes or of numbers. Any bytes and any numbers may be handed
 * over, but
 *  - a pointer may be null only where it has a length, and that is 0: an empty path or content may be NULL, 0;
 *  - a length is how many bytes the pointer leads to; only nl_walk's entries_len counts numbers of type uint32_t;
 *  - a buffer that is lent for writing, as are all answer numbers, overlaps neither the image nor another buffer of the same call.
 * A buffer that is only read (matrix, path, parent, content) may lie in the image, also where the call changes the image: what counts are its bytes
 * when the call is made. So format keeps its own matrix by image + 16, 256, insert copies a content from where nl_read has found it, and the path of a
 * removal may stand in the node that it removes.
 * The image and the buffers stay the caller's; the library keeps no pointer and no state and allocates nothing. Several threads may call on different
 * images, and several may read one image at the same time as long as none changes it: only format, insert and remove write to an image.
 *
 * Every call but format checks the whole image first, so that damage is never trusted: its time grows with the image's length. An image is best no longer
 * than needed.
 *
 * Stack: NL_STACK_READ bytes are enough for a call that changes nothing, NL_STACK_CHANGE for any call, on every image, whatever its bytes, broken ones too:
 * the figures are for trees of all 24 levels, and records that are nested in one another take nothing more. They hold for a process's first call too, where
 * the loader may look up the two functions below on the same stack.
 * The archive needs of the C library: memcpy, memset.
 *
 * The format, for those who look at bytes: a record is a tree of nodes, each a header of six bytes (kind, origin, one byte each; label, size, two bytes
 * each, low byte first) and what it holds. Kind 1 is an aggregate, 2 a literal, 3 a proxy: two bytes that name the page of the record that stands in its
 * place, 4 a helper: the root of a record that holds several nodes; proxies and helpers have zeros for origin and label. A page ends in 16 bytes: whether
 * it has a record, whether that is settled, its length and the page that holds its proxy. Calls show neither proxies nor helpers.
 */
#ifndef NICHELARDER_H
#define NICHELARDER_H

#include <stddef.h>
#include <stdint.h>

#ifdef __cplusplus
extern "C" {
#endif

/* The version of the calls. A call or a name that is changed or gone, and a call that gives other answers than before, change the first number; a call that is
 * added changes the second. The format of images has a number of its own, NL_FORM. */
#define NL_VERSION "2.0"
#define NL_VERSION_MAJOR 2
#define NL_VERSION_MINOR 0

#define NL_PAGE 4096u     /* bytes of a page */
#define NL_CAPACITY 4080u /* most bytes of a record */
#define NL_LEVELS 24u     /* most levels of the tree */
#define NL_PAGES 1024u    /* most pages of an image */
#define NL_CONTENT 520u   /* most content bytes of a literal */
#define NL_PATH 92u       /* most bytes of a path: a buffer this long takes every climb */

/* Bytes of stack (see above): a little more than tests/stack.c measures on x86-64. */
#define NL_STACK_READ 20480u   /* a call that changes nothing */
#define NL_STACK_CHANGE 29696u /* any call */

/* The settings that format takes. */
#define NL_TARGET_MIN 64u       /* target: a record that is too large is split at so many 256ths of its size */
#define NL_TARGET_MAX 192u
#define NL_TARGET_USUAL 128u    /* in the middle */
#define NL_TOLERANCE_MAX 512u   /* tolerance, from 0 on: a split divides no node of fewer bytes */
#define NL_TOLERANCE_USUAL 409u
#define NL_FORM 1u     /* the layout of an image's bytes, a number on page 0 by which a later version can tell images apart; only 1 is known */
#define NL_MATRIX 256u /* entries of the split matrix, each one of these two: */
#define NL_APART 0u    /* such a child gets a record, and so a page, of its own */
#define NL_FREE 2u     /* free choice: such a child may share its parent's record */

#define NL_AGGREGATE 1u
#define NL_LITERAL 2u

/* Origins. A formatted root has 0, and so has every node of an image from before there were origins. */
#define NL_WIRE 0u     /* seen on the wire */
#define NL_STORED 1u   /* read from a store */
#define NL_TYPED_IN 2u /* typed in */
#define NL_DERIVED 3u  /* derived */

/* The names of the origins 0 to 3 for messages: static const char *const origins[] = NL_ORIGIN_NAMES; */
#define NL_ORIGIN_NAMES { "wire", "stored", "typed in", "derived" }

/* What a call returns: 0, or why it refused, and what to do about it. */
enum nl_refusal {
    NL_OK = 0,
    NL_LENGTH = 1,    /* the image's length is not 2 to 1,024 pages: lend the whole image and nothing more */
    NL_SETTINGS = 2,  /* format: a setting is out of range, or the page count is not the image's: correct the arguments */
    NL_BROKEN = 3,    /* the image does not pass the check: it is damaged or was never formatted; nl_diagnose says what is wrong; load it again, and format
                         it only if nothing on it is wanted */
    NL_LEVEL = 4,     /* the path has over 23 entries (92 bytes), for an insert over 22 (88 bytes): a tree has 24 levels; insert higher up */
    NL_KIND = 5,      /* insert: the kind is not 1 or 2, or an aggregate has content: content goes into a literal */
    NL_LONG = 6,      /* insert: the content has over 520 bytes: divide it over several literals */
    NL_ABSENT = 7,    /* the path names no node, or is not whole entries of four bytes: look the node up again */
    NL_CLOSED = 8,    /* insert: the parent is a literal, which has no children: choose an aggregate */
    NL_GAP = 9,       /* insert: the child number is above the number of children: the number of children itself appends */
    NL_STRAY = 10,    /* no node starts at the place: it is from before an insert, a removal or a format; find it again by its path */
    NL_SHORT = 11,    /* the lent buffer is too short, and nothing was written: NL_PATH bytes take every path, 2 * NL_PAGES every list of records */
    NL_FULL = 12,     /* insert: a page is needed and none is free: nothing was changed; remove a branch to free pages, or format a larger image and
                         insert again what this one holds */
    NL_ORIGIN = 13,   /* insert: the origin is above 3: give one of the four; tested directly after 5 */
    NL_EMPTY = 14     /* remove: the path is empty, and the root cannot be removed: format instead; tested directly after 4 */
};

/* The names of the numbers 0 to 14 for messages: static const char *const names[] = NL_REFUSAL_NAMES; nl_refusal_name takes any number. */
#define NL_REFUSAL_NAMES                                                                                                                  \
    { "ok", "wrong length", "wrong settings", "broken image", "path too long", "wrong kind", "content too long", "no such node",           \
      "parent is a literal", "child number too high", "no node at this place", "buffer too short", "store full", "wrong origin",           \
      "path is empty" }

/* Where each number stands in an answer: place[NL_PLACE_PAGE]. The last name of each is how many numbers the answer has: uint32_t place[NL_PLACE]. */
enum nl_place { NL_PLACE_PAGE, NL_PLACE_OFFSET, NL_PLACE };
enum nl_inserted { NL_INSERT_PAGE, NL_INSERT_OFFSET, NL_INSERT_SPLITS, NL_INSERT };
enum nl_node { NL_READ_KIND, NL_READ_LABEL, NL_READ_CHILDREN, NL_READ_START, NL_READ_LENGTH, NL_READ_ORIGIN, NL_READ };
enum nl_following { NL_NEXT_FOUND, NL_NEXT_PAGE, NL_NEXT_OFFSET, NL_NEXT_KIND, NL_NEXT_ORIGIN, NL_NEXT };
enum nl_walked { NL_WALK_ENTRIES, NL_WALK_MORE, NL_WALK_PAGE, NL_WALK_OFFSET, NL_WALK };
enum nl_fault { NL_FAULT_STAGE, NL_FAULT_PAGE, NL_FAULT_REASON, NL_FAULT };

/* A walk's entry: the numbers of one node. NL_ENTRY of them make an entry; those of entry i begin at entries + NL_ENTRY * i. */
enum nl_entry {
    NL_ENTRY_LEVEL,    /* 1 for the root, at most NL_LEVELS */
    NL_ENTRY_PAGE,     /* its place: page .. */
    NL_ENTRY_OFFSET,   /* .. and offset */
    NL_ENTRY_KIND,     /* NL_AGGREGATE or NL_LITERAL */
    NL_ENTRY_ORIGIN,   /* NL_WIRE to NL_DERIVED */
    NL_ENTRY_LABEL,
    NL_ENTRY_CHILDREN, /* how many children it has */
    NL_ENTRY_START,    /* where its content starts: at image + this; 0 without content */
    NL_ENTRY_LENGTH,   /* bytes of its content; 0 for an aggregate */
    NL_ENTRY           /* numbers of an entry: 9 */
};

/* How far the check of a broken image came. Each stage is tried only if those before it found nothing. */
enum nl_stage {
    NL_STAGE_NONE = 0,     /* nothing is wrong, or the image's length is */
    NL_STAGE_SETTINGS = 1, /* page 0 */
    NL_STAGE_TRAILERS = 2, /* the last 16 bytes of each page, and the free pages, in page order */
    NL_STAGE_WALK = 3      /* the records, from page 1 on through their proxies */
};

/* What is wrong with the page that a diagnosis names, and what to do about it. Only the first fault is named: once it is mended, the next diagnosis
 * names the next. */
enum nl_reason {
    NL_SOUND = 0,        /* nothing */
    NL_UNFORMATTED = 1,  /* page 0 is all zero, or all 255 as erased flash is: the image was never formatted, or is erased, be it page 0 alone: load it;
                            format it only if nothing on it is wanted */
    NL_BAD_SETTINGS = 2, /* page 0 has no settings for this many pages: it is damaged, or this is not the whole image: load page 0, or all, again */
    NL_BAD_TRAILER = 3,  /* the page's last 16 bytes are damaged: load the page again */
    NL_BAD_FREE = 4,     /* the trailer says free, and a byte of the page is not zero: load the page again */
    NL_BAD_TAIL = 5,     /* a byte past the end of the page's record is not zero: load the page again */
    NL_BAD_NODE = 6,     /* a node in the page's record is against the rules: load the page again */
    NL_BAD_LEVEL = 7,    /* a node in the page's record is deeper than level 24: load the page again, and those that hold it */
    NL_BAD_LINK = 8,     /* a proxy in the page's record and the page that it names do not belong together: load both again */
    NL_UNREACHED = 9     /* no way of proxies leads from page 1 to the page's record: the page, or one of those that its back links lead to, is damaged:
                            load them again */
};

/* The names of the reasons 0 to 9 for messages; nl_reason_name takes any number. */
#define NL_REASON_NAMES                                                                                                                   \
    { "nothing wrong", "never formatted", "wrong settings", "wrong trailer", "free page not zero", "bytes past the record", "wrong node",   \
      "node too deep", "wrong proxy or back link", "page not reached" }

/* Makes any bytes an image with a root aggregate alone, of origin 0. matrix: 256 entries, 16 * class of parent + class of child, each 0
 * (NL_APART) or 2 (NL_FREE); a label's class is the label below 15, else 15. Usual: target 128, tolerance 409, form 1, matrix all 2
 * (NL_TARGET_USUAL, NL_TOLERANCE_USUAL, NL_FORM, NL_FREE). Refusals 1, 2. */
uint32_t nl_format(uint8_t *image, size_t image_len, uint32_t pages, uint32_t target, uint32_t tolerance, uint32_t form,
                   const uint8_t *matrix, size_t matrix_len, uint16_t root_label);

/* Whether all bytes of the image keep the rules. Refusals 1, 3. */
uint32_t nl_check(const uint8_t *image, size_t image_len);

/* The check and, where that gives 3, what is wrong: the stage (enum nl_stage), the page and the reason (enum nl_reason) of the first fault that the check
 * meets; 0 0 0 where it gives 0 or 1. Refusals 1, 3. */
uint32_t nl_diagnose(const uint8_t *image, size_t image_len, uint32_t answer[3]);

/* Puts a new node as child number `child` (0 is first) of the aggregate that the path `parent` names: kind NL_AGGREGATE without content or
 * NL_LITERAL, its origin, NL_WIRE to NL_DERIVED, its label, and its content. The answer: page and offset of the new node, how many records were
 * split; *lean is how far the first split was from its aim, in bytes, -525 to 132, or 0 without a split. The aim is size * target / 256 of the
 * record that is split, to the nearest byte, at an exact half the even one. An accepted insert changes nothing of other nodes but may move them:
 * places from before it are void. Refusals 1, 3, 4, 5, 13, 6, 7, 8, 9, 12. */
uint32_t nl_insert(uint8_t *image, size_t image_len, const uint8_t *parent, size_t parent_len, uint32_t child, uint32_t kind, uint32_t origin,
                   uint16_t label, const uint8_t *content, size_t content_len, uint32_t answer[3], int32_t *lean);

/* Removes the node that the path names, any but the root, with all under it: later siblings move down by one, and the pages of records that go are
 * zeroed and free. It needs no free page: 12 never applies. An accepted removal changes nothing of other nodes but may move them: places from before
 * it are void. Refusals 1, 3, 4, 14, 7. */
uint32_t nl_remove(uint8_t *image, size_t image_len, const uint8_t *path, size_t path_len);

/* Path to place: page, offset. Refusals 1, 3, 4, 7. */
uint32_t nl_find(const uint8_t *image, size_t image_len, const uint8_t *path, size_t path_len, uint32_t place[2]);

/* Place to path: written to the front of the lent buffer, the rest unchanged; the bytes written go to *written. Refusals 1, 3, 10, 11. */
uint32_t nl_climb(const uint8_t *image, size_t image_len, uint32_t page, uint32_t offset, uint8_t *path, size_t path_len, uint32_t *written);

/* Of the node at a place: kind, label, number of children, start of the content in the image, its length, origin. Refusals 1, 3, 10. */
uint32_t nl_read(const uint8_t *image, size_t image_len, uint32_t page, uint32_t offset, uint32_t answer[6]);

/* The following node in document order: 1 and its page, offset, kind, origin; or 0 0 0 0 0 at the end. Refusals 1, 3, 10. */
uint32_t nl_next(const uint8_t *image, size_t image_len, uint32_t page, uint32_t offset, uint32_t answer[5]);

/* The node at a place and those that follow in document order: an entry of NL_ENTRY numbers each (enum nl_entry), as many as fit, to the front of the lent
 * numbers; the rest is unchanged. `entries_len` is how many numbers are lent, not bytes. The answer: how many entries were written; 1 if more nodes follow,
 * else 0; page and offset of the first that was not written, 0 0 if there is none. With fewer than NL_ENTRY numbers lent, nothing is written, and the
 * answer is 0, 1 and the place. All of a tree, from the root on page 1 at offset 0:
 *     uint32_t entries[100 * NL_ENTRY], walked[NL_WALK] = {0, 1, 1, 0}, i;
 *     while (walked[NL_WALK_MORE]) {
 *         if (nl_walk(image, image_len, walked[NL_WALK_PAGE], walked[NL_WALK_OFFSET], entries, 100 * NL_ENTRY, walked))
 *             break;
 *         for (i = 0; i < walked[NL_WALK_ENTRIES]; i++)
 *             show(entries + NL_ENTRY * i);
 *     }
 * The image is checked once a call, and not once a node as with nl_next: the more numbers are lent, the faster. Refusals 1, 3, 10. */
uint32_t nl_walk(const uint8_t *image, size_t image_len, uint32_t page, uint32_t offset, uint32_t *entries, size_t entries_len,
                 uint32_t answer[4]);

/* All record pages, two bytes each, low byte first, in any order, to the front of the lent buffer. Refusals 1, 3, 11. */
uint32_t nl_records(const uint8_t *image, size_t image_len, uint8_t *pages, size_t pages_len, uint32_t *written);

/* Helpers, which are in this header alone. */

/* The name of what a call returned, for messages; any number may be given. */
static inline const char *nl_refusal_name(uint32_t number) {
    static const char *const names[] = NL_REFUSAL_NAMES;
    return number < sizeof names / sizeof *names ? names[number] : "unknown refusal";
}

/* The name of a diagnosis' reason; any number may be given. */
static inline const char *nl_reason_name(uint32_t number) {
    static const char *const names[] = NL_REASON_NAMES;
    return number < sizeof names / sizeof *names ? names[number] : "unknown reason";
}

/* Appends a child number to a path of `len` bytes in a buffer of NL_PATH bytes. Gives the new length; or 0, with the buffer unchanged, where the path has
 * 23 entries already or `len` is not whole entries. */
static inline size_t nl_path_append(uint8_t *path, size_t len, uint32_t child) {
    size_t end = len + 4;
    if (len >= NL_PATH || len % 4 != 0)
        return 0;
    for (; len < end; len++, child >>= 8)
        path[len] = child & 255u;
    return end;
}

/* Entry i, from 0, of a path of more than i entries. */
static inline uint32_t nl_path_entry(const uint8_t *path, size_t i) {
    uint32_t child = path[4 * i + 3];
    child = child << 8 | path[4 * i + 2];
    child = child << 8 | path[4 * i + 1];
    return child << 8 | path[4 * i];
}

/* The length of the parent's path, which is the front of the path; 0, the root's, for the root too. */
static inline size_t nl_path_parent(size_t len) { return len < 4 ? 0 : len - 4; }

#ifdef __cplusplus
}
#endif

#endif
