/* The calls of the static library `dorgumanna`, for C99 and C++. docs/LINKING.md says how a program is linked with it.
 *
 * A lent slice is a pointer and a length. A pointer to no bytes may be anything but null. No call keeps a pointer,
 * allocates, or writes anywhere but where it says. Slices that a call writes to must not overlap its others.
 *
 * A call is done or refused. Its refusals stand below in the order in which they are looked for: the first that
 * applies is the answer. A refused call leaves every lent byte as it was. */
#ifndef DORGUMANNA_H
#define DORGUMANNA_H

#include <stdbool.h>
#include <stddef.h>
#include <stdint.h>

#ifdef __cplusplus
extern "C" {
#endif

/* The bytes of a page. */
#define DORGUMANNA_PAGE_BYTES 16384

/* What the member `number` of an answer says. */
enum dorgumanna_number {
    DORGUMANNA_DONE = 0,
    DORGUMANNA_PAGE_LENGTH = 1,
    DORGUMANNA_WIDTH = 2,
    DORGUMANNA_KEY_LENGTH = 3,
    DORGUMANNA_HEADER_RULES = 4,
    DORGUMANNA_NOT_FIT = 5, /* carries the number of the first rule broken, U1 to U9 */
    DORGUMANNA_FENCE_ORDER = 6,
    DORGUMANNA_VALUE_RANGE = 7,
    DORGUMANNA_PREFIX = 8,
    DORGUMANNA_OUTSIDE_FENCES = 9,
    DORGUMANNA_SLOT_NUMBER = 10,
    DORGUMANNA_PRESENT = 11,
    DORGUMANNA_NEIGHBOURS = 12,
    DORGUMANNA_NO_ROOM = 13,
    DORGUMANNA_PAYLOAD = 14,
    DORGUMANNA_BUFFER_LENGTH = 15,
    DORGUMANNA_SHORT_KEY = 16,
    DORGUMANNA_NOT_FOUND = 17,
    DORGUMANNA_OTHER_VALUE = 18, /* carries the stored value */
    DORGUMANNA_CUT = 255         /* of a batch alone */
};

/* A number in the words of document 01. The text lives as long as the program. */
static inline const char *dorgumanna_refusal_text(uint8_t number)
{
    switch (number) {
    case DORGUMANNA_DONE: return "done";
    case DORGUMANNA_PAGE_LENGTH: return "page not 16,384 bytes";
    case DORGUMANNA_WIDTH: return "width not 0, 1, 8";
    case DORGUMANNA_KEY_LENGTH: return "key argument above 65,535 bytes";
    case DORGUMANNA_HEADER_RULES: return "header rules broken";
    case DORGUMANNA_NOT_FIT: return "page not fit";
    case DORGUMANNA_FENCE_ORDER: return "upper fence not empty and lower >= upper";
    case DORGUMANNA_VALUE_RANGE: return "value above 255 at width 1, above 0 at width 0";
    case DORGUMANNA_PREFIX: return "key lacks the page's prefix";
    case DORGUMANNA_OUTSIDE_FENCES: return "key outside the fences";
    case DORGUMANNA_SLOT_NUMBER: return "slot number not below count; run past the source's count";
    case DORGUMANNA_PRESENT: return "key already there";
    case DORGUMANNA_NEIGHBOURS: return "key not strictly between its neighbours";
    case DORGUMANNA_NO_ROOM:
        return "free below what the call adds: the needs filed, or for a key change only its new payload";
    case DORGUMANNA_PAYLOAD: return "a slot visited has payload outside end..16,256";
    case DORGUMANNA_BUFFER_LENGTH: return "output buffer too short";
    case DORGUMANNA_SHORT_KEY: return "key under 8 bytes";
    case DORGUMANNA_NOT_FOUND: return "not found";
    case DORGUMANNA_OTHER_VALUE: return "stored value differs from the expected one";
    case DORGUMANNA_CUT: return "records end inside one";
    default: return "no such number";
    }
}

/* number is 0, and a, b are the call's values; or number is that of a refusal, and a is what the refusal carries. Of a
 * batch alone, a is then the place of the record refused, and b what the refusal carries. Values that there are not
 * are 0. */
typedef struct {
    uint8_t number;
    uint64_t a;
    uint64_t b;
} dorgumanna_answer;

/* number is 0, followed by the space numbers; or number is that of a refusal, and carried is what it carries. */
typedef struct {
    uint8_t number;
    uint64_t carried;
    uint64_t start;
    uint64_t end;
    uint64_t free;
    uint64_t used;
    uint64_t effective;
    uint64_t reclaimable;
    uint64_t compacted; /* free after compaction */
} dorgumanna_space_answer;

/* Reads. They write nothing but what copy_key writes to its buffer.
 *
 * find and the bounds test the header rules, not the whole page, and answer what halving finds. On a fit page that is
 * what a scan of all keys finds. On a page that passes the header rules but is not fit, say one with stale hints, a key
 * that is there can be missed. So of a page that is not known to be fit, ask the fit verdict first: dorgumanna_fit. */

/* Looks for a key. a: the slot where it was found, and b: 1; or, where it was not found, a: where it was looked for,
 * on a fit page the number of smaller keys, and b: 0. Refused by 1, 2, 3, 4, 8, 14. */
dorgumanna_answer dorgumanna_find(const uint8_t *page, size_t page_len, uint8_t width, const uint8_t *key,
                                  size_t key_len);

/* a: on a fit page the number of keys below the probe; 0 for a probe before the page's prefix, the count for one after
 * it. Refused by 1, 2, 3, 4, 14. */
dorgumanna_answer dorgumanna_lower_bound(const uint8_t *page, size_t page_len, uint8_t width, const uint8_t *key,
                                         size_t key_len);

/* a: on a fit page the number of keys at most the probe; 0 for a probe before the page's prefix, the count for one
 * after it. Refused by 1, 2, 3, 4, 14. */
dorgumanna_answer dorgumanna_upper_bound(const uint8_t *page, size_t page_len, uint8_t width, const uint8_t *key,
                                         size_t key_len);

/* A slot's key against a probe. a: -1, 0 or 1 in two's complement, for a slot below, at or above the probe.
 * Refused by 1, 2, 3, 4, 10, 14. */
dorgumanna_answer dorgumanna_compare(const uint8_t *page, size_t page_len, uint8_t width, size_t slot,
                                     const uint8_t *key, size_t key_len);

/* The child that serves a probe, on a page of width 8 and any height. a: the highest slot whose key is at most the
 * probe, or -1 in two's complement where the lower fence's own child serves; b: that child's value.
 * Refused by 1, 3, 5, 8, 9. */
dorgumanna_answer dorgumanna_child(const uint8_t *page, size_t page_len, const uint8_t *key, size_t key_len);

/* a: the value of a slot's entry, 0 at width 0. Refused by 1, 2, 4, 10, 14. */
dorgumanna_answer dorgumanna_entry(const uint8_t *page, size_t page_len, uint8_t width, size_t slot);

/* A slot's whole key, prefix included, written to the front of out; the bytes of out behind it stay as they were.
 * a: the key's length. Refused by 1, 2, 4, 10, 14, 15. */
dorgumanna_answer dorgumanna_copy_key(const uint8_t *page, size_t page_len, uint8_t width, size_t slot, uint8_t *out,
                                      size_t out_len);

/* a: the last eight bytes of a slot's key, as a big-endian number. Refused by 1, 2, 4, 10, 14, 16. */
dorgumanna_answer dorgumanna_trailing_id(const uint8_t *page, size_t page_len, uint8_t width, size_t slot);

/* The space numbers of a page. Refused by 1, 4, and by 5 with an 8 where effective exceeds used. */
dorgumanna_space_answer dorgumanna_space(const uint8_t *page, size_t page_len);

/* a: the bytes that an entry takes on a page with a prefix of that length. Refused by 2, 3, and by 8 where the key is
 * shorter than the prefix. */
dorgumanna_answer dorgumanna_need(uint8_t width, size_t prefix_len, const uint8_t *key, size_t key_len);

/* Before a page is begun. a: the common prefix length of two fences, b: the effective space that the page begins
 * with. Refused by 3. */
dorgumanna_answer dorgumanna_forecast(const uint8_t *lower, size_t lower_len, const uint8_t *upper, size_t upper_len);

/* The layout verdict. a: 1 where the layout is right, else 0. Refused by 1, 2. */
dorgumanna_answer dorgumanna_layout(const uint8_t *page, size_t page_len, uint8_t width);

/* The fit verdict. a: 0 where the page is fit, else the first rule broken, 1 to 9. Refused by 1, 2. */
dorgumanna_answer dorgumanna_fit(const uint8_t *page, size_t page_len, uint8_t width);

/* Edits. After an edit that is done the page is fit. */

/* Makes of any 16,384 bytes a page without entries between two fences, the lower one included, the upper one excluded;
 * an empty upper fence bounds nothing. Writes the numbers of the header, prefix and fences; hints and all other bytes
 * stay as they were. Refused by 1, 3, 6, and by 13 where prefix and fences exceed the body. */
dorgumanna_answer dorgumanna_begin(uint8_t *page, size_t page_len, uint16_t height, uint64_t timestamp,
                                   const uint8_t *lower, size_t lower_len, uint64_t lower_value, const uint8_t *upper,
                                   size_t upper_len, bool hints);

/* Files a key with its value. a: its slot; later slots move up by one, and hints in use are refreshed.
 * Refused by 1, 2, 3, 5, 7, 8, 9, 11, 13. */
dorgumanna_answer dorgumanna_insert(uint8_t *page, size_t page_len, uint8_t width, const uint8_t *key, size_t key_len,
                                    uint64_t value);

/* Replaces the value of a key, where it is the expected one, and writes nothing else. a: the old value.
 * Refused by 1, 2, 3, 5, 7 (for either value), 8, 17, 18. */
dorgumanna_answer dorgumanna_set_value(uint8_t *page, size_t page_len, uint8_t width, const uint8_t *key,
                                       size_t key_len, uint64_t expected, uint64_t new_value);

/* Gives a slot another key between those of its neighbours, or the same one again; the value stays, and hints in use
 * are refreshed. Refused by 1, 2, 3, 5, 8, 9, 10, 12, 13. */
dorgumanna_answer dorgumanna_change_key(uint8_t *page, size_t page_len, uint8_t width, size_t slot, const uint8_t *key,
                                        size_t key_len);

/* Appends n entries of the source, from the slot first on, to the page; hints in use are refreshed. The source, a page
 * of the same width, is only read. n = 0 with first up to the source's count is done and changes nothing. Refused by 1,
 * 2, 5 (the page before the source), 10, then entry by entry 8, 9, then 12 (the first entry against the page's last
 * one), 13. */
dorgumanna_answer dorgumanna_copy_run(uint8_t *page, size_t page_len, const uint8_t *source, size_t source_len,
                                      uint8_t width, size_t first, size_t n);

/* Files all records of a buffer as insert does, one after the other, or none of them. A record is a u32 key length, the
 * key and a u64 value, little-endian. a: the number of records. A refusal is that of the first record that insert
 * refuses; then a is the record's place, from 0, and b what the refusal carries. Before all of these: 255 where the
 * records end inside one. No records at all are refused by 1, 2, 5. */
dorgumanna_answer dorgumanna_file_batch(uint8_t *page, size_t page_len, uint8_t width, const uint8_t *records,
                                        size_t records_len);

#ifdef __cplusplus
}
#endif

#endif
