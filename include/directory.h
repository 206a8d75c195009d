/* directory.h: a directory of flow totals in memory that you lend.
 *
 * Every call ends and answers on any memory: lend what you have, and read the number.
 *
 *   0  done
 *   1  no such tag
 *   2  a tag to insert is over 64 bytes
 *   3  a tag to insert begins a held tag, or a held tag begins it: see TAGS
 *   4  no leaf free for it
 *   5  no record free for it
 *   6  the words or key bytes are damaged
 *   7  scratch is shorter than the five capacities added
 *   8  start: a capacity over 4,096 or a slice of the wrong length
 *   9  no leaf in use has this number
 *
 * With any number but 0 the other fields of an answer are 0, and no word and no key byte has
 * changed.
 *
 * MEMORY. Slices pass as a pointer and a count of elements. The words and the key bytes of one
 * directory, its block, belong together; for capacities c1 to c5 (records for up to 4, 16, 48 and
 * 256 children, and tags) they are
 *
 *   19 c1 + 43 c2 + 315 c3 + 267 c4 + 6 c5 + 16 words, and 64 c5 key bytes, exactly.
 *
 * The words, key bytes, scratch and tag of one call must not overlap, and each pointer must be
 * aligned and good for its count. To insert or delete a tag that directory_leaf_tag showed, copy
 * it out of the key bytes first.
 *
 * Check, first-at-or-after, station total, insert and delete look at the whole directory, and use
 * the stack for it: 5 KB and some 260 bytes for each level of the tree. That is 6 KB for 256
 * one-byte tags and 22 KB for the deepest tree that there can be (measured, not proved; where the
 * system looks up memcpy at its first call, that call takes some 1,400 bytes more).
 *
 * TAGS. A tag is any string of bytes, up to 64 of them. No held tag begins another: PUMP10 beside
 * PUMP1 is 3, whichever comes first. Where tags may begin each other, end every tag with one byte
 * that stands nowhere else in any of them: PUMP1/ and PUMP10/ go in together. A closing byte 0
 * leaves the tags in the order that they had without it. The closing byte is one of the 64.
 *
 * Prefix search goes from the longer bytes to the shorter tag: of PUMP10/FLOW it finds the held
 * tag PUMP10/, and of PUMP it finds neither. To list the tags that begin with PUMP, begin with
 * first-at-or-after PUMP, and go on by next leaf for as long as the tags begin with PUMP. To count
 * them and to add up their totals, station total takes one call.
 *
 * AT THE SAME TIME. The library takes no lock and keeps nothing between calls.
 *
 *   start, insert, delete   want the block alone: until they are back, no other call of any kind
 *                           on that block, from no core, thread or interrupt
 *   all other calls         only read the block: any number of them at once, on any cores, each
 *                           one that takes scratch with a scratch of its own
 *
 * Of a call whose memory something else writes meanwhile nothing is promised. Beside an insert or
 * a delete a search may miss a tag that is held throughout, and a listing may leave tags out. An
 * insert or a delete that is cut short, by a reset say, may leave a block that is neither as
 * before nor as after, and the check need not see it: a total is two words.
 *
 * LEAF NUMBERS. A leaf's number is good until the next start, insert or delete on its block. After
 * that it may be the number of another tag, and calls on it give 0 with that one's total: search
 * again.
 *
 * DAMAGE. With scratch enough the check gives 0 exactly for sound blocks. First-at-or-after,
 * station total, insert and delete check first, so their 0, 1, 3, 4 and 5 say that the block was
 * sound. On a sound block every answer of every call is right.
 *
 * Search, prefix search, minimum, maximum, next leaf and the two calls on a leaf test the slices'
 * lengths, the words of the trailer that never change and the records on their own way, and no
 * more. Their 6 is right: the block is not sound. But on a damaged block their 0, 1 and 9 may be
 * wrong: another leaf, another total, no such tag for one that is held. Where that matters, check
 * first.
 *
 * No call sees every changed bit, the check neither: there is no checksum. Any total is as good as
 * another, so a bit flipped in one passes; so does one in a tag or its length, where the tree is
 * right for the other tag too. Keep a checksum of your own of what you save.
 *
 * LISTINGS. Minimum, or first-at-or-after, and then next leaf give the tags in order. On a sound
 * block the c5-th next leaf, if not an earlier one, gives 1. The list of a damaged block may be a
 * ring, with 0 from every call: where the c5-th still gives 0, stop, and take it for damaged.
 */
#ifndef DIRECTORY_H
#define DIRECTORY_H

#include <stddef.h>
#include <stdint.h>

#ifdef __cplusplus
extern "C" {
#endif

/* What the call gives back, as above; then a leaf's number, which serves directory_next_leaf and
 * the two calls on a leaf until the next start, insert or delete; and its total. */
typedef struct {
    uint32_t number;
    uint32_t leaf;
    uint64_t total;
} directory_found;

/* The total that a tag had; 0 where an insert is of a new one. */
typedef struct {
    uint32_t number;
    uint64_t total;
} directory_changed;

/* The length of a leaf's tag, and its total. */
typedef struct {
    uint32_t number;
    uint32_t length;
    uint64_t total;
} directory_leaf;

/* How many tags begin with the bytes, and the sum of their totals: carries * 2^64 + low. */
typedef struct {
    uint32_t number;
    uint32_t count;
    uint64_t low;
    uint64_t carries;
} directory_station;

/* A leaf's tag as a part of the key bytes: keys[start] up to keys[start + length - 1]. Both are 0
 * for the empty tag and for a refusal, which directory_leaf_facts tells apart. */
typedef struct {
    uint64_t start;
    uint64_t length;
} directory_part;

/* Make the words and key bytes an empty directory with these capacities, each at most 4,096. 0, or
 * 8 with nothing changed. Wants the block alone. */
uint32_t directory_start(uint32_t *words, size_t word_count, uint8_t *keys, size_t key_count,
    uint32_t c1, uint32_t c2, uint32_t c3, uint32_t c4, uint32_t c5);

/* The leaf that holds the tag. 0, 1 or 6. */
directory_found directory_search(const uint32_t *words, size_t word_count, const uint8_t *keys,
    size_t key_count, const uint8_t *tag, size_t tag_length);

/* The leaf whose tag begins the given bytes, of which there is one at most; not those whose tags
 * begin with the bytes. 0, 1 or 6. */
directory_found directory_prefix_search(const uint32_t *words, size_t word_count,
    const uint8_t *keys, size_t key_count, const uint8_t *bytes, size_t byte_count);

/* The leaves with the lowest and the highest tag, in unsigned byte order. 0, 1 for an empty
 * directory, or 6. */
directory_found directory_minimum(const uint32_t *words, size_t word_count, const uint8_t *keys,
    size_t key_count);
directory_found directory_maximum(const uint32_t *words, size_t word_count, const uint8_t *keys,
    size_t key_count);

/* The leaf with the next higher tag. 0, 1 at the end, 6 or 9. */
directory_found directory_next_leaf(const uint32_t *words, size_t word_count, const uint8_t *keys,
    size_t key_count, uint32_t leaf);

/* A leaf's tag length and total. 0, 6 or 9. */
directory_leaf directory_leaf_facts(const uint32_t *words, size_t word_count, const uint8_t *keys,
    size_t key_count, uint32_t leaf);

/* Where a leaf's tag stands in the key bytes. */
directory_part directory_leaf_tag(const uint32_t *words, size_t word_count, const uint8_t *keys,
    size_t key_count, uint32_t leaf);

/* Whether the whole directory is sound: every record, every tag, the list of the leaves and the
 * tag count. Lend a byte of scratch for each record, that is c1 + c2 + c3 + c4 + c5. With 0, and
 * with 6 for anything but the slices' lengths and the words of the trailer that never change,
 * these are left 0, and any scratch beyond them is left alone. With such a 6, and with 7, all
 * scratch is left alone. */
uint32_t directory_check(const uint32_t *words, size_t word_count, const uint8_t *keys,
    size_t key_count, uint8_t *scratch, size_t scratch_count);

/* The leaf with the first tag that does not come before the given bytes, in unsigned byte order;
 * the bytes may be of any length. From there directory_next_leaf goes on. It checks the whole
 * directory first, and leaves scratch as directory_check does. 0, 1 where every tag comes before,
 * 6 or 7. */
directory_found directory_first_at_or_after(const uint32_t *words, size_t word_count,
    const uint8_t *keys, size_t key_count, uint8_t *scratch, size_t scratch_count,
    const uint8_t *bytes, size_t byte_count);

/* How many held tags begin with the given bytes, which may be of any length, and the exact sum of
 * their totals: carries times 2^64, and low. No such tag is 0, with a count and a sum of 0; no
 * bytes at all ask for the whole directory. It checks the whole directory first, and leaves
 * scratch as directory_check does. 0, 6 or 7. */
directory_station directory_station_total(const uint32_t *words, size_t word_count,
    const uint8_t *keys, size_t key_count, uint8_t *scratch, size_t scratch_count,
    const uint8_t *beginning, size_t beginning_count);

/* Hold a tag with this total; of a tag that is held already, change the total. It checks the whole
 * directory first, and leaves scratch as directory_check does; a tag over 64 bytes is refused
 * before that, with scratch left alone. 0, 2, 3, 4, 5, 6 or 7. Wants the block alone. */
directory_changed directory_insert(uint32_t *words, size_t word_count, uint8_t *keys,
    size_t key_count, uint8_t *scratch, size_t scratch_count, const uint8_t *tag,
    size_t tag_length, uint64_t total);

/* Hold a tag no more. It checks the whole directory first, and leaves scratch as directory_check
 * does. 0, 1, 6 or 7. Wants the block alone. */
directory_changed directory_delete(uint32_t *words, size_t word_count, uint8_t *keys,
    size_t key_count, uint8_t *scratch, size_t scratch_count, const uint8_t *tag,
    size_t tag_length);

#ifdef __cplusplus
}
#endif

#endif
