/* Runs a list of calls through the library and prints each answer, one line a call, with the checksums of the words, the key bytes and the scratch bytes
 * that it left. Two implementations that print the same lines for the same list did the same to every byte.
 *
 *   replay < calls > answers
 *
 * A call a line; tags in hexadecimal, '-' for the empty tag; numbers in decimal:
 *   start FORM C1 C2 C3 C4 C5 WORDS KEYS SCRATCH   slices of these lengths, filled with rubbish, and a start
 *   again C1 C2 C3 C4 C5                           a start on the slices as they are
 *   insert TAG TOTAL, delete TAG, search TAG, prefix TAG, after TAG, station TAG, min, max, next LEAF, info LEAF, tag LEAF, check
 *   word I VALUE, key I VALUE                      one word or key byte overwritten
 *   words FRONT BACK, keys FRONT BACK              so many words or key bytes more at the front and at the back, all 0, or less where it is negative
 *   scratch LENGTH                                 another scratch slice
 *   save, back                                     words and key bytes kept, and brought back
 * FORM is the form of the layout, of which there is one, 1. Answers end in a 0 where other implementations may say more of a tag.
 *
 * Every slice stands between guard bytes; a call that touches one ends the run with status 3. A line that is none of these ends it with status 2. */
#include <inttypes.h>
#include <stdint.h>
#include <stdio.h>
#include <stdlib.h>
#include <string.h>

#include "directory.h"

enum { GUARD = 64, GUARD_BYTE = 0x5c, MOST_BYTES = 1 << 22, MOST_LINE = 1 << 18, MOST_TAG = MOST_LINE / 2, MOST_FIELDS = 10 };

typedef struct {
    uint8_t *room;
    size_t size;
} slice;

static slice words, keys, scratch, kept_words, kept_keys;

/* The line's fields, and what the second and the third are as numbers and the second as a tag; a call uses those that it has. */
static char *field[MOST_FIELDS];
static uint64_t first, second;
static uint8_t tag[MOST_TAG];
static size_t tag_length;

#define BLOCK (uint32_t *)at(words), words.size / 4, at(keys), keys.size
#define SCRATCH at(scratch), scratch.size
#define TAG tag, tag_length

static void refuse_line(void) {
    fprintf(stderr, "no such call, or not with these fields: %s\n", field[0]);
    exit(2);
}

static uint8_t *at(slice s) { return s.room + GUARD; }

/* A slice of this many bytes, all with the unit in them over and over. */
static void lend(slice *s, size_t size, const void *unit, size_t width) {
    if (size > MOST_BYTES) refuse_line();
    free(s->room);
    *s = (slice){malloc(size + 2 * GUARD), size};
    if (s->room == NULL) exit(2);
    memset(s->room, GUARD_BYTE, size + 2 * GUARD);
    for (size_t i = 0; i + width <= size; i += width) memcpy(at(*s) + i, unit, width);
}

static void look_at_guards(slice s) {
    for (size_t i = 0; i < GUARD; i++) {
        if (s.room[i] == GUARD_BYTE && s.room[GUARD + s.size + i] == GUARD_BYTE) continue;
        fputs("a byte outside the lent slices was changed\n", stderr);
        exit(3);
    }
}

/* The usual CRC-32, which other languages have ready. */
static uint32_t sum(slice s) {
    uint32_t c = 0xffffffffu;
    for (size_t i = 0; i < s.size; i++) {
        c ^= at(s)[i];
        for (int k = 0; k < 8; k++) c = (c >> 1) ^ (0xedb88320u & -(c & 1));
    }
    return ~c;
}

static void copy(slice *to, slice from) {
    lend(to, from.size, "", 1);
    memcpy(at(*to), at(from), from.size);
}

static void read_tag(const char *text) {
    unsigned byte;
    for (tag_length = 0; text[0] != '-' && text[2 * tag_length] != 0; tag_length++) {
        if (sscanf(text + 2 * tag_length, "%2x", &byte) != 1) refuse_line();
        tag[tag_length] = (uint8_t)byte;
    }
}

static void say_found(directory_found f) { printf(" %" PRIu32 " %" PRIu32 " %" PRIu64 " 0", f.number, f.leaf, f.total); }
static void say_changed(directory_changed c) { printf(" %" PRIu32 " %" PRIu64 " 0", c.number, c.total); }

static void start(void) {
    const uint32_t rubbish = 0xdeadbeef;
    uint64_t v[MOST_FIELDS - 1];
    for (int i = 0; i < MOST_FIELDS - 1; i++) v[i] = strtoull(field[i + 1], NULL, 10);
    if (v[0] != 1) refuse_line();
    lend(&words, 4 * v[6], &rubbish, 4), lend(&keys, v[7], "\xaa", 1), lend(&scratch, v[8], "\x55", 1);
    printf(" %" PRIu32, directory_start(BLOCK, v[1], v[2], v[3], v[4], v[5]));
}

static void start_again(void) {
    uint64_t v[5];
    for (int i = 0; i < 5; i++) v[i] = strtoull(field[i + 1], NULL, 10);
    printf(" %" PRIu32, directory_start(BLOCK, v[0], v[1], v[2], v[3], v[4]));
}

static void insert(void) { say_changed(directory_insert(BLOCK, SCRATCH, TAG, second)); }
static void delete(void) { say_changed(directory_delete(BLOCK, SCRATCH, TAG)); }
static void search(void) { say_found(directory_search(BLOCK, TAG)); }
static void prefix_search(void) { say_found(directory_prefix_search(BLOCK, TAG)); }
static void at_or_after(void) { say_found(directory_first_at_or_after(BLOCK, SCRATCH, TAG)); }
static void minimum(void) { say_found(directory_minimum(BLOCK)); }
static void maximum(void) { say_found(directory_maximum(BLOCK)); }
static void next_leaf(void) { say_found(directory_next_leaf(BLOCK, first)); }
static void check(void) { printf(" %" PRIu32, directory_check(BLOCK, SCRATCH)); }

/* It speaks of no tag, so no 0 stands at the end. */
static void station_total(void) {
    directory_station s = directory_station_total(BLOCK, SCRATCH, TAG);
    printf(" %" PRIu32 " %" PRIu32 " %" PRIu64 " %" PRIu64, s.number, s.count, s.low, s.carries);
}

static void leaf_facts(void) {
    directory_leaf l = directory_leaf_facts(BLOCK, first);
    printf(" %" PRIu32 " %" PRIu32 " %" PRIu64, l.number, l.length, l.total);
}

static void leaf_tag(void) {
    directory_part p = directory_leaf_tag(BLOCK, first);
    printf(p.length > 0 ? " %" PRIu32 " " : " %" PRIu32 " -", directory_leaf_facts(BLOCK, first).number);
    for (size_t i = 0; i < p.length; i++) printf("%02x", at(keys)[p.start + i]);
}

static void write_word(void) {
    if (first >= words.size / 4) refuse_line();
    ((uint32_t *)at(words))[first] = (uint32_t)second;
}

static void write_key(void) {
    if (first >= keys.size) refuse_line();
    at(keys)[first] = (uint8_t)second;
}

/* The slice with other ends, which the second and the third field say in units of this width; what is cut off must be there. */
static void reach(slice *s, int64_t width) {
    slice old = *s, new = {NULL, 0};
    int64_t front = (int64_t)first * width, size = (int64_t)old.size + front + (int64_t)second * width;
    if (size < 0 || front < -(int64_t)old.size) refuse_line();
    lend(&new, (size_t)size, "", 1);
    for (int64_t i = 0; i < size; i++) at(new)[i] = i >= front && i - front < (int64_t)old.size ? at(old)[i - front] : 0;
    free(old.room);
    *s = new;
}

static void reach_words(void) { reach(&words, 4); }
static void reach_keys(void) { reach(&keys, 1); }
static void lend_scratch(void) { lend(&scratch, first, "\x55", 1); }
static void save(void) { copy(&kept_words, words), copy(&kept_keys, keys); }
static void back(void) { copy(&words, kept_words), copy(&keys, kept_keys); }

typedef enum { NO_TAG, WITH_TAG } has_tag;

static const struct {
    const char *name;
    int fields;
    has_tag tagged;
    void (*run)(void);
} calls[] = {
    {"start", MOST_FIELDS, NO_TAG, start}, {"again", 6, NO_TAG, start_again}, {"insert", 3, WITH_TAG, insert}, {"delete", 2, WITH_TAG, delete},
    {"search", 2, WITH_TAG, search}, {"prefix", 2, WITH_TAG, prefix_search}, {"after", 2, WITH_TAG, at_or_after}, {"station", 2, WITH_TAG, station_total},
    {"min", 1, NO_TAG, minimum}, {"max", 1, NO_TAG, maximum}, {"next", 2, NO_TAG, next_leaf}, {"info", 2, NO_TAG, leaf_facts}, {"tag", 2, NO_TAG, leaf_tag},
    {"check", 1, NO_TAG, check},
    {"word", 3, NO_TAG, write_word}, {"key", 3, NO_TAG, write_key}, {"words", 3, NO_TAG, reach_words}, {"keys", 3, NO_TAG, reach_keys},
    {"scratch", 2, NO_TAG, lend_scratch}, {"save", 1, NO_TAG, save}, {"back", 1, NO_TAG, back},
};

static void run(int fields) {
    size_t i = 0, n = sizeof calls / sizeof calls[0];
    while (i < n && (strcmp(field[0], calls[i].name) != 0 || fields != calls[i].fields)) i++;
    if (i == n) refuse_line();
    first = fields > 1 ? strtoull(field[1], NULL, 10) : 0;
    second = fields > 2 ? strtoull(field[2], NULL, 10) : 0;
    if (calls[i].tagged == WITH_TAG) read_tag(field[1]);
    fputs(field[0], stdout);
    calls[i].run();
    look_at_guards(words), look_at_guards(keys), look_at_guards(scratch);
    printf(" %08" PRIx32 " %08" PRIx32 " %08" PRIx32 "\n", sum(words), sum(keys), sum(scratch));
}

int main(void) {
    static char line[MOST_LINE];
    /* slices before the first start, so that there is something to lend */
    lend(&words, 0, "", 1), lend(&keys, 0, "", 1), lend(&scratch, 0, "", 1), save();
    while (fgets(line, sizeof line, stdin) != NULL) {
        int fields = 0;
        for (char *word = strtok(line, " \n"); word != NULL && fields < MOST_FIELDS; word = strtok(NULL, " \n")) field[fields++] = word;
        if (fields > 0) run(fields);
    }
    return 0;
}
