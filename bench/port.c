/* The port behind the command language of README.md, as blart/src/bin/driver is the crate behind it. One answer line for each command line.
 *
 *   port < commands > answers */
#include <ctype.h>
#include <inttypes.h>
#include <stdbool.h>
#include <stdint.h>
#include <stdio.h>
#include <stdlib.h>
#include <string.h>

#include "directory.h"

enum { MOST_TAGS = 4096, MOST_LINE = 4096, MOST_WORDS = 6, TAG_BYTES = 64, STORED = 8 };

/* The layout of a block, as docs/BLOCK.md has it. */
enum { LENGTH = 2, PREFIX = 3, BODY = 11, TRAILER = 16, BEFORE_CAPACITIES = 5, ROOT = 11, COUNT = 14, LEAF = 5, SLOTS = 256 };
static const uint32_t record_words[] = {0, 19, 43, 315, 267, 6};
static const uint32_t places[] = {0, 4, 16, 256, 256};

/* How much of an inner record a drawing tells. */
typedef enum { DRAWING, KINDS, SLOT_NUMBERS } detail;

typedef struct {
    uint8_t bytes[MOST_LINE];
    size_t length;
} text;

/* A command's words; those that the line lacks are empty. */
typedef struct {
    char *word[MOST_WORDS];
} command;

static uint32_t *words;
static uint8_t *keys, *scratch;
static size_t word_count, key_count, scratch_count;

#define BLOCK words, word_count, keys, key_count
#define SCRATCH scratch, scratch_count

static uint32_t trailer(uint32_t i) { return words[word_count - TRAILER + i]; }

static uint32_t *record(uint32_t reference) {
    uint32_t kind = reference % 8, number = reference / 8;
    return words + (word_count - TRAILER - trailer(kind)) + record_words[kind] * number;
}

/* Memory of just this size, so that a tool that watches memory sees a step past its end. */
static void *lend(void *old, size_t size) {
    free(old);
    void *memory = malloc(size);
    if (memory == NULL && size > 0) exit(2);
    return memory;
}

/* A directory with these capacities. */
static uint32_t start(const uint32_t room[LEAF]) {
    word_count = TRAILER;
    scratch_count = 0;
    for (uint32_t kind = 1; kind <= LEAF; kind++) {
        word_count += record_words[kind] * room[kind - 1];
        scratch_count += room[kind - 1];
    }
    key_count = TAG_BYTES * room[LEAF - 1];
    words = lend(words, word_count * sizeof words[0]);
    keys = lend(keys, key_count);
    scratch = lend(scratch, scratch_count);
    return directory_start(BLOCK, room[0], room[1], room[2], room[3], room[4]);
}

/* A directory with room for n tags. They have at most (n - 1) / (m - 1) branchings with m children or more, so no insert lacks a record of the kind that the
 * crate would take, and no delete one to shrink into. */
static uint32_t start_roomy(uint32_t tags) {
    const uint32_t room[LEAF] = {tags, tags / 4, tags / 16, tags / 48, tags};
    return start(room);
}

static void say_bytes(const uint8_t *bytes, size_t length) {
    if (length == 0) putchar('-');
    for (size_t i = 0; i < length; i++) printf("%02x", bytes[i]);
}

/* Words that hold a byte each. */
static void say_words(const uint32_t *from, size_t length) {
    uint8_t bytes[STORED];
    for (size_t i = 0; i < length; i++) bytes[i] = (uint8_t)from[i];
    say_bytes(bytes, length);
}

static void say_leaf(uint32_t leaf, char between) {
    directory_part tag = directory_leaf_tag(BLOCK, leaf);
    say_bytes(keys + tag.start, tag.length);
    printf("%c%" PRIu64, between, directory_leaf_facts(BLOCK, leaf).total);
}

static void say_found(directory_found found) {
    printf("%" PRIu32, found.number);
    if (found.number == 0) {
        putchar(' ');
        say_leaf(found.leaf, ' ');
    }
}

/* Place i of an inner record: the reference to its child, 0 for none, with the child's byte and in kind 3 its slot. */
static uint32_t child(const uint32_t *inner, uint32_t i, uint32_t *byte, uint32_t *slot) {
    const uint32_t *body = inner + BODY;
    *byte = inner[0] <= 2 ? body[i] : i;
    *slot = inner[0] == 3 ? body[i] : 0;
    if (inner[0] <= 2) return body[places[inner[0]] + i];
    if (inner[0] == 3) return *slot == 0 ? 0 : body[SLOTS + *slot - 1];
    return body[i];
}

static void draw(uint32_t reference, detail told);

static void draw_children(const uint32_t *inner, detail told) {
    uint32_t byte, slot;
    for (uint32_t i = 0; i < places[inner[0]]; i++) {
        uint32_t below = child(inner, i, &byte, &slot);
        if (below == 0) continue;
        printf(" %02" PRIx32, byte);
        /* the crate numbers slots from 0, the port from 1 */
        if (told == SLOT_NUMBERS && slot > 0) printf("@%" PRIu32, slot - 1);
        putchar(':');
        draw(below, told);
    }
}

static void draw(uint32_t reference, detail told) {
    if (reference % 8 == LEAF) {
        say_leaf(reference / 8, '=');
        return;
    }
    const uint32_t *inner = record(reference);
    putchar('[');
    if (told != DRAWING) printf("k%" PRIu32 " n%" PRIu32 " ", inner[0], inner[1]);
    printf("%" PRIu32 " ", inner[LENGTH]);
    say_words(inner + PREFIX, inner[LENGTH] < STORED ? inner[LENGTH] : STORED);
    draw_children(inner, told);
    putchar(']');
}

/* A drawing follows references, so a damaged block is not drawn. */
static bool draw_root(detail told) {
    uint32_t number = directory_check(BLOCK, SCRATCH);
    if (number != 0) printf("%" PRIu32, number);
    else if (trailer(ROOT) == 0) fputs("nothing", stdout);
    else draw(trailer(ROOT), told);
    return true;
}

/* The bytes that a word gives: '-' is none, 'text the text itself, anything else hexadecimal. */
static bool read_bytes(const char *word, text *out) {
    out->length = 0;
    if (strcmp(word, "-") == 0) return true;
    if (word[0] == '\'') {
        out->length = strlen(word + 1);
        memcpy(out->bytes, word + 1, out->length);
        return true;
    }
    for (; word[0] != 0; word += 2) {
        unsigned byte;
        if (!isxdigit((unsigned char)word[0]) || !isxdigit((unsigned char)word[1]) || sscanf(word, "%2x", &byte) != 1) return false;
        out->bytes[out->length++] = (uint8_t)byte;
    }
    return out->length > 0;
}

static bool read_number(const char *word, uint64_t *out) {
    char *end;
    *out = strtoull(word, &end, 10);
    return isdigit((unsigned char)word[0]) && *end == 0;
}

static bool insert(const command *line) {
    text tag;
    uint64_t total;
    if (!read_bytes(line->word[1], &tag) || !read_number(line->word[2], &total)) return false;
    uint32_t before = trailer(COUNT);
    directory_changed changed = directory_insert(BLOCK, SCRATCH, tag.bytes, tag.length, total);
    printf("%" PRIu32, changed.number);
    if (changed.number == 0) printf(" %" PRIu64 " %s", changed.total, trailer(COUNT) == before ? "over" : "new");
    return true;
}

static bool delete(const command *line) {
    text tag;
    if (!read_bytes(line->word[1], &tag)) return false;
    directory_changed changed = directory_delete(BLOCK, SCRATCH, tag.bytes, tag.length);
    printf("%" PRIu32, changed.number);
    if (changed.number == 0) printf(" %" PRIu64, changed.total);
    return true;
}

static bool search(const command *line) {
    text tag;
    if (!read_bytes(line->word[1], &tag)) return false;
    say_found(directory_search(BLOCK, tag.bytes, tag.length));
    return true;
}

static bool prefix_search(const command *line) {
    text bytes;
    if (!read_bytes(line->word[1], &bytes)) return false;
    say_found(directory_prefix_search(BLOCK, bytes.bytes, bytes.length));
    return true;
}

static bool minimum(const command *line) {
    (void)line;
    say_found(directory_minimum(BLOCK));
    return true;
}

static bool maximum(const command *line) {
    (void)line;
    say_found(directory_maximum(BLOCK));
    return true;
}

static bool at_or_after(const command *line) {
    text bytes;
    if (!read_bytes(line->word[1], &bytes)) return false;
    say_found(directory_first_at_or_after(BLOCK, SCRATCH, bytes.bytes, bytes.length));
    return true;
}

static bool station_total(const command *line) {
    text bytes;
    if (!read_bytes(line->word[1], &bytes)) return false;
    directory_station sum = directory_station_total(BLOCK, SCRATCH, bytes.bytes, bytes.length);
    printf("%" PRIu32, sum.number);
    if (sum.number == 0) printf(" %" PRIu32 " %" PRIu64 " %" PRIu64, sum.count, sum.low, sum.carries);
    return true;
}

static bool next(const command *line) {
    text tag;
    if (!read_bytes(line->word[1], &tag)) return false;
    directory_found held = directory_search(BLOCK, tag.bytes, tag.length);
    if (held.number == 1) putchar('9');
    else say_found(held.number == 0 ? directory_next_leaf(BLOCK, held.leaf) : held);
    return true;
}

/* Two passes, because the number of tags stands first, and it is to be the number along the leaf list. A list that is a ring ends at the most tags. */
static bool list(const command *line) {
    (void)line;
    uint32_t length = 0;
    directory_found first = directory_minimum(BLOCK);
    for (directory_found at = first; at.number == 0 && length < MOST_TAGS; at = directory_next_leaf(BLOCK, at.leaf)) length++;
    printf("%" PRIu32, length);
    for (directory_found at = first; length > 0; at = directory_next_leaf(BLOCK, at.leaf), length--) {
        putchar(' ');
        say_leaf(at.leaf, '=');
    }
    return true;
}

static bool count(const command *line) {
    (void)line;
    printf("%" PRIu32, trailer(COUNT));
    return true;
}

static uint32_t in_use(uint32_t kind) {
    uint32_t used = 0;
    for (uint32_t i = 0; i < trailer(BEFORE_CAPACITIES + kind); i++) used += record(8 * i + kind)[0] != 0;
    return used;
}

static bool check(const command *line) {
    (void)line;
    uint32_t number = directory_check(BLOCK, SCRATCH);
    printf("%" PRIu32, number);
    if (number == 0) printf(" leaves %" PRIu32 " inner %" PRIu32, in_use(LEAF), in_use(1) + in_use(2) + in_use(3) + in_use(4));
    return true;
}

static bool drawing(const command *line) {
    (void)line;
    return draw_root(DRAWING);
}

static bool kinds(const command *line) {
    (void)line;
    return draw_root(KINDS);
}

static bool slots(const command *line) {
    (void)line;
    return draw_root(SLOT_NUMBERS);
}

/* A fresh directory: with five numbers of these capacities, with one roomy for so many tags, with none as large as before. */
static bool reset(const command *line) {
    uint32_t room[LEAF], given = 0;
    for (uint64_t number; given < LEAF && line->word[given + 1][0] != 0; given++) {
        if (!read_number(line->word[given + 1], &number) || number > MOST_TAGS) return false;
        room[given] = (uint32_t)number;
    }
    if (given != 0 && given != 1 && given != LEAF) return false;
    for (uint32_t kind = 1; given == 0 && kind <= LEAF; kind++) room[kind - 1] = trailer(BEFORE_CAPACITIES + kind);
    printf("%" PRIu32, given == 1 ? start_roomy(room[0]) : start(room));
    return true;
}

static uint32_t *root_inner(void) {
    uint32_t root = trailer(ROOT);
    return root == 0 || root % 8 == LEAF ? NULL : record(root);
}

/* The prefix of the root overwritten, to see what a damaged block answers. */
static bool prefix(const command *line) {
    text bytes;
    uint64_t length;
    uint32_t *inner = root_inner();
    if (inner == NULL || !read_bytes(line->word[1], &bytes) || !read_number(line->word[2], &length)) return false;
    inner[LENGTH] = (uint32_t)length;
    for (uint32_t i = 0; i < STORED; i++) inner[PREFIX + i] = i < bytes.length ? bytes.bytes[i] : 0;
    printf("length %" PRIu64 " stored ", length);
    say_words(inner + PREFIX, length < STORED ? length : STORED);
    fputs(" array ", stdout);
    say_words(inner + PREFIX, STORED);
    return true;
}

/* The whole array of key bytes of a record of kind 1 at the root. */
static bool key_array(const command *line) {
    (void)line;
    const uint32_t *inner = root_inner();
    if (inner == NULL || inner[0] != 1) return false;
    printf("children %" PRIu32 " array ", inner[1]);
    say_words(inner + BODY, places[1]);
    return true;
}

/* The tag count overwritten, to see what the check says. */
static bool miscount(const command *line) {
    uint64_t number;
    if (!read_number(line->word[1], &number)) return false;
    words[word_count - TRAILER + COUNT] = (uint32_t)number;
    printf("%" PRIu64, number);
    return true;
}

static const struct {
    const char *name;
    bool (*answer)(const command *);
} commands[] = {
    {"i", insert}, {"d", delete}, {"s", search}, {"p", prefix_search}, {"min", minimum}, {"max", maximum}, {"ge", at_or_after},
    {"station", station_total}, {"next", next}, {"list", list}, {"count", count}, {"check", check}, {"draw", drawing}, {"kinds", kinds}, {"slots", slots},
    /* the crate's side draws the sorted list here, so equal answers say that the tree is the one that its tags define */
    {"canon", drawing},
    {"reset", reset}, {"prefix", prefix}, {"keys", key_array}, {"miscount", miscount},
};

static void answer(const command *line) {
    bool known = false;
    for (size_t i = 0; i < sizeof commands / sizeof commands[0]; i++)
        if (strcmp(line->word[0], commands[i].name) == 0) known = commands[i].answer(line);
    puts(known ? "" : "? no such command");
}

int main(void) {
    static char line[MOST_LINE], empty[] = "";
    /* a line at a time, so that an answer is not lost if a later call stops the program */
    setvbuf(stdout, NULL, _IOLBF, BUFSIZ);
    if (start_roomy(MOST_TAGS) != 0) return 2;
    while (fgets(line, sizeof line, stdin) != NULL) {
        command split = {{empty, empty, empty, empty, empty, empty}};
        line[strcspn(line, "#\n")] = 0;
        char *word = strtok(line, " ");
        for (int i = 0; i < MOST_WORDS && word != NULL; i++, word = strtok(NULL, " ")) split.word[i] = word;
        if (split.word[0][0] != 0) answer(&split);
    }
    return 0;
}
