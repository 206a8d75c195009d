/* How long the port's calls take. bench/blart/src/bin/speed.rs does the same with the crate: the same tags, the same order, the same number of calls.
 *
 *   speed
 *
 * Prints `tags N SUM` for each number of tags, by whose sums one sees that both sides had the same tags, and `NAME N NANOSECONDS` for each call, the
 * nanoseconds per call as the lowest of some runs, since what else the machine does only adds to them. */
#include <inttypes.h>
#include <stdint.h>
#include <stdio.h>
#include <stdlib.h>
#include <string.h>
#include <time.h>

#include "by_hand.h"
#include "directory.h"

/* So many calls in each run, and of the check so many by the number of tags. Runs are short, so that some fall where the machine does nothing else; inserts and
 * deletes are fewer, because each of the port's checks the whole directory. */
enum { RUNS = 2, READS = 40000, CHECKS = 10000, CHANGES = 4096, MOST_TAGS = 4096 };

typedef struct {
    uint8_t bytes[64];
    size_t length;
} name;

static name names[MOST_TAGS], longer[MOST_TAGS];
static uint32_t tags;
static uint32_t *words;
static uint8_t *keys, *scratch;
static size_t word_count, key_count, scratch_count;
/* Where totals go, so that no compiler leaves a call out. */
static volatile uint64_t sink;

#define BLOCK words, word_count, keys, key_count
#define SCRATCH scratch, scratch_count

static double now(void) {
    struct timespec t;
    clock_gettime(CLOCK_MONOTONIC, &t);
    return 1e9 * t.tv_sec + t.tv_nsec;
}

static uint64_t random64(uint64_t *state) {
    uint64_t z = *state += 0x9e3779b97f4a7c15u;
    z = (z ^ z >> 30) * 0xbf58476d1ce4e5b9u;
    z = (z ^ z >> 27) * 0x94d049bb133111ebu;
    return z ^ z >> 31;
}

/* Tag i: four shapes in turn, each of one length, so that no tag begins another. */
static void write_name(name *to, uint32_t i) {
    static const char *const shapes[] = {"L%02u/P%u/FLOW%02u", "SHAFT%02u/SUMP%u/PUMP%02u/TOTAL", "FQ-%02u%u%02u", "DEWATERING/LEVEL%02u/BORE%u%02u/FLOW"};
    uint32_t k = i / 4;
    to->length = snprintf((char *)to->bytes, sizeof to->bytes, shapes[i % 4], k / 32, k / 8 % 4, k % 8);
}

/* Shuffled, because a plant's tags are asked for in no order. */
static void write_names(void) {
    uint64_t state = 1, sum = 0xcbf29ce484222325u;
    for (uint32_t i = 0; i < tags; i++) write_name(&names[i], i);
    for (uint32_t i = tags - 1; i > 0; i--) {
        uint32_t j = random64(&state) % (i + 1);
        name kept = names[i];
        names[i] = names[j], names[j] = kept;
    }
    for (uint32_t i = 0; i < tags; i++) {
        longer[i] = names[i];
        memcpy(longer[i].bytes + longer[i].length, "/RAW", 4);
        longer[i].length += 4;
        for (size_t b = 0; b < names[i].length; b++) sum = (sum ^ names[i].bytes[b]) * 0x100000001b3u;
    }
    printf("tags %" PRIu32 " %016" PRIx64 "\n", tags, sum);
}

/* Room for any tags of this number, so that every insert takes the record of the kind that the crate would. */
static void start(void) {
    const uint32_t room[] = {tags, tags / 4, tags / 16, tags / 48, tags};
    word_count = 19 * room[0] + 43 * room[1] + 315 * room[2] + 267 * room[3] + 6 * room[4] + 16;
    key_count = 64 * room[4];
    scratch_count = room[0] + room[1] + room[2] + room[3] + room[4];
    words = calloc(word_count, sizeof words[0]), keys = calloc(key_count, 1), scratch = calloc(scratch_count, 1);
    if (!words || !keys || !scratch || directory_start(BLOCK, room[0], room[1], room[2], room[3], room[4]) != 0) exit(2);
}

/* A call that does not give 0 would be timed for something else than it is there for. */
static void expect(uint32_t number) {
    if (number == 0) return;
    fprintf(stderr, "a call gives %" PRIu32 "\n", number);
    exit(1);
}

static void fill(void) {
    for (uint32_t i = 0; i < tags; i++) expect(directory_insert(BLOCK, SCRATCH, names[i].bytes, names[i].length, i).number);
}

static void empty(void) {
    for (uint32_t i = 0; i < tags; i++) expect(directory_delete(BLOCK, SCRATCH, names[i].bytes, names[i].length).number);
}

static void search(void) {
    for (uint32_t i = 0; i < tags; i++) sink += directory_search(BLOCK, names[i].bytes, names[i].length).total;
}

static void by_hand(void) {
    for (uint32_t i = 0; i < tags; i++) sink += by_hand_search(BLOCK, names[i].bytes, names[i].length).total;
}

/* The search by hand says what the port says of each tag, and of each with bytes behind it, which is not held. */
static void see_same(const name *all) {
    for (uint32_t i = 0; i < tags; i++) {
        directory_found a = directory_search(BLOCK, all[i].bytes, all[i].length), b = by_hand_search(BLOCK, all[i].bytes, all[i].length);
        if (a.number == b.number && a.leaf == b.leaf && a.total == b.total) continue;
        fprintf(stderr, "the search by hand has another answer\n");
        exit(1);
    }
}

static void prefix_search(void) {
    for (uint32_t i = 0; i < tags; i++) sink += directory_prefix_search(BLOCK, longer[i].bytes, longer[i].length).total;
}

static void minimum(void) {
    for (uint32_t i = 0; i < tags; i++) sink += directory_minimum(BLOCK).total;
}

/* The totals all along the leaf list; the first leaf is looked up, and the other steps are next leaf. */
static void next_leaf(void) {
    for (directory_found at = directory_minimum(BLOCK); at.number == 0; at = directory_next_leaf(BLOCK, at.leaf)) sink += at.total;
}

static void check(void) { expect(directory_check(BLOCK, SCRATCH)); }

static void say(const char *what, double nanoseconds) { printf("%s %" PRIu32 " %.1f\n", what, tags, nanoseconds); }

/* A pass makes `calls` calls; as many passes as make `wanted` of them. */
static void time_passes(const char *what, void (*pass)(void), uint32_t calls, uint32_t wanted) {
    double lowest = 0;
    for (int run = 0; run < RUNS; run++) {
        uint32_t passes = (wanted + calls - 1) / calls;
        double from = now();
        for (uint32_t i = 0; i < passes; i++) pass();
        double took = (now() - from) / ((double)passes * calls);
        if (run == 0 || took < lowest) lowest = took;
    }
    say(what, lowest);
}

/* From empty to all tags and back, over and over; the directory is empty before and after. */
static void time_changes(void) {
    double inserts = 0, deletes = 0;
    for (int run = 0; run < RUNS; run++) {
        uint32_t passes = (CHANGES + tags - 1) / tags;
        double filling = 0, emptying = 0;
        for (uint32_t i = 0; i < passes; i++) {
            double from = now();
            fill();
            double full = now();
            empty();
            filling += full - from, emptying += now() - full;
        }
        if (run == 0 || filling < inserts) inserts = filling;
        if (run == 0 || emptying < deletes) deletes = emptying;
    }
    double calls = (double)((CHANGES + tags - 1) / tags) * tags;
    say("insert", inserts / calls), say("delete", deletes / calls);
}

int main(void) {
    static const uint32_t sizes[] = {10, 100, 1000, MOST_TAGS};
    for (int i = 0; i < 4; i++) {
        tags = sizes[i];
        write_names();
        start();
        time_changes();
        fill();
        see_same(names), see_same(longer);
        time_passes("search", search, tags, READS);
        time_passes("search_by_hand", by_hand, tags, READS);
        time_passes("prefix_search", prefix_search, tags, READS);
        time_passes("minimum", minimum, tags, READS);
        time_passes("next_leaf", next_leaf, tags, READS);
        time_passes("check", check, 1, CHECKS / tags);
        free(words), free(keys), free(scratch);
    }
    return 0;
}
