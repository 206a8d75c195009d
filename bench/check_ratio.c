/* How long the check of a block takes, beside a plain pass that adds up its words and key bytes; and how long a station total takes, beside the check that it
 * begins with.
 *
 *   check_ratio [TAGS]
 *   check_ratio TAGS SHAPE CALL
 *
 * Fills a directory with so many tags (4,096 where none is said) and prints the times and their ratios: for tags of a plant's shape with the capacities that
 * suffice for any tags, most of whose records stay free, and with those of the rule of thumb in examples/README.md; for the deepest trees; and for tags with 62
 * bytes in common, which a station total has the longest to compare. Totals are asked for of one station and of no bytes, which counts all tags. What is
 * compared is timed in turn, in short runs, of which the lowest times count: what else the machine does only adds to them.
 *
 * The second form times nothing: it fills the directory of one shape (any, thumb, deep or long) and makes one call (check, station, all, or none), for
 * bench/instructions.sh, which counts what the call takes. */
#include <inttypes.h>
#include <math.h>
#include <stdbool.h>
#include <stdint.h>
#include <stdio.h>
#include <stdlib.h>
#include <string.h>
#include <time.h>

#include "directory.h"

enum { RUNS = 40, MOST_TAGS = 4096, PASSES_BY_TAGS = 20000, SHAPES = 4, SHARED = 62 };

typedef struct {
    const char *name, *what;
    size_t (*write_tag)(uint8_t *, uint32_t);
    size_t station_length; /* so many bytes of a tag name its station */
    uint32_t capacities[5];
} shape;

static uint32_t *words;
static uint8_t *keys, *scratch;
static size_t word_count, key_count, scratch_count;
/* What a station total is asked of. */
static uint8_t beginning[64];
static size_t beginning_length;
/* Where sums go, so that no compiler leaves a pass out. */
static volatile uint64_t sink;

#define BLOCK words, word_count, keys, key_count
#define SCRATCH scratch, scratch_count

static double now(void) {
    struct timespec t;
    clock_gettime(CLOCK_MONOTONIC, &t);
    return 1e6 * t.tv_sec + t.tv_nsec / 1e3;
}

static void start(const uint32_t c[5]) {
    word_count = 19 * c[0] + 43 * c[1] + 315 * c[2] + 267 * c[3] + 6 * c[4] + 16;
    key_count = 64 * c[4];
    scratch_count = c[0] + c[1] + c[2] + c[3] + c[4];
    words = malloc(word_count * sizeof words[0]), keys = malloc(key_count), scratch = malloc(scratch_count);
    if (!words || !keys || !scratch || directory_start(BLOCK, c[0], c[1], c[2], c[3], c[4]) != 0) exit(2);
}

static size_t plant_tag(uint8_t tag[64], uint32_t i) {
    return snprintf((char *)tag, 64, "L%02" PRIu32 "/P%" PRIu32 "/FLOW%02" PRIu32, i / 64, i / 8 % 8, i % 8);
}

/* Tags of 64 bytes that part one after another at each byte but the first, so that the tree is as deep as it can be. */
static size_t deep_tag(uint8_t tag[64], uint32_t i) {
    memset(tag, 'A', 64);
    tag[0] = i / 63;
    tag[1 + i % 63] = 'B';
    return 64;
}

/* Tags of 64 bytes that part at the last two alone, below few records, so that there is the least to check and the most to compare with a station's name. */
static size_t long_tag(uint8_t tag[64], uint32_t i) {
    memset(tag, 'A', SHARED);
    tag[SHARED] = i / 256;
    tag[SHARED + 1] = i % 256;
    return SHARED + 2;
}

/* Totals of about 2^63, so that every second step of a sum carries. */
static void fill(uint32_t tags, size_t (*write_tag)(uint8_t *, uint32_t)) {
    for (uint32_t i = 0; i < tags; i++) {
        uint8_t tag[64];
        size_t length = write_tag(tag, i);
        uint32_t number = directory_insert(BLOCK, SCRATCH, tag, length, UINT64_MAX / 2 + i).number;
        if (number == 0) continue;
        fprintf(stderr, "insert of tag %" PRIu32 " gives %" PRIu32 "\n", i, number);
        exit(1);
    }
}

static void nothing(void) {}
static void check(void) { sink += directory_check(BLOCK, SCRATCH); }
static directory_station station_total(void) { return directory_station_total(BLOCK, SCRATCH, beginning, beginning_length); }
static void station(void) { sink += station_total().low; }

static void plain_pass(void) {
    uint64_t total = 0;
    for (size_t i = 0; i < word_count; i++) total += words[i];
    for (size_t i = 0; i < key_count; i++) total += keys[i];
    sink += total;
}

/* Through a pointer that the compiler cannot see past, so that it does not add up once for all passes. */
static double time_passes(void (*volatile pass)(void), uint32_t passes) {
    double from = now();
    for (uint32_t i = 0; i < passes; i++) pass();
    return (now() - from) / passes;
}

static double lower(double a, double b) { return a < b ? a : b; }

/* The station of the tag in the middle, or no bytes. */
static void ask_for(const shape *of, uint32_t tags, size_t length) {
    of->write_tag(beginning, tags / 2);
    beginning_length = length;
}

static void time_station(const shape *of, uint32_t tags, size_t length) {
    uint32_t passes = PASSES_BY_TAGS / tags;
    double checked = INFINITY, totalled = INFINITY;
    ask_for(of, tags, length);
    for (int run = 0; run < RUNS; run++) {
        checked = lower(checked, time_passes(check, passes));
        totalled = lower(totalled, time_passes(station, passes));
    }
    printf("%" PRIu32 " tags, %s: check %.1f us, station total of %" PRIu32 " tags %.1f us, ratio %.2f\n", tags, of->what, checked, station_total().count, totalled,
        totalled / checked);
}

static void time_check(const shape *of, uint32_t tags) {
    uint32_t passes = PASSES_BY_TAGS / tags;
    double checked = INFINITY, plain = INFINITY;
    for (int run = 0; run < RUNS; run++) {
        checked = lower(checked, time_passes(check, passes));
        plain = lower(plain, time_passes(plain_pass, passes));
    }
    printf("%" PRIu32 " tags, %s, %zu words, %zu key bytes: check %.1f us, plain pass %.1f us, ratio %.1f\n", tags, of->what, word_count, key_count, checked, plain,
        checked / plain);
}

static void measure(const shape *of, uint32_t tags) {
    start(of->capacities);
    fill(tags, of->write_tag);
    time_check(of, tags);
    time_station(of, tags, of->station_length);
    time_station(of, tags, 0);
    free(words), free(keys), free(scratch);
}

/* One call and no other after the tags are in: two runs that differ in the call alone differ by what it takes. */
static int make_one(const shape *of, uint32_t tags, const char *call) {
    static const struct {
        const char *name;
        void (*make)(void);
        bool of_all;
    } calls[] = {{"none", nothing, false}, {"check", check, false}, {"station", station, false}, {"all", station, true}};
    for (size_t i = 0; i < sizeof calls / sizeof calls[0]; i++) {
        if (strcmp(call, calls[i].name) != 0) continue;
        start(of->capacities);
        fill(tags, of->write_tag);
        ask_for(of, tags, calls[i].of_all ? 0 : of->station_length);
        calls[i].make();
        return 0;
    }
    return 2;
}

int main(int argc, char **argv) {
    uint32_t n = argc > 1 ? strtoul(argv[1], NULL, 10) : MOST_TAGS;
    if (n == 0 || n > MOST_TAGS) return 2;
    const shape shapes[SHAPES] = {
        {"any", "room for any tags", plant_tag, 4, {n, n / 4, n / 16, n / 48, n}},
        {"thumb", "room by rule of thumb", plant_tag, 4, {n / 4 + 4, n / 6 + 4, n / 64 + 1, 1, n}},
        {"deep", "deep tags", deep_tag, 1, {n, 0, 0, 1, n}},
        {"long", "long tags", long_tag, SHARED, {2, 2, 0, n / 256 + 2, n}},
    };
    for (int i = 0; i < SHAPES; i++) {
        if (argc > 3 && strcmp(argv[2], shapes[i].name) == 0) return make_one(&shapes[i], n, argv[3]);
        if (argc < 3) measure(&shapes[i], n);
    }
    return argc < 3 ? 0 : 2;
}
