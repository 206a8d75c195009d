/* A first program with the directory: the flow totals of a small plant's pumps, in memory that this program lends, added up by station.
 *
 *   plant
 *
 * examples/README.md says how to build it and how much memory to lend. */
#include <inttypes.h>
#include <stdint.h>
#include <stdio.h>
#include <stdlib.h>
#include <string.h>

#include "directory.h"

/* Everything that is lent. The capacities are for records of up to 4, 16, 48 and 256 children, and for tags. */
typedef struct {
    uint32_t capacity[5];
    uint32_t *words;
    uint8_t *keys, *scratch;
    size_t word_count, key_count, scratch_count;
} plant;

/* The slices of a plant as the calls take them. */
#define BLOCK(p) (p)->words, (p)->word_count, (p)->keys, (p)->key_count
#define SCRATCH(p) (p)->scratch, (p)->scratch_count

/* A number given back, in words. 0 is said by each call in its own way. */
static const char *meaning(uint32_t number) {
    static const char *const meanings[] = {
        "done",
        "no such tag is held",
        "refused, the tag is over 64 bytes long",
        "refused, the tag begins a held tag, or a held tag begins it",
        "refused, there is room for no more tags",
        "refused, no record is free for a branching",
        "the memory is damaged",
        "scratch is too short",
        "the memory is not of the size that the capacities need",
        "no leaf in use has this number",
    };
    return number < sizeof meanings / sizeof meanings[0] ? meanings[number] : "a number that this program does not know";
}

/* Capacities that always suffice for so many tags. n tags have at most n - 1 branchings, and at most (n - 1) / (m - 1) of those have m children or more, so
 * with these no insert of the first n tags is refused for want of a record, and each branching has a record of the smallest kind that holds it. */
static void capacities_for(uint32_t tags, uint32_t capacity[5]) {
    capacity[0] = tags;
    capacity[1] = tags / 4;
    capacity[2] = tags / 16;
    capacity[3] = tags / 48;
    capacity[4] = tags;
}

/* How many words, key bytes and scratch bytes go with the capacities: exactly so many words and key bytes, at least so much scratch. */
static void measure(plant *p) {
    const uint32_t *c = p->capacity;
    p->word_count = 19 * (size_t)c[0] + 43 * (size_t)c[1] + 315 * (size_t)c[2] + 267 * (size_t)c[3] + 6 * (size_t)c[4] + 16;
    p->key_count = 64 * (size_t)c[4];
    p->scratch_count = (size_t)c[0] + c[1] + c[2] + c[3] + c[4];
}

static uint32_t start(plant *p, uint32_t tags) {
    capacities_for(tags, p->capacity);
    measure(p);
    p->words = malloc(p->word_count * sizeof p->words[0]);
    p->keys = malloc(p->key_count);
    p->scratch = malloc(p->scratch_count);
    if (p->words == NULL || p->keys == NULL || p->scratch == NULL) {
        fputs("There is no memory to lend.\n", stderr);
        exit(2);
    }
    printf("Lent for %" PRIu32 " tags: %zu words, %zu key bytes, %zu scratch bytes.\n", tags, p->word_count, p->key_count, p->scratch_count);
    return directory_start(BLOCK(p), p->capacity[0], p->capacity[1], p->capacity[2], p->capacity[3], p->capacity[4]);
}

static void insert(plant *p, const char *tag, uint64_t total) {
    directory_changed a = directory_insert(BLOCK(p), SCRATCH(p), (const uint8_t *)tag, strlen(tag), total);
    printf("insert %s with %" PRIu64 ": %s\n", tag, total, meaning(a.number));
}

/* A held tag is inserted again: the answer has the total that it had. */
static void set(plant *p, const char *tag, uint64_t total) {
    directory_changed a = directory_insert(BLOCK(p), SCRATCH(p), (const uint8_t *)tag, strlen(tag), total);
    printf("set %s to %" PRIu64 ": ", tag, total);
    if (a.number == 0) printf("done, its total was %" PRIu64 "\n", a.total);
    else puts(meaning(a.number));
}

static void scrap(plant *p, const char *tag) {
    directory_changed a = directory_delete(BLOCK(p), SCRATCH(p), (const uint8_t *)tag, strlen(tag));
    printf("scrap %s: ", tag);
    if (a.number == 0) printf("done, its total was %" PRIu64 "\n", a.total);
    else puts(meaning(a.number));
}

static void search(const plant *p, const char *tag) {
    directory_found a = directory_search(BLOCK(p), (const uint8_t *)tag, strlen(tag));
    printf("search %s: ", tag);
    if (a.number == 0) printf("its total is %" PRIu64 "\n", a.total);
    else puts(meaning(a.number));
}

/* The pumps of a station and what they have pumped, exactly: carries times 2^64, and low. */
static void station(plant *p, const char *name) {
    directory_station a = directory_station_total(BLOCK(p), SCRATCH(p), (const uint8_t *)name, strlen(name));
    printf("station %s: ", name);
    if (a.number == 0) printf("%" PRIu32 " pumps, total flow %" PRIu64 ", carries %" PRIu64 "\n", a.count, a.low, a.carries);
    else puts(meaning(a.number));
}

/* What is put in. For the ninth pump there is no room; the last tag begins held tags. */
static const struct {
    const char *tag;
    uint64_t total;
} rows[] = {
    {"L14/P2/FLOW", 97310}, {"L14/P1/FLOW", 184205}, {"L15/P1/FLOW", 203511}, {"L15/P2/FLOW", 199402}, {"L16/P1/FLOW", 8630},
    {"L17/P2/FLOW", 40213}, {"L17/P1/FLOW", 51877},  {"L14/P3/FLOW", 66120},  {"L16/P2/FLOW", 1204},   {"L14/P1", 1},
};

int main(void) {
    plant p;
    uint32_t number = start(&p, 8);
    printf("start: %s\n", meaning(number));
    for (size_t i = 0; i < sizeof rows / sizeof rows[0]; i++) insert(&p, rows[i].tag, rows[i].total);
    search(&p, "L14/P2/FLOW");
    search(&p, "L14/P9/FLOW");
    set(&p, "L14/P2/FLOW", 97355);
    scrap(&p, "L16/P1/FLOW");
    scrap(&p, "L16/P1/FLOW");
    number = directory_check(BLOCK(&p), SCRATCH(&p));
    printf("check: %s\n", number == 0 ? "the directory is sound" : meaning(number));
    station(&p, "L14/");
    station(&p, "L15/");
    station(&p, "L16/");
    station(&p, "L17/");
    free(p.words), free(p.keys), free(p.scratch);
    return number == 0 ? 0 : 1;
}
