/* How much stack the five calls that check take: on the deepest tree that there can be, with 64 inner records on a path, and on 256 one-byte tags. Of inserts and
 * deletes it is the most while all tags are put in one after another, and taken out.
 *
 *   cc -O2 -std=c11 -Iinclude bench/stack.c target/staticlib/libdirectory_c.a -pthread -o target/stack && LD_BIND_NOW=1 target/stack
 *
 * Each call runs on a stack of its own that is painted before; what is no longer painted after it was used. A call that does nothing is measured too and taken
 * off. With LD_BIND_NOW=1 the lookup of memcpy at its first call is not in the figures. */
#define _GNU_SOURCE /* pthread_attr_setstack */
#include <pthread.h>
#include <stdint.h>
#include <stdio.h>
#include <stdlib.h>
#include <string.h>

#include "directory.h"

enum { ROOM = 1 << 20, PAINT = 0xa5, DEEP = 65, WIDE = 256, MOST = 256 };

typedef enum { NOTHING, CHECK, AT_OR_AFTER, STATION_TOTAL, INSERT, DELETE } call;

static uint32_t words[200000];
static uint8_t keys[64 * (MOST + 1)], scratch[2000];
static uint32_t capacity[5];
static uint8_t tag[64];
static size_t tag_length;
static call now;
static uint32_t number;

static size_t word_count(void) {
    return 19u * capacity[0] + 43u * capacity[1] + 315u * capacity[2] + 267u * capacity[3] + 6u * capacity[4] + 16;
}

#define BLOCK words, word_count(), keys, 64u * capacity[4]
#define SCRATCH scratch, sizeof scratch

static void *run(void *unused) {
    (void)unused;
    switch (now) {
    case CHECK: number = directory_check(BLOCK, SCRATCH); break;
    case AT_OR_AFTER: number = directory_first_at_or_after(BLOCK, SCRATCH, tag, tag_length).number; break;
    case STATION_TOTAL: number = directory_station_total(BLOCK, SCRATCH, tag, tag_length).number; break;
    case INSERT: number = directory_insert(BLOCK, SCRATCH, tag, tag_length, 1).number; break;
    case DELETE: number = directory_delete(BLOCK, SCRATCH, tag, tag_length).number; break;
    default: number = 0;
    }
    return NULL;
}

/* The bytes of a painted stack that a call used. */
static size_t used(call c) {
    uint8_t *stack = aligned_alloc(4096, ROOM);
    pthread_attr_t attributes;
    pthread_t thread;
    size_t clean = 0;
    now = c;
    memset(stack, PAINT, ROOM);
    if (pthread_attr_init(&attributes) || pthread_attr_setstack(&attributes, stack, ROOM) || pthread_create(&thread, &attributes, run, NULL)) exit(2);
    pthread_join(thread, NULL);
    while (clean < ROOM && stack[clean] == PAINT) clean++;
    free(stack);
    return ROOM - clean;
}

/* Tag i of the deep tree: i times A, then B; the last is 64 times A. Of the wide one: a byte. */
static void choose(int deep, int i) {
    memset(tag, 'A', sizeof tag);
    tag_length = deep ? (size_t)(i < 64 ? i + 1 : 64) : 1;
    if (!deep) tag[0] = (uint8_t)i;
    else if (i < 64) tag[i] = 'B';
}

/* The most that a call uses on one tag after another, past what a call that does nothing uses. */
static size_t most(call c, int deep, int from, int to) {
    size_t none = used(NOTHING), bytes = 0;
    for (int i = from; i < to; i++) {
        choose(deep, i);
        size_t here = used(c) - none;
        if (number != 0) exit(1);
        if (bytes < here) bytes = here;
    }
    return bytes;
}

int main(void) {
    for (int deep = 1; deep >= 0; deep--) {
        int tags = deep ? DEEP : WIDE;
        uint32_t roomy[5] = {deep ? 64 : 1, 1, 1, 1, (uint32_t)tags};
        memcpy(capacity, roomy, sizeof capacity);
        if (directory_start(BLOCK, capacity[0], capacity[1], capacity[2], capacity[3], capacity[4]) != 0) return 1;
        printf("%s\n", deep ? "65 tags, 64 inner records on a path" : "256 one-byte tags");
        printf("  insert of new tags      %6zu bytes\n", most(INSERT, deep, 0, tags));
        printf("  check                   %6zu bytes\n", most(CHECK, deep, 0, 1));
        printf("  first at or after       %6zu bytes\n", most(AT_OR_AFTER, deep, tags - 1, tags));
        printf("  station total           %6zu bytes\n", most(STATION_TOTAL, deep, tags - 1, tags));
        printf("  insert over held tags   %6zu bytes\n", most(INSERT, deep, 0, tags));
        printf("  delete                  %6zu bytes\n", most(DELETE, deep, 0, tags));
    }
    return 0;
}
