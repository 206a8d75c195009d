/* Puts the thirteen calls to sound, damaged, cut and random memory, and sees that each keeps what include/directory.h says of it on any memory.
 *
 *   fuzz [CALLS [SEED [bare]]]
 *
 * The same seed makes the same calls. After each call: the number is one that the call may give, with any but 0 the other fields are 0, a refusal and a reading
 * call have changed no word and no key byte, scratch is 0 or as it was, and nothing outside the lent slices has changed. After each accepted insert or delete
 * the check gives 0 and a search sees the change. A call that checks first gives 6 exactly where the check does, and on a block that was only ever changed by
 * accepted calls no call gives 6, and a station total is what the tags along the leaf list add up to.
 *
 * Every slice stands between guard bytes. With `bare` it does not, but is an allocation of just its size, so that a tool that watches memory sees reads past
 * its end too. Prints how often each call gave each number; exit status 1 for the first call that breaks its word. */
#include <inttypes.h>
#include <stdbool.h>
#include <stdint.h>
#include <stdio.h>
#include <stdlib.h>
#include <string.h>

#include "directory.h"

enum { GUARD = 64, GUARD_BYTE = 0x5c, SCRATCH_BYTE = 0x55, MOST_TAG = 100, RECENT = 64, TRAILER = 16, KINDS = 5, NUMBERS = 10, MOST_RANDOM = 400 };

static const uint32_t record_words[KINDS] = {19, 43, 315, 267, 6};

typedef struct {
    uint8_t *room;
    size_t size;
} slice;

/* What a call gave: its number, and all other fields together, which are to be 0 unless the number is. */
typedef struct {
    uint32_t number;
    uint64_t rest;
} answer;

typedef enum { START, SEARCH, PREFIX_SEARCH, MINIMUM, MAXIMUM, NEXT_LEAF, LEAF_FACTS, LEAF_TAG, CHECK, AT_OR_AFTER, STATION_TOTAL, INSERT, DELETE, CALLS } call;

/* A set of numbers; one may stand in it twice. */
#define ONE_OF(a, b, c, d) (1u << (a) | 1u << (b) | 1u << (c) | 1u << (d))

static const struct {
    const char *name;
    uint32_t may_give;
    bool takes_scratch, changes;
} calls[CALLS] = {
    [START] = {"start", ONE_OF(0, 8, 8, 8), false, true},
    [SEARCH] = {"search", ONE_OF(0, 1, 6, 6), false, false},
    [PREFIX_SEARCH] = {"prefix_search", ONE_OF(0, 1, 6, 6), false, false},
    [MINIMUM] = {"minimum", ONE_OF(0, 1, 6, 6), false, false},
    [MAXIMUM] = {"maximum", ONE_OF(0, 1, 6, 6), false, false},
    [NEXT_LEAF] = {"next_leaf", ONE_OF(0, 1, 6, 9), false, false},
    [LEAF_FACTS] = {"leaf_facts", ONE_OF(0, 6, 9, 9), false, false},
    [LEAF_TAG] = {"leaf_tag", ONE_OF(0, 6, 9, 9), false, false},
    [CHECK] = {"check", ONE_OF(0, 6, 7, 7), true, false},
    [AT_OR_AFTER] = {"first_at_or_after", ONE_OF(0, 1, 6, 7), true, false},
    [STATION_TOTAL] = {"station_total", ONE_OF(0, 6, 7, 7), true, false},
    [INSERT] = {"insert", ONE_OF(0, 2, 3, 4) | ONE_OF(5, 6, 7, 7), true, true},
    [DELETE] = {"delete", ONE_OF(0, 1, 6, 7), true, true},
};

static uint64_t state, made, counts[CALLS][NUMBERS];
static size_t guard = GUARD;
static slice words, keys, scratch, tag, words_before, keys_before, scratch_before;
static uint32_t room[KINDS], leaf;
static uint64_t total;
/* The block was started and since then changed by accepted calls alone. */
static bool sound;

/* How the tags of a case are made: so many equal bytes first, then up to so many of a small alphabet. */
static struct {
    uint32_t shared, most, alphabet;
    bool of_one_length;
} style;
static uint8_t recent[RECENT][MOST_TAG];
static size_t recent_length[RECENT];

#define BLOCK (uint32_t *)at(words), words.size / 4, at(keys), keys.size
#define SCRATCH at(scratch), scratch.size
#define TAG at(tag), tag.size

static uint64_t random64(void) {
    uint64_t z = state += 0x9e3779b97f4a7c15u;
    z = (z ^ z >> 30) * 0xbf58476d1ce4e5b9u;
    z = (z ^ z >> 27) * 0x94d049bb133111ebu;
    return z ^ z >> 31;
}

static uint32_t below(uint32_t n) { return n == 0 ? 0 : random64() % n; }

static bool once_in(uint32_t n) { return below(n) == 0; }

static uint8_t *at(slice s) { return s.room + guard; }

static void broken(const char *what, call made_call, uint32_t number) {
    printf("call %" PRIu64 ", %s, gives %" PRIu32 ": %s\n", made, calls[made_call].name, number, what);
    exit(1);
}

static void lend(slice *s, size_t size) {
    free(s->room);
    s->size = size;
    s->room = malloc(size + 2 * guard);
    if (s->room == NULL) exit(2);
    memset(s->room, GUARD_BYTE, size + 2 * guard);
}

static void copy(slice *to, slice from) {
    lend(to, from.size);
    memcpy(at(*to), at(from), from.size);
}

static bool same(slice a, slice b) { return a.size == b.size && memcmp(at(a), at(b), a.size) == 0; }

static bool guarded(slice s) {
    for (size_t i = 0; i < guard; i++)
        if (s.room[i] != GUARD_BYTE || s.room[guard + s.size + i] != GUARD_BYTE) return false;
    return true;
}

static size_t words_for(const uint32_t c[KINDS]) {
    size_t n = TRAILER;
    for (int kind = 0; kind < KINDS; kind++) n += (size_t)record_words[kind] * c[kind];
    return n;
}

static size_t records(void) {
    size_t n = 0;
    for (int kind = 0; kind < KINDS; kind++) n += room[kind];
    return n;
}

/* A leaf that a sound block gives is in use and has the total that came with it. */
static answer of_found(call which, directory_found f) {
    if (sound && f.number == 0) {
        directory_leaf l = directory_leaf_facts(BLOCK, f.leaf);
        if (l.number != 0 || l.total != f.total) broken("the leaf's facts are others", which, f.number);
    }
    return (answer){f.number, f.leaf | f.total};
}

static bool begins_with_tag(directory_part held) { return tag.size <= held.length && memcmp(at(keys) + held.start, at(tag), tag.size) == 0; }

/* On a sound block, the same by next leaf. The sum of up to 2^12 totals has room in 128 bits. */
static answer of_station(directory_station s) {
    if (sound && s.number == 0) {
        unsigned __int128 sum = 0;
        uint32_t count = 0;
        for (directory_found f = directory_minimum(BLOCK); f.number == 0; f = directory_next_leaf(BLOCK, f.leaf))
            if (begins_with_tag(directory_leaf_tag(BLOCK, f.leaf))) sum += f.total, count++;
        if (s.count != count || s.low != (uint64_t)sum || s.carries != (uint64_t)(sum >> 64)) broken("the tags add up to another sum", STATION_TOTAL, s.number);
    }
    return (answer){s.number, s.count | s.low | s.carries};
}

static answer of_changed(directory_changed c) { return (answer){c.number, c.total}; }

static answer of_facts(directory_leaf l) {
    if (l.length > 64) broken("a tag of over 64 bytes", LEAF_FACTS, l.number);
    return (answer){l.number, l.length | l.total};
}

/* This call gives no number, so that of the facts stands for it; the part must lie in the key bytes and be as long as the facts say. */
static answer of_tag(directory_part p) {
    directory_leaf l = directory_leaf_facts(BLOCK, leaf);
    if (p.start > keys.size || p.length > keys.size - p.start) broken("a part outside the key bytes", LEAF_TAG, l.number);
    if (p.length != l.length || p.start != (l.length == 0 ? 0 : 64 * (uint64_t)leaf)) broken("another part than the facts say", LEAF_TAG, l.number);
    return (answer){l.number, p.start | p.length};
}

static answer put(call which) {
    switch (which) {
    case START: return (answer){directory_start(BLOCK, room[0], room[1], room[2], room[3], room[4]), 0};
    case SEARCH: return of_found(which, directory_search(BLOCK, TAG));
    case PREFIX_SEARCH: return of_found(which, directory_prefix_search(BLOCK, TAG));
    case MINIMUM: return of_found(which, directory_minimum(BLOCK));
    case MAXIMUM: return of_found(which, directory_maximum(BLOCK));
    case NEXT_LEAF: return of_found(which, directory_next_leaf(BLOCK, leaf));
    case LEAF_FACTS: return of_facts(directory_leaf_facts(BLOCK, leaf));
    case LEAF_TAG: return of_tag(directory_leaf_tag(BLOCK, leaf));
    case CHECK: return (answer){directory_check(BLOCK, SCRATCH), 0};
    case AT_OR_AFTER: return of_found(which, directory_first_at_or_after(BLOCK, SCRATCH, TAG));
    case STATION_TOTAL: return of_station(directory_station_total(BLOCK, SCRATCH, TAG));
    case INSERT: return of_changed(directory_insert(BLOCK, SCRATCH, TAG, total));
    default: return of_changed(directory_delete(BLOCK, SCRATCH, TAG));
    }
}

/* On a sound block with enough scratch just a byte for each record is 0; on any other the capacities are unknown, so any byte may be. */
static void look_at_scratch(call which, uint32_t number) {
    bool alone = !calls[which].takes_scratch || number == 7 || number == 2;
    for (size_t i = 0; i < scratch.size; i++) {
        uint8_t now = at(scratch)[i], before = at(scratch_before)[i];
        if (now != before && (alone || now != 0)) broken("scratch has changed", which, number);
        if (sound && !alone && now != (i < records() ? 0 : before)) broken("scratch is not as the header says", which, number);
    }
}

static void look_at_number(call which, answer given) {
    if (given.number >= NUMBERS || !(calls[which].may_give >> given.number & 1)) broken("no number for this call", which, given.number);
    if (given.number != 0 && given.rest != 0) broken("a refusal with a field that is not 0", which, given.number);
    if (sound && given.number == 6) broken("a sound block is said to be damaged", which, given.number);
    bool short_scratch = sound && calls[which].takes_scratch && scratch.size < records();
    if (sound && given.number != 2 && short_scratch != (given.number == 7)) broken("scratch was not short, or 7 was due", which, given.number);
}

static void look_at_memory(call which, uint32_t number) {
    if ((number != 0 || !calls[which].changes) && !(same(words, words_before) && same(keys, keys_before)))
        broken("words or key bytes have changed", which, number);
    if (!guarded(words) || !guarded(keys) || !guarded(scratch) || !guarded(tag)) broken("a byte outside the slices has changed", which, number);
}

static uint32_t make(call which);

/* The calls that check first give 6 exactly where the check does; 2 and 7 come before it. */
static void look_at_check(call which, uint32_t number) {
    if (!calls[which].takes_scratch || number == 2 || number == 7) return;
    if ((directory_check(BLOCK, SCRATCH) == 6) != (number == 6)) broken("the check says otherwise", which, number);
}

/* What was inserted is there, and what was deleted is not. */
static void look_at_change(call which) {
    directory_found now = directory_search(BLOCK, TAG);
    if (make(CHECK) != 0) broken("the check refuses the block after it", which, 0);
    if (which == INSERT ? now.number != 0 || now.total != total : now.number != 1) broken("a search does not see it", which, 0);
}

static uint32_t make(call which) {
    copy(&words_before, words), copy(&keys_before, keys), copy(&scratch_before, scratch);
    answer given = put(which);
    made++;
    look_at_number(which, given);
    look_at_memory(which, given.number);
    look_at_scratch(which, given.number);
    look_at_check(which, given.number);
    counts[which][given.number]++;
    if (which == START && given.number == 0) sound = true;
    if ((which == INSERT || which == DELETE) && given.number == 0) look_at_change(which);
    return given.number;
}

static void choose_style(void) {
    static const uint32_t shared[] = {0, 0, 3, 7, 8, 9, 20, 60}, most[] = {1, 2, 4, 12, 40}, alphabet[] = {2, 3, 10, 60, 256};
    style.shared = shared[below(8)];
    style.most = most[below(5)];
    style.alphabet = alphabet[below(5)];
    style.of_one_length = !once_in(3);
    memset(recent_length, 0, sizeof recent_length);
}

static void new_tag(uint8_t *bytes, size_t *length) {
    size_t n = style.shared + (style.of_one_length ? style.most : below(style.most + 1));
    if (once_in(50)) n = below(MOST_TAG + 1);
    for (size_t i = 0; i < n; i++) bytes[i] = i < style.shared ? 'A' : 'A' + below(style.alphabet);
    *length = n;
}

static void choose_tag(void) {
    uint32_t i = below(RECENT);
    if (recent_length[i] == 0 || once_in(2)) new_tag(recent[i], &recent_length[i]);
    lend(&tag, recent_length[i]);
    memcpy(at(tag), recent[i], tag.size);
}

/* The tag of some leaf, so that searches and deletes find something; at times with a byte more, which a prefix search passes over. */
static void choose_held_tag(void) {
    directory_part held = directory_leaf_tag(BLOCK, below(room[KINDS - 1]));
    lend(&tag, held.length + once_in(4));
    for (size_t i = 0; i < tag.size; i++) at(tag)[i] = i < held.length ? at(keys)[held.start + i] : 'A';
}

/* The front of the chosen tag, which others may have too. */
static void cut_tag(void) {
    slice whole = {NULL, 0};
    copy(&whole, tag);
    lend(&tag, below(whole.size + 1));
    memcpy(at(tag), at(whole), tag.size);
    free(whole.room);
}

static void choose_leaf(void) { leaf = once_in(20) ? (uint32_t)random64() : below(below(room[KINDS - 1] + 2)); }

/* Mostly a byte for each record, sometimes more, sometimes too few. */
static void choose_scratch(void) {
    size_t n = records();
    lend(&scratch, once_in(20) ? below(n + 1) : once_in(8) ? n + below(40) : n);
    memset(at(scratch), SCRATCH_BYTE, scratch.size);
}

static void choose_room(void) {
    static const uint32_t most[] = {0, 2, 5, 12, 40};
    for (int kind = 0; kind < KINDS; kind++) room[kind] = below(1 + most[below(5)]);
    if (once_in(2)) room[2] = room[3] = below(3);
    if (once_in(3)) room[KINDS - 1] += 30 + below(120);
}

/* A start with the capacities of the block, or with others, which mostly do not fit it. */
static void start_again(void) {
    uint32_t kept[KINDS];
    memcpy(kept, room, sizeof room);
    if (once_in(2)) room[below(KINDS)] = once_in(2) ? (uint32_t)random64() : below(5000);
    if (make(START) != 0) memcpy(room, kept, sizeof room);
}

static void any_call(void) {
    call which = 1 + below(CALLS - 1);
    once_in(2) ? choose_held_tag() : choose_tag();
    if (which == STATION_TOTAL && !once_in(3)) cut_tag();
    choose_leaf(), choose_scratch();
    total = random64();
    if (once_in(60)) start_again();
    else make(which);
}

static void fill(slice s, uint32_t how) {
    for (size_t i = 0; i < s.size; i++) at(s)[i] = how == 0 ? 0 : how == 1 ? random64() : i % 4 != 0 ? 0 : below(20);
}

static void start_sound(void) {
    choose_room();
    lend(&words, 4 * words_for(room)), lend(&keys, 64 * (size_t)room[KINDS - 1]);
    fill(words, 1), fill(keys, 1);
    choose_scratch(), lend(&tag, 0);
    if (make(START) != 0) broken("a start that fits is refused", START, 8);
}

/* Inserts and now and then a delete, so that a block of many records stands. */
static void grow(void) {
    for (uint32_t left = below(2 * room[KINDS - 1] + 2); left > 0; left--) {
        choose_tag(), choose_scratch();
        total = random64();
        make(once_in(6) ? DELETE : INSERT);
    }
}

static uint32_t odd_word(void) {
    switch (below(4)) {
    case 0: return (uint32_t)random64();
    case 1: return below(20);
    case 2: return 8 * below(40) + below(8);
    default: return ((uint32_t *)at(words))[below(words.size / 4)];
    }
}

static void flip_words(void) {
    uint32_t *word = (uint32_t *)at(words), n = words.size / 4;
    for (uint32_t left = 1 + below(4); left > 0; left--) {
        uint32_t i = once_in(4) ? n - 1 - below(TRAILER) : below(n);
        word[i] = once_in(3) ? word[i] ^ 1u << below(32) : odd_word();
    }
}

static void flip_keys(void) {
    for (uint32_t left = 1 + below(4); left > 0 && keys.size > 0; left--) at(keys)[below(keys.size)] = random64();
}

/* The trailer is kept, so that the frame holds and the calls go on to the records. */
static void rubble(void) {
    uint32_t *word = (uint32_t *)at(words), n = words.size / 4 - TRAILER;
    for (uint32_t i = 0; i < n; i++)
        if (once_in(2)) word[i] = odd_word();
}

/* Another slice with a part of the old one, which begins so many elements later or earlier, and ends anywhere. */
static void cut(slice *s, size_t width) {
    slice old = {NULL, 0};
    copy(&old, *s);
    size_t elements = old.size / width, shift = once_in(2) ? 0 : below(once_in(2) ? 4 : elements + 1);
    bool later = once_in(2);
    lend(s, width * (once_in(3) ? elements : once_in(2) ? elements + below(4) : below(elements + 1)));
    fill(*s, below(3));
    for (size_t i = 0; i < s->size; i++) {
        size_t from = later ? i + width * shift : i - width * shift;
        if (from < old.size) at(*s)[i] = at(old)[from];
    }
    free(old.room);
}

static void damage(void) {
    sound = false;
    switch (below(6)) {
    case 0: rubble(); break;
    case 1: flip_keys(); break;
    case 2: cut(&words, 4); break;
    case 3: cut(&keys, 1); break;
    default: flip_words();
    }
}

static void random_memory(void) {
    sound = false;
    choose_room();
    lend(&words, 4 * below(MOST_RANDOM)), lend(&keys, below(4 * MOST_RANDOM));
    fill(words, below(3)), fill(keys, below(3));
}

static void one_case(void) {
    choose_style();
    if (once_in(5)) random_memory();
    else start_sound(), grow();
    for (uint32_t left = below(80); left > 0; left--) any_call();
    if (!sound || once_in(3)) return;
    damage();
    for (uint32_t left = 20 + below(80); left > 0; left--) any_call();
}

static void say_counts(void) {
    for (int i = 0; i < CALLS; i++) {
        printf("%-18s", calls[i].name);
        for (int number = 0; number < NUMBERS; number++)
            if (counts[i][number] > 0) printf(" %d:%" PRIu64, number, counts[i][number]);
        putchar('\n');
    }
    printf("%" PRIu64 " calls, all as promised\n", made);
}

int main(int argc, char **argv) {
    uint64_t wanted = argc > 1 ? strtoull(argv[1], NULL, 10) : 1000000;
    state = argc > 2 ? strtoull(argv[2], NULL, 10) : 1;
    if (argc > 3 && strcmp(argv[3], "bare") == 0) guard = 0;
    while (made < wanted) one_case();
    say_counts();
    return 0;
}
