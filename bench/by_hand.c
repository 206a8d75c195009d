/* Search written by hand in C, with every test that the port's search makes before it trusts a word: the frame, each reference, each record's own rule. It shows
 * what these tests cost where nothing else is done, and is no part of the library: nothing is proved of it. speed.c sees that it answers as the port does on
 * the tags that it times. */
#include "by_hand.h"

#include <stdbool.h>
#include <string.h>

enum { TRAILER = 16, LEAF = 5, TAG = 64, STORED = 8, HEAD = 11, PATH = 64 };

static const uint32_t record_words[] = {0, 19, 43, 315, 267, 6}, most_children[] = {0, 4, 16, 48, 256};

static bool frame_fits(const uint32_t *words, size_t word_count, size_t key_count) {
    if (word_count < TRAILER) return false;
    const uint32_t *t = words + word_count - TRAILER;
    uint64_t back = 0;
    bool ok = t[0] == 1;
    for (int pool = LEAF; pool >= 1; pool--) {
        back += (uint64_t)t[5 + pool] * record_words[pool];
        ok &= (t[5 + pool] <= 4096) & (t[pool] == back);
    }
    return ok & (t[15] == back + TRAILER) & (word_count == t[15]) & (key_count == (uint64_t)TAG * t[10]);
}

static bool sorted_fits(const uint32_t *body, uint32_t places, uint32_t children) {
    bool ok = true;
    for (uint32_t i = 0; i < children; i++) ok &= (body[i] <= 255) & (i == 0 || body[i - 1] < body[i]) & (body[places + i] != 0);
    for (uint32_t i = children; i < places; i++) ok &= (body[i] | body[places + i]) == 0;
    return ok;
}

static bool slots_fit(const uint32_t *body, uint32_t children) {
    uint8_t named[49] = {0};
    uint32_t filled = 0;
    for (int i = 0; i < 256; i++) {
        if (body[i] > 48 || (body[i] != 0 && named[body[i]]++)) return false;
    }
    for (int place = 1; place <= 48; place++) {
        if (named[place] != (body[255 + place] != 0)) return false;
        filled += named[place];
    }
    return filled == children;
}

static bool table_fits(const uint32_t *body, uint32_t children) {
    uint32_t filled = 0;
    for (int i = 0; i < 256; i++) filled += body[i] != 0;
    return filled == children;
}

static bool inner_fits(const uint32_t *rec, uint32_t kind) {
    uint32_t children = rec[1], full = rec[2], stored = full < STORED ? full : STORED;
    if ((rec[0] != kind) | (children < 2) | (children > most_children[kind]) | (full > TAG)) return false;
    bool ok = true;
    for (uint32_t i = 0; i < STORED; i++) ok &= rec[3 + i] <= (i < stored ? 255u : 0u);
    if (kind == 4) return ok & table_fits(rec + HEAD, children);
    if (kind == 3) return ok & slots_fit(rec + HEAD, children);
    return ok & sorted_fits(rec + HEAD, most_children[kind], children);
}

static bool leaf_fits(const uint32_t *rec, const uint8_t *key) {
    if ((rec[0] != 1) | (rec[1] > TAG)) return false;
    uint8_t any = 0;
    for (uint32_t i = rec[1]; i < TAG; i++) any |= key[i];
    return any == 0;
}

static uint32_t child_for(const uint32_t *rec, uint32_t kind, uint8_t byte) {
    const uint32_t *body = rec + HEAD;
    if (kind == 4) return body[byte];
    if (kind == 3) return body[byte] == 0 ? 0 : body[255 + body[byte]];
    for (uint32_t i = 0; i < rec[1]; i++) {
        if (body[i] == byte) return body[most_children[kind] + i];
    }
    return 0;
}

static directory_found answer_at(const uint32_t *rec, const uint8_t *key, uint32_t leaf, const uint8_t *tag, size_t tag_length, size_t from) {
    if (rec[1] != tag_length || memcmp(key + from, tag + from, tag_length - from) != 0) return (directory_found){1, 0, 0};
    return (directory_found){0, leaf, rec[4] | (uint64_t)rec[5] << 32};
}

directory_found by_hand_search(const uint32_t *words, size_t word_count, const uint8_t *keys, size_t key_count, const uint8_t *tag, size_t tag_length) {
    const directory_found missing = {1, 0, 0}, damaged = {6, 0, 0};
    if (!frame_fits(words, word_count, key_count)) return damaged;
    const uint32_t *trailer = words + word_count - TRAILER;
    uint32_t reference = trailer[11];
    size_t depth = 0;
    bool skipped = false;
    if (reference == 0) return missing;
    for (int left = PATH;; left--) {
        uint32_t kind = reference % 8, number = reference / 8;
        if (kind < 1 || kind > LEAF || number >= trailer[5 + kind]) return damaged;
        const uint32_t *rec = trailer - trailer[kind] + (size_t)number * record_words[kind];
        const uint8_t *key = keys + (size_t)TAG * number;
        if (kind == LEAF) return leaf_fits(rec, key) ? answer_at(rec, key, number, tag, tag_length, skipped ? 0 : depth) : damaged;
        if (!inner_fits(rec, kind) || left == 0) return damaged;
        uint32_t full = rec[2], stored = full < STORED ? full : STORED;
        if (tag_length - depth <= full) return missing;
        for (uint32_t i = 0; !skipped && i < stored; i++) {
            if (rec[3 + i] != tag[depth + i]) return missing;
        }
        skipped |= full > STORED;
        depth += full;
        reference = child_for(rec, kind, tag[depth++]);
        if (reference == 0) return missing;
    }
}
