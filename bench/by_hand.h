/* Search by hand, to be timed beside the port's (by_hand.c). */
#ifndef BY_HAND_H
#define BY_HAND_H

#include "directory.h"

directory_found by_hand_search(const uint32_t *words, size_t word_count, const uint8_t *keys, size_t key_count, const uint8_t *tag, size_t tag_length);

#endif
