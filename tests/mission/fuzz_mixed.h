/* Calls among partners of both issues, in the fuzz run. */
#ifndef FUZZ_MIXED_H
#define FUZZ_MIXED_H

#include "fuzz.h"

enum { BLOCKS = 6, MOST_OURS = 40, MOST_OUT = 28 + 8 * MOST_OURS + 2 };

/* What was met, in among_met, above the kinds of Issue 3 and, from SIX on, those of Issue 6; KNOWN to KNOWN + 2 are what is known of a
 * service. */
enum { SIX = 16, NO_BLOCK = 32, FULL, NO_RESPONSE, NO_REPLIES, SENT_3, SENT_6, KNOWN };

/* All that one call is handed, but for the table's length and its sections; and what it leaves. */
typedef struct {
    uint8_t own;
    nyr_stamp stamp;
    nyr_partners partners;
    nyr_platform platform;
    uint64_t ours[MOST_OURS], services[BLOCKS * NYR_SERVICES_WORDS];
    size_t ours_words, services_words, length, room;
} Handed;

typedef struct {
    uint32_t number;
    nyr_platform platform;
    uint64_t services[BLOCKS * NYR_SERVICES_WORDS];
    nyr_any_heard heard;
    uint8_t out[MOST_OUT];
} Left;

/* Where a platform's block starts; the first of these words that bears the ID or is free, their number where none does. */
size_t block_of(const nyr_partners *set_up, uint64_t platform);
size_t service_at(const uint64_t *block, size_t words, uint32_t id);

/* What the call must leave, of the message that stands in `message`, by these sections. */
Left *expected(const Handed *h, size_t bytes, const uint8_t *table, const nyr_sections *sections);

#endif
