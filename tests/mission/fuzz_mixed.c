/* Messages of both issues heard by a platform: what a call must come to, by the calls that know one issue, read, look up and write. */
#include "fuzz_mixed.h"

#include <string.h>

uint64_t among_met;

static int is_up(const Handed *h, uint64_t k)
{
    return k == h->own || (k < 256 && (h->platform.up[k / 64] >> k % 64 & 1));
}

size_t block_of(const nyr_partners *set_up, uint64_t platform)
{
    size_t before = 0;
    for (uint64_t k = 0; k < platform; k++)
        before += (size_t)speaks_3(set_up, k);
    return NYR_SERVICES_WORDS * before;
}

size_t service_at(const uint64_t *block, size_t words, uint32_t id)
{
    size_t k = 0;
    while (k < words && block[k] >> 32 != 0 && (uint32_t)block[k] != id)
        k++;
    return k;
}

/* A message of ours behind what is there already; its length is counted, and it is written where all fit. */
static void reply(const Handed *h, Left *left, uint32_t id, uint32_t sequence, const uint32_t *fields, size_t count)
{
    uint8_t payload[8 * MOST_OURS + 4];
    size_t written = 0;
    for (size_t i = 0; i < count; i++)
        put32(payload + 4 * i, fields[i]);
    expect(nyr_write_3(h->own, h->stamp.seconds, h->stamp.nanoseconds, NYR_PLATFORM_DOMAIN, id, sequence, payload,
                       4 * count, left->out + left->heard.replies, MOST_OUT - left->heard.replies, &written) == 0,
           "a reply that cannot be");
    left->heard.replies += written;
}

static void tell_services(const Handed *h, Left *left, uint32_t asked, uint32_t sequence)
{
    uint32_t fields[2 * MOST_OURS + 1] = {1, asked, 0};
    size_t all = asked == NYR_ALL_SERVICES ? h->ours_words : 0;
    for (size_t k = 0; k < h->ours_words; k++)
        if (all > 0) {
            fields[2 * k + 1] = (uint32_t)h->ours[k];
            fields[2 * k + 2] = h->ours[k] >> 32 == NYR_AVAILABLE;
        } else if ((uint32_t)h->ours[k] == asked)
            fields[2] = h->ours[k] >> 32 == NYR_AVAILABLE;
    if (asked == NYR_ALL_SERVICES)
        fields[0] = (uint32_t)all;
    reply(h, left, NYR_SERVICES_3, sequence, fields, asked == NYR_ALL_SERVICES ? 2 * all + 1 : 3);
}

/* A status noted: DOWN to UP with three messages, UP to DOWN in its block. */
static void turn(const Handed *h, Left *left, const nyr_any_message *read)
{
    const uint32_t up[] = {1, h->stamp.composite}, all = NYR_ALL_DATA;
    size_t at = block_of(&h->partners, read->sender);
    uint32_t next = (uint32_t)h->platform.next;
    if (is_up(h, read->sender) == (int)read->value)
        return;
    left->platform.up[read->sender / 64] ^= N(read->sender % 64);
    if (read->value == 1) {
        reply(h, left, NYR_STATUS_3, next, up, 2);
        reply(h, left, NYR_SERVICES_REQUEST_3, next + 1, &all, 1);
        reply(h, left, NYR_PULL_3, next + 2, &all, 1);
        left->platform.next = next + 3;
    } else if (h->services_words < at + NYR_SERVICES_WORDS)
        left->number = NYR_NO_ROOM;
    else
        for (size_t k = at; k < at + NYR_SERVICES_WORDS && left->services[k] >> 32 != 0; k++)
            left->services[k] = NYR_SERVICE_WORD(left->services[k], NYR_UNAVAILABLE);
}

static void note(const Handed *h, Left *left, const nyr_any_message *read)
{
    size_t at = block_of(&h->partners, read->sender);
    left->heard.payload_start = read->payload_start;
    left->heard.payload_length = read->payload_length;
    if (h->services_words < at + NYR_SERVICES_WORDS) {
        left->number = NYR_NO_ROOM;
        return;
    }
    for (size_t i = 0; i < read->value; i++) {
        const uint8_t *pair = message + read->payload_start + 4 + 8 * i;
        size_t k = service_at(left->services + at, NYR_SERVICES_WORDS, (uint32_t)be(pair, 4));
        if (k == NYR_SERVICES_WORDS) {
            left->number = NYR_SERVICES_FULL;
            return;
        }
        left->services[at + k] = NYR_SERVICE_WORD(be(pair, 4), NYR_UNAVAILABLE + be(pair + 4, 4));
    }
}

/* An operation, or a response, which frees its request's place, or is 61. */
static void operate(const Handed *h, Left *left, const nyr_any_message *read, const nyr_operation *found)
{
    size_t k = place_of(&h->platform, (uint32_t)read->sequence);
    uint32_t id = (uint32_t)read->value;
    if (!found->found) {
        left->heard.kind = NYR_HEARD_NOT_IN_TABLE;
        reply(h, left, NYR_UNKNOWN_OPERATION_3, (uint32_t)read->sequence, &id, 1);
        return;
    }
    left->heard.kind = found->kind == NYR_REQUEST_SENT ? NYR_HEARD_RESPONSE : NYR_HEARD_OPERATION;
    left->heard.payload_start = read->payload_start;
    left->heard.payload_length = read->payload_length;
    if (found->kind != NYR_REQUEST_SENT)
        return;
    if (k < NYR_MOST_PENDING && (uint32_t)h->platform.pending[k] == id &&
        h->platform.pending[NYR_MOST_PENDING + k] == read->sender)
        left->platform = cleared(h->platform, k);
    else
        left->number = NYR_NOT_AWAITED;
}

static void pull(const Handed *h, Left *left, const nyr_any_message *read, const nyr_operation *found)
{
    uint32_t id = (uint32_t)read->value;
    left->heard.kind = NYR_HEARD_PULL_ONE;
    if (id == NYR_ALL_DATA) {
        left->heard.kind = NYR_HEARD_PULL_ALL;
        left->heard.value = 0;
    } else if (!found->found || found->kind != NYR_VERSIONED_DATA) {
        left->heard.kind = NYR_HEARD_PULL_NONE;
        reply(h, left, NYR_UNKNOWN_OPERATION_3, (uint32_t)read->sequence, &id, 1);
    }
}

/* What a message of Issue 3 that reads comes to. */
static void hear_3(const Handed *h, Left *left, const nyr_any_message *read, const nyr_operation *found)
{
    static const uint64_t kinds[] = {
        0, NYR_HEARD_STATUS, NYR_HEARD_REQUEST, NYR_HEARD_UNKNOWN, 0, 0, NYR_HEARD_SERVICES, NYR_HEARD_SERVICES_REQUEST,
        NYR_HEARD_NOT_AVAILABLE, NYR_HEARD_COMPOSITE_CHANGE, NYR_HEARD_COMPOSITE_ACK};
    const uint32_t up[] = {1, h->stamp.composite};
    left->heard.kind = kinds[read->kind];
    switch (read->kind) {
    case NYR_STATUS: turn(h, left, read); break;
    case NYR_REQUEST: reply(h, left, NYR_STATUS_3, (uint32_t)read->sequence, up, 2); break;
    case NYR_PULL: pull(h, left, read, found); break;
    case NYR_SERVICE_OPERATION: operate(h, left, read, found); break;
    case NYR_SERVICES: note(h, left, read); break;
    case NYR_SERVICES_REQUEST: tell_services(h, left, (uint32_t)read->value, (uint32_t)read->sequence); break;
    default: break;
    }
    if (left->number != 0)
        among_met |= N(left->number == NYR_NO_ROOM ? NO_BLOCK : left->number == NYR_SERVICES_FULL ? FULL : NO_RESPONSE);
    else if (left->heard.replies > h->room) {
        left->number = NYR_NO_ROOM;
        among_met |= N(NO_REPLIES);
    } else
        among_met |= N(left->heard.kind);
}

/* What Issue 6 alone comes to, which must be the same. */
static void hear_6(const Handed *h, Left *left, size_t bytes, const uint8_t *table, const nyr_sections *sections)
{
    nyr_heard heard;
    left->number = nyr_receive_in(h->own, &left->platform, table, bytes, sections, message, h->length, left->out,
                                  h->room, &heard);
    if (left->number != 0)
        return;
    memset(&left->heard, 0, sizeof left->heard);
    memcpy(&left->heard, &heard, sizeof heard);
    left->heard.issue = NYR_ISSUE_6;
    among_met |= N(SIX + heard.kind);
}

Left *expected(const Handed *h, size_t bytes, const uint8_t *table, const nyr_sections *sections)
{
    static Left left;
    nyr_any_message read;
    nyr_operation found;
    calls += 3;
    memset(&left.heard, 0, sizeof left.heard);
    left.platform = h->platform;
    copy(left.services, h->services, sizeof left.services);
    left.number = lie_in(sections, bytes) ? 0 : NYR_TABLE_LENGTH;
    if (left.number == 0)
        left.number = nyr_read_mixed(h->own, &h->partners, message, h->length, &read);
    if (left.number != 0)
        return &left;
    if (read.issue == NYR_ISSUE_6) {
        hear_6(h, &left, bytes, table, sections);
        return &left;
    }
    nyr_find(table, bytes, sections, (uint32_t)read.value, &found);
    left.heard.value = read.value;
    left.heard.sender = read.sender;
    left.heard.sequence = read.sequence;
    left.heard.issue = NYR_ISSUE_3;
    left.heard.seconds = read.seconds;
    left.heard.nanoseconds = read.nanoseconds;
    left.heard.composite = read.composite;
    hear_3(h, &left, &read, &found);
    return &left;
}
