/* Requests sent, given up and looked up, on lists that are kept, full or forged. */
#include "fuzz.h"

#include <string.h>

nyr_platform platform;
Table platform_table;
static uint8_t payload[MOST_MESSAGE];

void renew_platform_table(void)
{
    if (one_in(20) || platform_table.length == 0)
        make_table(&platform_table);
}

static uint32_t number_at(const nyr_platform *state, size_t place)
{
    return (uint32_t)(state->pending[place] >> 32);
}

static size_t first_bearing(const nyr_platform *state, uint32_t number)
{
    size_t k = 0;
    while (k < NYR_MOST_PENDING && number_at(state, k) != number)
        k++;
    return k;
}

size_t place_of(const nyr_platform *state, uint32_t sequence)
{
    return sequence == 0 ? (size_t)NYR_MOST_PENDING : first_bearing(state, sequence);
}

/* The first from the next own number on that is neither 0 nor pending. */
static uint32_t next_free(const nyr_platform *state)
{
    uint32_t number = (uint32_t)state->next;
    while (number == 0 || place_of(state, number) < NYR_MOST_PENDING)
        number++;
    return number;
}

uint32_t make_sequence(const nyr_platform *state)
{
    size_t from = below(NYR_MOST_PENDING);
    if (one_in(8))
        return (uint32_t)(one_in(2) ? below(3) : narrow());
    for (size_t i = 0; i < NYR_MOST_PENDING; i++)
        if (number_at(state, (from + i) % NYR_MOST_PENDING) != 0)
            return number_at(state, (from + i) % NYR_MOST_PENDING);
    return 0;
}

static void enter(nyr_platform *state, size_t place, uint32_t number, uint32_t id, uint64_t target)
{
    state->pending[place] = (uint64_t)number << 32 | id;
    state->pending[NYR_MOST_PENDING + place] = target;
}

nyr_platform cleared(nyr_platform state, size_t place)
{
    enter(&state, place, 0, 0, 0);
    return state;
}

nyr_platform make_platform(void)
{
    nyr_platform made = platform;
    size_t at = below(NYR_MOST_PENDING), other = below(NYR_MOST_PENDING), free = below(4);
    uint32_t number = one_in(2) ? UINT32_MAX - (uint32_t)below(70) : (uint32_t)below(70);
    uint32_t id = make_id_of(&platform_table, NYR_REQUEST_SENT);
    switch (below(24)) {
    case 0: /* Numbers in a row, across the round too, in all places or all but one or two; the next own one among them. */
        for (size_t k = 0; k < NYR_MOST_PENDING; k++)
            enter(&made, k, number + (uint32_t)k, id, k % 4);
        if (free > 0)
            enter(&made, at, 0, 0, 0);
        if (free > 2)
            enter(&made, other, 0, 0, 0);
        made.next = number + below(3);
        break;
    case 1: enter(&made, at, make_sequence(&made), id, free); break; /* One number in two places. */
    case 2: /* A target that no platform is, and a place that is free and not empty. */
        made.pending[NYR_MOST_PENDING + other] = any();
        made.pending[at] = id;
        break;
    case 3: made.next = one_in(2) ? any() : make_sequence(&made); break;
    case 4: /* Any words. */
        if (one_in(3))
            fill(&made, sizeof made);
        break;
    default: break;
    }
    return made;
}

size_t make_response(const nyr_platform *state, const Table *table)
{
    uint32_t sequence = make_sequence(state), id, sender;
    size_t k = place_of(state, sequence), length = below(40);
    id = k < NYR_MOST_PENDING && !one_in(8) ? (uint32_t)state->pending[k] : make_id_of(table, NYR_REQUEST_SENT);
    sender = k < NYR_MOST_PENDING && !one_in(8) ? (uint32_t)state->pending[NYR_MOST_PENDING + k] : (uint32_t)below(4);
    copy(message, "\xEC\x0A\x02\x01", 4);
    put32(message + 4, sender);
    put32(message + 8, id);
    put32(message + 12, (uint32_t)length);
    put32(message + 16, sequence);
    fill(message + NYR_MESSAGE_HEADER, length);
    if (one_in(24))
        scramble(message, NYR_MESSAGE_HEADER);
    return NYR_MESSAGE_HEADER + length;
}

/* A request that was sent: its number, its bytes, its place and the next own number, and nothing else of the platform. */
static void check_sent(uint8_t own, const nyr_platform *before, const nyr_platform *after, uint32_t id, uint32_t target,
                       size_t length, const uint8_t *out, const nyr_sent *sent)
{
    uint8_t head[NYR_MESSAGE_HEADER] = {0xEC, 0x0A, 2, 1};
    nyr_platform expected = *before;
    uint32_t number = next_free(before);
    put32(head + 4, own);
    put32(head + 8, id);
    put32(head + 12, (uint32_t)length);
    put32(head + 16, number);
    enter(&expected, first_bearing(before, 0), number, id, target);
    expected.next = (uint32_t)(number + 1);
    expect(sent->sequence == number, "another number than the next one free");
    expect(sent->written == sizeof head + length, "another length");
    expect(!differ(out, head, sizeof head) && !differ(out + sizeof head, payload, length), "another message");
    expect(!differ(after, &expected, sizeof expected), "another platform than with the request in the first free place");
}

void fuzz_send(void)
{
    uint8_t own = (uint8_t)(one_in(2) ? 1 : any());
    size_t length = below(one_in(20) ? 40000 : 60), room = near(NYR_MESSAGE_HEADER + length) % MOST_MESSAGE, bytes;
    nyr_sections sections;
    nyr_operation found;
    nyr_platform before;
    uint32_t id, target, number, none;
    renew_platform_table();
    if (one_in(200))
        nyr_start(own, &platform);
    before = make_platform();
    sections = make_sections(&platform_table);
    bytes = one_in(24) ? near(platform_table.length) % sizeof platform_table.bytes : platform_table.length;
    id = make_id_of(&platform_table, one_in(8) ? NYR_REQUEST_SERVED : NYR_REQUEST_SENT);
    target = one_in(12) ? (uint32_t)any() : (uint32_t)below(4);
    fill(payload, length);
    calling("nyr_send");
    nyr_platform *state = lend(PLATFORM, &before, 1, sizeof *state);
    uint8_t *lent_table = lend(TABLE, platform_table.bytes, bytes, 1), *lent = lend(PAYLOAD, payload, length, 1);
    nyr_sections *lent_sections = lend(SECTIONS, &sections, 1, sizeof sections);
    uint8_t *out = lend(OUT, NULL, room, 1);
    nyr_sent *sent = lend_answer(ANSWER, sizeof *sent, sizeof sent->written);
    may_change(PLATFORM, 0, 1, sizeof *state);
    may_change(OUT, 0, NYR_MESSAGE_HEADER + length <= room ? NYR_MESSAGE_HEADER + length : 0, 1);
    number = called(nyr_send(own, state, lent_table, bytes, lent_sections, id, target, lent, length, out, room, sent),
                    N(30) | N(62) | N(60) | N(10));
    /* What the ID is, by the call that looks up: 30 and 62 come first. */
    none = nyr_find(lent_table, bytes, lent_sections, id, &found);
    none = none != 0 ? none : found.found && found.kind == NYR_REQUEST_SENT ? 0 : NYR_NO_REQUEST;
    if (none == 0 && first_bearing(&before, 0) == NYR_MOST_PENDING)
        none = NYR_LIST_FULL;
    if (none == 0 && room < NYR_MESSAGE_HEADER + length)
        none = NYR_NO_ROOM;
    expect(number == none, "another number");
    if (number != 0)
        return;
    check_sent(own, &before, state, id, target, length, out, sent);
    platform = *state;
}

void fuzz_cancel(void)
{
    nyr_platform before = make_platform(), expected;
    uint32_t sequence = make_sequence(&before);
    size_t k = place_of(&before, sequence);
    expected = k < NYR_MOST_PENDING ? cleared(before, k) : before;
    calling("nyr_cancel");
    nyr_platform *state = lend(PLATFORM, &before, 1, sizeof *state);
    size_t *cancelled = lend_answer(ANSWER, sizeof *cancelled, sizeof *cancelled);
    if (k < NYR_MOST_PENDING)
        may_change(PLATFORM, 0, 1, sizeof *state);
    called(nyr_cancel(state, sequence, cancelled), 0);
    expect(*cancelled == (k < NYR_MOST_PENDING), "cancelled, or not");
    expect(!differ(state, &expected, sizeof expected), "another platform than with that place free");
    if (one_in(3))
        platform = *state;
}

void fuzz_pending(void)
{
    nyr_platform before = make_platform();
    uint32_t sequence = make_sequence(&before);
    size_t k = place_of(&before, sequence);
    calling("nyr_pending");
    nyr_platform *state = lend(PLATFORM, &before, 1, sizeof *state);
    nyr_awaited *awaited = lend_answer(ANSWER, sizeof *awaited, sizeof awaited->found);
    called(nyr_pending(state, sequence, awaited), 0);
    if (k < NYR_MOST_PENDING)
        expect(awaited->found == 1 && awaited->id == (uint32_t)before.pending[k] &&
                   awaited->target == before.pending[NYR_MOST_PENDING + k],
               "another request than the first under the number");
    else
        expect(awaited->found == 0 && awaited->id == 0 && awaited->target == 0, "a request that is not pending");
}
