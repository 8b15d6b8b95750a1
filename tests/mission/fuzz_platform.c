/* Messages heard by a platform: states, replies, responses. */
#include "fuzz.h"

#include <string.h>

static int is_up(const nyr_platform *states, uint8_t own, uint64_t k)
{
    return k == own || (k < 256 && (states->up[k / 64] >> k % 64 & 1));
}

/* The replies that were written: each reads at the message's sender (above 255 at another platform, since a reader is one of the
 * 256), with its own number or with the message's. */
static void check_replies(uint8_t own, const nyr_platform *before, const uint8_t *out, const nyr_heard *heard)
{
    uint8_t reader = heard->sender < 256 ? (uint8_t)heard->sender : (uint8_t)(own + 1);
    for (size_t at = 0; at < heard->replies; at += NYR_REPLY_BYTES) {
        nyr_message read;
        calls++;
        expect(nyr_read(reader, out + at, NYR_REPLY_BYTES, &read) == 0 && read.sender == own,
               "a reply that its receiver refuses");
        expect(heard->replies == NYR_REPLIES_BYTES ? read.sequence == (uint32_t)(before->next + at / NYR_REPLY_BYTES)
                                                   : read.sequence == heard->sequence,
               "a reply with another number");
    }
}

static void check_received(uint8_t own, const nyr_platform *before, const nyr_platform *after, size_t length,
                           const nyr_heard *heard)
{
    int was = is_up(before, own, heard->sender), is = is_up(after, own, heard->sender);
    uint64_t owed = 0;
    expect(heard->kind >= NYR_HEARD_STATUS && heard->kind <= NYR_HEARD_RESPONSE, "nothing that can be heard");
    heard_met |= N(heard->kind);
    expect(heard->sender == be(message + 4, 4) && heard->sender != own, "the sender");
    expect(heard->sequence == be(message + 16, 4), "the sequence number");
    for (uint64_t k = 0; k < 4; k++)
        expect((before->up[k] ^ after->up[k]) ==
                   (was != is && k == heard->sender / 64 ? UINT64_C(1) << heard->sender % 64 : 0),
               "another state");
    if (heard->kind == NYR_HEARD_STATUS) {
        expect(heard->value < 2 && (heard->sender > 255 || is == (int)heard->value), "the state is not noted");
        owed = !was && is ? NYR_REPLIES_BYTES : 0;
    } else {
        expect(was == is, "a state is noted of no status");
        if (heard->kind == NYR_HEARD_REQUEST || heard->kind == NYR_HEARD_PULL_NONE ||
            heard->kind == NYR_HEARD_NOT_IN_TABLE)
            owed = NYR_REPLY_BYTES;
    }
    expect(heard->replies == owed, "other replies than owed");
    expect((uint32_t)after->next == (uint32_t)(before->next + (owed == NYR_REPLIES_BYTES ? 2 : 0)), "own numbers");
    if (heard->kind == NYR_HEARD_OPERATION || heard->kind == NYR_HEARD_RESPONSE)
        expect(heard->value == be(message + 8, 4) && heard->payload_start == NYR_MESSAGE_HEADER &&
                   heard->payload_length == length - NYR_MESSAGE_HEADER,
               "an operation outside the message");
    else
        expect(!heard->payload_start && !heard->payload_length && (heard->kind == NYR_HEARD_PULL_ONE || !heard->number),
               "a payload of no operation");
}

/* One of the two calls on this message, from this state; what it leaves is kept by the caller. */
typedef struct {
    uint32_t number;
    nyr_platform after;
    nyr_heard heard;
    uint8_t out[NYR_REPLIES_BYTES];
} Received;

/* What the message is by these sections, of an operation its kind, where they have it; or the number that refuses it. */
typedef struct {
    uint32_t number;
    nyr_message read;
    nyr_operation found;
} Looked;

static Looked look(uint8_t own, const uint8_t *bytes, size_t table_length, const nyr_sections *sections, size_t length)
{
    Looked made;
    memset(&made, 0, sizeof made);
    calls += 2;
    made.number = nyr_find(bytes, table_length, sections, (uint32_t)be(message + 8, 4), &made.found);
    if (made.number == 0)
        made.number = nyr_read(own, message, length, &made.read);
    return made;
}

/* A message of domain 1 by the kind of its ID: of kind 2 it is the response or 61, and frees its place or nothing; all others are
 * heard as they always were, and leave what is pending. */
static void check_response(const nyr_platform *before, const nyr_sections *sections, const Looked *looked,
                           const Received *received)
{
    const nyr_heard *heard = &received->heard;
    size_t k = place_of(before, (uint32_t)looked->read.sequence);
    int operation = looked->number == 0 && looked->read.kind == NYR_SERVICE_OPERATION;
    int ours = operation && looked->found.found && looked->found.kind == NYR_REQUEST_SENT;
    int answers = ours && k < NYR_MOST_PENDING && (uint32_t)before->pending[k] == looked->read.value &&
                  before->pending[NYR_MOST_PENDING + k] == looked->read.sender;
    nyr_platform expected = answers ? cleared(*before, k) : *before;
    expect(looked->number == 0 || received->number == looked->number, "not the table's or the message's number");
    expect((received->number == NYR_NOT_AWAITED) == (ours && !answers), "61 at the wrong place");
    expect(!answers || received->number == 0, "a response that is not delivered");
    if (received->number != 0)
        return;
    expect(looked->number == 0, "accepted, though the table or the message is refused");
    expect(!differ(received->after.pending, expected.pending, sizeof expected.pending), "another list");
    if (operation)
        expect(heard->kind == (uint64_t)(answers               ? NYR_HEARD_RESPONSE
                                         : looked->found.found ? NYR_HEARD_OPERATION
                                                               : NYR_HEARD_NOT_IN_TABLE),
               "an operation heard as something else");
    if (heard->kind == NYR_HEARD_OPERATION || heard->kind == NYR_HEARD_RESPONSE || heard->kind == NYR_HEARD_PULL_ONE)
        expect(heard->number < sections->words[NYR_OPERATIONS_COUNT] &&
                   sections->words[8 + heard->number] >> 32 == heard->value,
               "the number of another entry");
}

static Received receive(int in, uint8_t own, const nyr_platform *before, const uint8_t *bytes, size_t table_length,
                        const nyr_sections *sections, size_t length, size_t room)
{
    static Received made;
    calling(in ? "nyr_receive_in" : "nyr_receive");
    nyr_platform *state = lend(PLATFORM, before, 1, sizeof *state);
    nyr_heard *heard = lend_answer(ANSWER, sizeof *heard, sizeof heard->kind);
    uint8_t *lent_table = lend(TABLE, bytes, table_length, 1), *lent_message = lend(MESSAGE, message, length, 1);
    uint8_t *out = lend(OUT, NULL, room, 1);
    nyr_sections *lent = lend(SECTIONS, sections, 1, sizeof *sections);
    may_change(PLATFORM, 0, 1, sizeof *state);
    made.number =
        in ? nyr_receive_in(own, state, lent_table, table_length, lent, lent_message, length, out, room, heard)
           : nyr_receive(own, state, lent_table, table_length, lent_message, length, out, room, heard);
    may_change(OUT, 0, made.number == 0 ? (size_t)heard->replies : 0, 1);
    called(made.number, READING | N(10) | N(30) | N(31) | N(32) | N(33) | N(61));
    expect(made.number != NYR_NO_ROOM || room < NYR_REPLIES_BYTES, "10, and there is room");
    if (made.number == 0) {
        made.after = *state;
        made.heard = *heard;
        expect(heard->replies <= sizeof made.out, "more replies than a message is owed");
        copy(made.out, out, (size_t)heard->replies);
        check_received(own, before, &made.after, length, &made.heard);
        check_replies(own, before, made.out, &made.heard);
    }
    return made;
}

/* The call by table bytes and the one by sections, on the same message: they must agree where the sections are the table's. */
void fuzz_receive(void)
{
    static uint8_t spoilt[sizeof platform_table.bytes];
    static Received first, second;
    static nyr_sections checked, sections;
    uint8_t own = (uint8_t)(one_in(2) ? 1 : any());
    size_t room = one_in(8) ? below(60) : NYR_REPLIES_BYTES + below(3), length, bytes;
    nyr_platform before = make_platform();
    uint32_t refused;
    int good = !one_in(12), same;
    Looked looked;
    renew_platform_table();
    copy(spoilt, platform_table.bytes, sizeof spoilt);
    if (!good)
        scramble(spoilt, platform_table.length);
    bytes = good ? platform_table.length : near(platform_table.length) % sizeof platform_table.bytes;
    sections = make_sections(&platform_table);
    same = good && !differ(&sections, &platform_table.sections, sizeof sections);
    length = one_in(2) ? make_message(&platform_table, make_sender(own, one_in(3) ? 256 : 4))
                       : make_response(&before, &platform_table);
    first = receive(0, own, &before, spoilt, bytes, &sections, length, room);
    refused = nyr_check_table(spoilt, bytes, &checked);
    expect(refused == 0 || first.number == refused, "another number than the table's");
    if (refused == 0) {
        looked = look(own, spoilt, bytes, &checked, length);
        check_response(&before, &checked, &looked, &first);
    }
    second = receive(1, own, &before, spoilt, bytes, &sections, length, room);
    looked = look(own, spoilt, bytes, &sections, length);
    check_response(&before, &sections, &looked, &second);
    expect((second.number == NYR_TABLE_LENGTH) == !lie_in(&sections, bytes), "30 at the wrong place");
    if (same) {
        expect(first.number == second.number, "by sections another number");
        expect(first.number != 0 || (!differ(&first.heard, &second.heard, sizeof first.heard) &&
                                     !differ(&first.after, &second.after, sizeof first.after) &&
                                     !differ(first.out, second.out, (size_t)first.heard.replies)),
               "by sections another answer");
    }
    if (first.number == 0)
        platform = first.after;
}

static uint32_t ask(uint8_t own, const nyr_platform *states, uint32_t number)
{
    calling("nyr_is_up");
    nyr_platform *state = lend(PLATFORM, states, 1, sizeof *state);
    uint32_t one = nyr_is_up(own, state, number);
    called(0, 0);
    expect(one == (uint32_t)is_up(states, own, number), "is_up");
    return one;
}

void fuzz_states(void)
{
    uint8_t own = (uint8_t)any();
    nyr_platform states;
    uint32_t up = 0;
    calling("nyr_start");
    nyr_platform *state = lend_answer(PLATFORM, sizeof *state, sizeof state->next);
    expect(called(nyr_start(own, state), 0) == 0, "a start is refused");
    for (uint64_t k = 0; k < 4; k++)
        expect(state->up[k] == (k == own / 64 ? UINT64_C(1) << own % 64 : 0), "a fresh state");
    expect(state->next == 0, "own numbers do not start at 0");
    for (size_t k = 0; k < 2 * NYR_MOST_PENDING; k++)
        expect(state->pending[k] == 0, "a fresh platform has requests pending");
    if (one_in(4))
        platform = *state;
    fill(&states, sizeof states);
    for (uint32_t k = 0; k < 256; k++)
        up += ask(own, &states, k);
    /* Above 255 nobody is there, whatever the low bits say. */
    ask(own, &states, 256 + (uint32_t)own);
    ask(own, &states, 256 + (uint32_t)below(256));
    ask(own, &states, (uint32_t)any() | 256);
    calling("nyr_how_many_up");
    state = lend(PLATFORM, &states, 1, sizeof *state);
    expect(nyr_how_many_up(own, state) == up, "how many are up");
    called(0, 0);
}
