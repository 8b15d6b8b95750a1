/* Calls among partners of both issues: messages heard, services asked for, and requests in their target's issue. */
#include "fuzz_mixed.h"

#include <string.h>

/* Partners and their services are kept from call to call. */
static nyr_partners partners = {{21, 0, 0, 0}};
static uint64_t services[BLOCKS * NYR_SERVICES_WORDS];
static uint8_t payload[MOST_MESSAGE];

/* Mostly as they were; or nobody's, any words, or blocks that are nearly full. */
static void renew_services(void)
{
    size_t free = below(4);
    switch (below(60)) {
    case 0:
        memset(&partners, 0, sizeof partners);
        for (size_t i = one_in(6) ? 0 : 1 + below(BLOCKS); i > 0; i--) {
            size_t three = one_in(3) ? below(256) : below(5);
            partners.words[three / 64] |= N(three % 64);
        }
        memset(services, 0, sizeof services);
        break;
    case 1: fill(services, sizeof services); break;
    case 2:
        for (size_t k = 0; k < BLOCKS * NYR_SERVICES_WORDS; k++)
            services[k] = k % NYR_SERVICES_WORDS + free < NYR_SERVICES_WORDS
                              ? NYR_SERVICE_WORD(k % NYR_SERVICES_WORDS + 40, 1 + k % 3)
                              : 0;
        break;
    default: break;
    }
}

/* The response to a request that is pending at one that speaks Issue 3, or 0 where none is. */
static size_t make_response_3(const Handed *h)
{
    size_t from = below(NYR_MOST_PENDING), length = below(40), written = 0;
    uint32_t seconds = (uint32_t)any(), nanoseconds = (uint32_t)any();
    fill(payload, length);
    for (size_t i = 0; i < NYR_MOST_PENDING && written == 0; i++) {
        size_t k = (from + i) % NYR_MOST_PENDING;
        uint64_t place = h->platform.pending[k], target = h->platform.pending[NYR_MOST_PENDING + k];
        if (place >> 32 != 0 && speaks_3(&h->partners, target))
            nyr_write_3((uint8_t)target, seconds, nanoseconds, NYR_OPERATION_DOMAIN, (uint32_t)place,
                        (uint32_t)(place >> 32), payload, length, message, sizeof message, &written);
    }
    return written;
}

/* A message in either issue's form, mostly of one that speaks it. */
static size_t make_any(const Handed *h)
{
    int three = !one_in(3);
    size_t response = one_in(6) ? make_response_3(h) : 0;
    uint32_t sender = make_sender(h->own, one_in(3) ? 256 : 5);
    for (int i = one_in(16) ? 256 : 0; i < 256 && speaks_3(&h->partners, sender) != three; i++)
        sender = (sender + 1) % 256;
    if (response > 0)
        return response;
    if (three)
        return make_message_3(&platform_table, &h->platform, (uint8_t)sender);
    return one_in(3) ? make_response(&h->platform, &platform_table) : make_message(&platform_table, sender);
}

static Handed *hand(void)
{
    static Handed h;
    renew_services();
    h.own = (uint8_t)(one_in(2) ? 1 : any());
    h.stamp.seconds = (uint32_t)any();
    h.stamp.nanoseconds = (uint32_t)any();
    h.stamp.composite = (uint32_t)any();
    h.partners = partners;
    h.platform = make_platform();
    h.ours_words = below(one_in(4) ? MOST_OURS : 4);
    for (size_t k = 0; k < h.ours_words; k++) {
        uint64_t id = below(one_in(2) ? 3 : 300), state = one_in(12) ? narrow() : 1 + below(2);
        h.ours[k] = NYR_SERVICE_WORD(id, state);
    }
    copy(h.services, services, sizeof services);
    h.services_words = one_in(4) ? below((one_in(2) ? BLOCKS : 2) * NYR_SERVICES_WORDS) : BLOCKS * NYR_SERVICES_WORDS;
    h.room = one_in(4) ? below(MOST_OUT) : MOST_OUT;
    h.length = make_any(&h);
    return &h;
}

/* Of the next own number the low 32 bits count. */
static int same_platform(const nyr_platform *one, const nyr_platform *other)
{
    return !differ(one->up, other->up, sizeof one->up) && (uint32_t)one->next == (uint32_t)other->next &&
           !differ(one->pending, other->pending, sizeof one->pending);
}

/* One of the two calls; it must leave what it should, and nothing else touched. */
static void receive(int in, const Handed *h, const uint8_t *table, size_t bytes, const nyr_sections *sections, Left *right)
{
    calling(in ? "nyr_receive_mixed_in" : "nyr_receive_mixed");
    const nyr_stamp *stamp = lend(STAMP, &h->stamp, 1, sizeof *stamp);
    const nyr_partners *set_up = lend(PARTNERS, &h->partners, 1, sizeof *set_up);
    const uint64_t *ours = lend(OURS, h->ours, h->ours_words, sizeof *ours);
    nyr_platform *state = lend(PLATFORM, &h->platform, 1, sizeof *state);
    uint64_t *known = lend(SERVICES, h->services, h->services_words, sizeof *known);
    const uint8_t *lent_table = lend(TABLE, table, bytes, 1), *lent = lend(MESSAGE, message, h->length, 1);
    const nyr_sections *lent_sections = lend(SECTIONS, sections, 1, sizeof *sections);
    uint8_t *out = lend(OUT, NULL, h->room, 1);
    nyr_any_heard *heard = lend_answer(ANSWER, sizeof *heard, sizeof heard->kind);
    uint32_t number =
        in ? nyr_receive_mixed_in(h->own, stamp, set_up, ours, h->ours_words, state, known, h->services_words,
                                  lent_table, bytes, lent_sections, lent, h->length, out, h->room, heard)
           : nyr_receive_mixed(h->own, stamp, set_up, ours, h->ours_words, state, known, h->services_words, lent_table,
                               bytes, lent, h->length, out, h->room, heard);
    may_change(PLATFORM, 0, 1, sizeof *state);
    may_change(SERVICES, 0, h->services_words, sizeof *known);
    may_change(OUT, 0, number == 0 ? (size_t)right->heard.replies : 0, 1);
    called(number, READING | N(10) | N(30) | N(31) | N(32) | N(33) | N(61) | N(63));
    expect(number == right->number, "another number");
    if (number != 0)
        return;
    if (heard->issue == NYR_ISSUE_3 && (heard->kind == NYR_HEARD_OPERATION || heard->kind == NYR_HEARD_RESPONSE ||
                                        heard->kind == NYR_HEARD_PULL_ONE)) {
        expect(heard->number < sections->words[NYR_OPERATIONS_COUNT] &&
                   sections->words[8 + heard->number] >> 32 == heard->value,
               "the number of another entry");
        right->heard.number = heard->number;
    }
    expect(!differ(heard, &right->heard, sizeof *heard), "something else was heard");
    expect(same_platform(state, &right->platform), "another platform");
    expect(!differ(known, right->services, h->services_words * sizeof *known), "other services");
    expect(!differ(out, right->out, (size_t)heard->replies), "other replies");
}

/* By table bytes and by sections, on the same message, which the table's and other sections answer for. */
void fuzz_receive_mixed(void)
{
    static uint8_t table[sizeof platform_table.bytes];
    static nyr_sections sections;
    size_t bytes;
    const Handed *h;
    Left *right;
    uint32_t refused;
    renew_platform_table();
    h = hand();
    bytes = platform_table.length;
    copy(table, platform_table.bytes, sizeof table);
    if (one_in(12)) {
        scramble(table, bytes);
        bytes = near(bytes) % sizeof table;
    }
    refused = nyr_check_table(table, bytes, &sections);
    if (refused == 0)
        right = expected(h, bytes, table, &sections);
    else {
        right = expected(h, bytes, table, &platform_table.sections);
        right->number = refused;
    }
    receive(0, h, table, bytes, &sections, right);
    sections = make_sections(&platform_table);
    right = expected(h, bytes, table, &sections);
    receive(1, h, table, bytes, &sections, right);
    if (right->number == 0) {
        platform = right->platform;
        copy(services, right->services, sizeof services);
    }
}

/* To Issue 6 as nyr_send; to Issue 3 with four bytes more of header, which nyr_write_3 writes. */
static void check_sent_mixed(const Handed *h, int three, size_t bytes, const nyr_sections *sections, uint32_t id,
                             uint32_t target, size_t length, size_t room, uint32_t number, const nyr_platform *after,
                             const uint8_t *out, const nyr_sent *sent)
{
    static uint8_t other[MOST_MESSAGE + 100];
    nyr_platform state = h->platform;
    nyr_sent alone;
    size_t less = three ? 4 : 0, written;
    calls += 1;
    expect(nyr_send(h->own, &state, platform_table.bytes, bytes, sections, id, target, payload, length, other,
                    room < less ? 0 : room - less, &alone) == number,
           "another number than nyr_send's");
    if (number != 0)
        return;
    among_met |= N(three ? SENT_3 : SENT_6);
    if (three)
        expect(nyr_write_3(h->own, h->stamp.seconds, h->stamp.nanoseconds, NYR_OPERATION_DOMAIN, id,
                           (uint32_t)alone.sequence, payload, length, other, sizeof other, &written) == 0,
               "a request that cannot be");
    expect(sent->sequence == alone.sequence && sent->written == alone.written + less, "another number or length");
    expect(!differ(out, other, (size_t)sent->written), "another message");
    expect(same_platform(after, &state), "another platform");
}

void fuzz_send_mixed(void)
{
    size_t length = below(one_in(20) ? 40000 : 60), room, bytes, header;
    uint32_t id, target, number;
    nyr_sections sections;
    const Handed *h;
    renew_platform_table();
    h = hand();
    sections = make_sections(&platform_table);
    bytes = one_in(24) ? near(platform_table.length) % sizeof platform_table.bytes : platform_table.length;
    id = make_id_of(&platform_table, one_in(8) ? NYR_REQUEST_SERVED : NYR_REQUEST_SENT);
    target = one_in(12) ? (uint32_t)any() : (uint32_t)below(5);
    target |= one_in(8) ? 256 : 0;
    header = speaks_3(&h->partners, target) ? NYR_MESSAGE_HEADER_3 : NYR_MESSAGE_HEADER;
    room = near(header + length) % MOST_MESSAGE;
    fill(payload, length);
    calling("nyr_send_mixed");
    const nyr_stamp *stamp = lend(STAMP, &h->stamp, 1, sizeof *stamp);
    const nyr_partners *set_up = lend(PARTNERS, &h->partners, 1, sizeof *set_up);
    nyr_platform *state = lend(PLATFORM, &h->platform, 1, sizeof *state);
    const uint8_t *table = lend(TABLE, platform_table.bytes, bytes, 1), *lent = lend(PAYLOAD, payload, length, 1);
    const nyr_sections *lent_sections = lend(SECTIONS, &sections, 1, sizeof sections);
    uint8_t *out = lend(OUT, NULL, room, 1);
    nyr_sent *sent = lend_answer(ANSWER, sizeof *sent, sizeof sent->written);
    number = nyr_send_mixed(h->own, stamp, set_up, state, table, bytes, lent_sections, id, target, lent, length, out,
                            room, sent);
    may_change(PLATFORM, 0, 1, sizeof *state);
    may_change(OUT, 0, number == 0 ? header + length : 0, 1);
    called(number, N(30) | N(62) | N(60) | N(10));
    check_sent_mixed(h, header == NYR_MESSAGE_HEADER_3, bytes, &sections, id, target, length, room, number, state, out,
                     sent);
    if (number == 0)
        platform = *state;
}

/* Of any platform, with any number of words: those that are not there count as 0. */
void fuzz_service(void)
{
    const Handed *h = hand();
    uint32_t platform_number = one_in(6) ? (uint32_t)narrow() : (uint32_t)below(5), id = (uint32_t)below(310), state;
    size_t words = one_in(3) ? below(h->services_words + 1) : h->services_words, at, k, from, to;
    uint32_t right = NYR_UNHEARD;
    if (speaks_3(&h->partners, platform_number)) {
        at = block_of(&h->partners, platform_number);
        from = at < words ? at : words;
        to = at + NYR_SERVICES_WORDS < words ? at + NYR_SERVICES_WORDS : words;
        k = service_at(h->services + from, to - from, id);
        if (from + k < to && h->services[from + k] >> 32 != 0)
            right = h->services[from + k] >> 32 == NYR_AVAILABLE ? NYR_AVAILABLE : NYR_UNAVAILABLE;
    }
    calling("nyr_service");
    const nyr_partners *set_up = lend(PARTNERS, &h->partners, 1, sizeof *set_up);
    const uint64_t *known = lend(SERVICES, h->services, words, sizeof *known);
    state = nyr_service(set_up, known, words, platform_number, id);
    called(0, 0);
    expect(state == right, "another state of a service");
    among_met |= N(KNOWN + state);
}
