/* Partners of Issue 3: who speaks it, messages of both issues read, and messages written for it. */
#include "fuzz.h"

uint64_t mixed_met;
static uint8_t payload[MOST_MESSAGE];

enum { SIX = 16, REFUSED = 32, UNWRITTEN = 48 };

/* Table 3 of Issue 3: the kind of each ID of domain 0. */
static const uint64_t kinds[] = {
    0, NYR_STATUS, NYR_REQUEST, NYR_SERVICES, NYR_SERVICES_REQUEST, NYR_UNKNOWN_OPERATION,
    NYR_NOT_AVAILABLE, NYR_PULL, NYR_COMPOSITE_CHANGE, NYR_COMPOSITE_ACK};

int speaks_3(const nyr_partners *set_up, uint64_t platform_number)
{
    return platform_number < 256 && (set_up->words[platform_number / 64] >> platform_number % 64 & 1);
}

/* Nobody, one, or any; and mostly this one. */
static nyr_partners make_partners(uint8_t platform)
{
    nyr_partners partners = {{0}};
    if (one_in(6))
        return partners;
    if (one_in(3))
        fill(&partners, sizeof partners);
    if (one_in(8))
        partners.words[platform / 64] &= ~N(platform % 64);
    else
        partners.words[platform / 64] |= N(platform % 64);
    return partners;
}

/* Services, of which one may be in no state, and their count may be a lie. */
static size_t make_services(uint8_t *to)
{
    uint32_t count = (uint32_t)below(one_in(20) ? 3000 : 6);
    for (uint32_t i = 0; i < count; i++) {
        put32(to + 4 + 8 * i, one_in(8) ? (uint32_t)any() : (uint32_t)below(300));
        put32(to + 8 + 8 * i, (uint32_t)below(2));
    }
    if (count > 0 && one_in(6)) {
        size_t one = below(count);
        put32(to + 8 + 8 * one, (uint32_t)narrow());
    }
    put32(to, one_in(12) ? count ^ (one_in(2) ? 1U : UINT32_C(1) << 29) : count);
    return 4 + 8 * (size_t)count;
}

/* A payload, mostly such as the ID has, and its length. */
static size_t make_payload(uint8_t domain, uint32_t id, uint8_t *to)
{
    size_t length = domain != 0           ? below(one_in(20) ? 40000 : 60)
                    : id == NYR_STATUS_3  ? 8
                    : id == NYR_REQUEST_3 ? 0
                                          : 4;
    fill(to, length);
    if (domain != 0)
        return length;
    if (id == NYR_SERVICES_3)
        length = make_services(to);
    else if ((id == NYR_STATUS_3 || id == NYR_COMPOSITE_ACK_3) && !one_in(6))
        put32(to, (uint32_t)below(2));
    return one_in(16) ? near(length) % 60 : length;
}

static uint32_t make_id_3(uint8_t domain)
{
    return domain == 0 && !one_in(12) ? 1 + (uint32_t)below(9) : one_in(2) ? (uint32_t)below(12) : (uint32_t)any();
}

size_t make_message_3(const Table *table, const nyr_platform *state, uint8_t sender)
{
    uint8_t domain = (uint8_t)(one_in(12) ? below(16) : below(2));
    uint32_t often = one_in(2) ? NYR_STATUS_3 : NYR_SERVICES_3, id = one_in(2) && domain == 0 ? often : make_id_3(domain);
    uint32_t sequence = one_in(3) ? make_sequence(state) : (uint32_t)any();
    size_t length = make_payload(domain, id, message + NYR_MESSAGE_HEADER_3), k = place_of(state, sequence);
    unsigned kind = (unsigned)below(4);
    uint32_t other = one_in(4) ? NYR_ALL_DATA : one_in(3) ? (uint32_t)below(300) : make_id_of(table, NYR_VERSIONED_DATA);
    if (domain == 1 && !one_in(4))
        id = k < NYR_MOST_PENDING ? (uint32_t)state->pending[k] : make_id_of(table, kind);
    uint32_t asked = one_in(3) ? NYR_ALL_SERVICES : (uint32_t)below(one_in(2) ? 3 : 300);
    if (domain == 0 && length == 4 && (id == NYR_PULL_3 || id == NYR_SERVICES_REQUEST_3))
        put32(message + NYR_MESSAGE_HEADER_3, id == NYR_PULL_3 ? other : asked);
    message[0] = 0xEC;
    message[1] = 0x0A;
    message[2] = (uint8_t)((one_in(16) ? below(16) : 1) << 4 | domain);
    message[3] = sender;
    put32(message + 4, id);
    put32(message + 8, (uint32_t)any());
    put32(message + 12, (uint32_t)any());
    put32(message + 16, (uint32_t)(one_in(24) ? near(length) : length));
    put32(message + 20, sequence);
    length += NYR_MESSAGE_HEADER_3;
    if (one_in(16))
        scramble(message, NYR_MESSAGE_HEADER_3);
    return one_in(24) ? below(length + 1) : length;
}

void fuzz_partners_set(void)
{
    uint32_t platform = one_in(4) ? (uint32_t)narrow() : (uint32_t)below(256);
    uint32_t issue = one_in(3) ? (uint32_t)narrow() : one_in(2) ? NYR_ISSUE_3 : NYR_ISSUE_6;
    nyr_partners before;
    fill(&before, sizeof before);
    calling("nyr_partners_set");
    nyr_partners *partners = lend(PARTNERS, &before, 1, sizeof before);
    uint32_t number = nyr_partners_set(partners, platform, issue);
    if (platform < 256)
        may_change(PARTNERS, platform / 64, platform / 64 + 1, sizeof *partners->words);
    called(number, 0);
    if (platform >= 256)
        return;
    expect(speaks_3(partners, platform) == (issue == NYR_ISSUE_3), "the platform is not set up so");
    expect(((partners->words[platform / 64] ^ before.words[platform / 64]) & ~N(platform % 64)) == 0,
           "another platform is set up otherwise");
}

/* A message read, with all that the call lends. */
static uint32_t read_with(uint8_t own, nyr_partners partners, size_t length, nyr_any_message *got)
{
    uint32_t number;
    calling("nyr_read_mixed");
    const nyr_partners *with = lend(PARTNERS, &partners, 1, sizeof partners);
    const uint8_t *lent = lend(MESSAGE, message, length, 1);
    nyr_any_message *answer = lend_answer(ANSWER, sizeof *answer, sizeof answer->kind);
    number = called(nyr_read_mixed(own, with, lent, length, answer), READING);
    copy(got, answer, sizeof *got);
    return number;
}

/* What nyr_read answers too: the number, the six fields, and the four others as Issue 6 has them. */
static void check_six(uint8_t own, size_t length, uint32_t number, const nyr_any_message *got)
{
    calling("nyr_read, of the same message");
    const uint8_t *lent = lend(MESSAGE, message, length, 1);
    nyr_message *answer = lend_answer(ANSWER, sizeof *answer, sizeof answer->kind);
    expect(called(nyr_read(own, lent, length, answer), READING) == number, "another number");
    if (number != 0)
        return;
    expect(!differ(answer, got, sizeof *answer), "another message");
    expect(got->issue == NYR_ISSUE_6 && got->seconds == 0 && got->nanoseconds == 0 && got->composite == 0,
           "what Issue 6 has not");
    mixed_met |= N(SIX + got->kind);
}

static void check_three(uint8_t own, size_t length, const nyr_any_message *got)
{
    const uint8_t *from = message + NYR_MESSAGE_HEADER_3;
    uint64_t id = be(message + 4, 4), first = length >= 28 ? be(from, 4) : 0;
    expect(got->issue == NYR_ISSUE_3 && got->sender == message[3] && got->sender != own, "another sender");
    expect(message[2] >> 4 == 1 && (message[2] & 15) < 2, "another version or domain");
    expect(got->seconds == be(message + 8, 4) && got->nanoseconds == be(message + 12, 4), "another time");
    expect(got->sequence == be(message + 20, 4) && got->payload_start == NYR_MESSAGE_HEADER_3 &&
               got->payload_length == length - NYR_MESSAGE_HEADER_3 && got->payload_length == be(message + 16, 4),
           "another number or place");
    expect(got->kind == ((message[2] & 15) == 1 ? (uint64_t)NYR_SERVICE_OPERATION : kinds[id]), "another kind");
    expect(got->value == (got->kind == NYR_SERVICE_OPERATION ? id : got->kind == NYR_REQUEST ? 0 : first),
           "another value");
    expect(got->composite == (got->kind == NYR_STATUS ? be(from + 4, 4) : 0), "another composite");
    for (size_t i = 0; got->kind == NYR_SERVICES && i < got->value; i++)
        expect(8 * i + 12 <= got->payload_length && be(from + 8 * i + 8, 4) < 2, "no service's state");
    mixed_met |= N(got->kind);
}

/* A message of either issue, or any bytes; among partners, and as if all spoke Issue 6. */
void fuzz_read_mixed(void)
{
    static const nyr_partners nobody;
    uint8_t own = (uint8_t)any(), sender = (uint8_t)(one_in(16) ? own : any());
    size_t length = one_in(3) ? make_message(&platform_table, one_in(2) ? sender : make_sender(own, 256))
                              : make_message_3(&platform_table, &platform, sender);
    nyr_partners partners = make_partners(sender);
    nyr_any_message got;
    uint32_t number;
    int three;
    if (one_in(64))
        fill(message, length);
    three = length > 3 && message[2] != 2 && speaks_3(&partners, message[3]);
    number = read_with(own, partners, length, &got);
    if (three) {
        mixed_met |= number == 0 ? 0 : N(REFUSED + number);
        expect(number != NYR_SENDER || message[3] == own, "6, and the sender is another platform");
        expect((number == NYR_MESSAGE_SHORT) == (length < NYR_MESSAGE_HEADER_3), "1 is not of 24 bytes");
        if (number == 0)
            check_three(own, length, &got);
    } else if (length >= NYR_MESSAGE_HEADER && speaks_3(&partners, be(message + 4, 4)) && message[2] == 2)
        expect(number == NYR_MARK || number == NYR_VERSION, "Issue 6's form from one that speaks Issue 3");
    else
        check_six(own, length, number, &got);
    number = read_with(own, nobody, length, &got);
    check_six(own, length, number, &got);
}

/* What was written reads back the same where the writer is set up as Issue 3, and as 3 where it is not. */
static void check_written_3(uint8_t own, uint32_t sequence, size_t length)
{
    nyr_partners partners = make_partners((uint8_t)any());
    nyr_any_message got;
    nyr_partners_set(&partners, own, NYR_ISSUE_3);
    expect(read_with((uint8_t)(own + 1), partners, length, &got) == 0, "what was written is refused");
    check_three((uint8_t)(own + 1), length, &got);
    expect(got.sender == own && got.sequence == sequence, "another header than was written");
    expect(!differ(message + got.payload_start, payload, length - NYR_MESSAGE_HEADER_3), "another payload");
    nyr_partners_set(&partners, own, NYR_ISSUE_6);
    expect(read_with((uint8_t)(own + 1), partners, length, &got) == NYR_VERSION, "read from one that speaks Issue 6");
}

void fuzz_write_3(void)
{
    uint8_t own = (uint8_t)any(), domain = (uint8_t)(one_in(16) ? any() : below(2));
    uint32_t id = make_id_3(domain), sequence = (uint32_t)any(), number;
    uint32_t seconds = (uint32_t)any(), nanoseconds = (uint32_t)any();
    size_t length = make_payload(domain, id, payload);
    size_t room = near(NYR_MESSAGE_HEADER_3 + length) % (MOST_MESSAGE + 100);
    calling("nyr_write_3");
    uint8_t *lent = lend(PAYLOAD, payload, length, 1), *out = lend(OUT, NULL, room, 1);
    size_t *written = lend_answer(ANSWER, sizeof *written, sizeof *written);
    number = nyr_write_3(own, seconds, nanoseconds, domain, id, sequence, lent, length, out, room, written);
    may_change(OUT, 0, number == 0 ? NYR_MESSAGE_HEADER_3 + length : 0, 1);
    called(number, N(4) | N(5) | N(7) | N(8) | N(9) | N(10));
    mixed_met |= number == 0 ? 0 : N(UNWRITTEN + number);
    expect(number != NYR_NO_ROOM || room < NYR_MESSAGE_HEADER_3 + length, "10, and there is room");
    if (number != 0)
        return;
    expect(*written == NYR_MESSAGE_HEADER_3 + length, "another length");
    expect(be(out + 4, 4) == id && be(out + 8, 4) == seconds && be(out + 12, 4) == nanoseconds, "another ID or time");
    copy(message, out, *written);
    check_written_3(own, sequence, *written);
}
