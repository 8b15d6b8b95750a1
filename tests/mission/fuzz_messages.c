/* Messages read and written. */
#include "fuzz.h"

uint8_t message[MOST_MESSAGE];
static uint8_t payload[MOST_MESSAGE];

uint64_t be(const uint8_t *bytes, int width)
{
    uint64_t number = 0;
    while (width-- > 0)
        number = number << 8 | *bytes++;
    return number;
}

void put32(uint8_t *bytes, uint32_t number)
{
    for (int i = 0; i < 4; i++)
        bytes[i] = (uint8_t)(number >> (24 - 8 * i));
}

static uint32_t make_id(const Table *table)
{
    return one_in(2)                             ? (uint32_t)below(7)
           : table->operations > 0 && !one_in(4) ? table->ids[below(table->operations)]
                                                 : (uint32_t)any();
}

/* A sender of 32 bits: another platform, one above 255 whose low byte may be ours, or this platform. */
uint32_t make_sender(uint8_t own, size_t others)
{
    return one_in(16)   ? own
           : one_in(12) ? (one_in(2) ? own : (uint32_t)any()) | 256
                        : (uint32_t)below(others);
}

size_t make_message(const Table *table, uint32_t sender)
{
    uint32_t id = make_id(table);
    int domain = id <= 4 && one_in(2) ? 0 : (int)below(2);
    size_t length = domain == 1 ? below(one_in(20) ? 40000 : 60) : id == 2 ? 0 : 4;
    static const uint8_t start[3] = {0xEC, 0x0A, 2};
    copy(message, start, sizeof start);
    message[3] = (uint8_t)domain;
    put32(message + 4, sender);
    put32(message + 8, id);
    if (one_in(16))
        length = below(9);
    put32(message + 12, (uint32_t)(one_in(24) ? near(length) : length));
    put32(message + 16, (uint32_t)any());
    fill(message + NYR_MESSAGE_HEADER, length);
    if (domain == 0 && !one_in(8))
        put32(message + NYR_MESSAGE_HEADER, id == 1     ? (uint32_t)below(2)
                                            : one_in(3) ? NYR_ALL_DATA
                                            : one_in(2) ? make_id(table)
                                                        : make_id_of(table, NYR_VERSIONED_DATA));
    length += NYR_MESSAGE_HEADER;
    if (one_in(16))
        scramble(message, NYR_MESSAGE_HEADER);
    return one_in(24) ? below(length + 1) : length;
}

void fuzz_read(void)
{
    uint8_t own = (uint8_t)any();
    size_t length = make_message(&platform_table, make_sender(own, 256));
    uint32_t number;
    if (one_in(64))
        fill(message, length);
    calling("nyr_read");
    uint8_t *lent = lend(MESSAGE, message, length, 1);
    nyr_message *answer = lend_answer(ANSWER, sizeof *answer, sizeof answer->kind);
    number = called(nyr_read(own, lent, length, answer), READING);
    expect(number != NYR_SENDER || be(message + 4, 4) == own, "6, and the sender is another platform");
    if (number != 0)
        return;
    expect(answer->kind >= NYR_STATUS && answer->kind <= NYR_SERVICE_OPERATION, "no such kind");
    kinds_met |= N(answer->kind);
    expect((answer->kind == NYR_SERVICE_OPERATION) == (message[3] == 1), "the kind of another domain");
    expect(answer->sender == be(message + 4, 4) && answer->sender != own, "the sender");
    expect(answer->sequence == be(message + 16, 4), "the sequence number");
    expect(answer->payload_start == NYR_MESSAGE_HEADER && answer->payload_length == length - NYR_MESSAGE_HEADER,
           "the payload's place");
    switch (answer->kind) {
    case NYR_STATUS: expect(answer->value < 2 && answer->value == be(message + 20, 4), "the status"); break;
    case NYR_REQUEST: expect(answer->value == 0 && answer->payload_length == 0, "a request's value"); break;
    case NYR_SERVICE_OPERATION: expect(answer->value == be(message + 8, 4), "the operation's ID"); break;
    default: expect(answer->value == be(message + 20, 4), "the ID in the payload"); break;
    }
}

/* What was written reads back the same at another platform. */
static void check_written(uint8_t own, uint8_t domain, uint32_t id, uint32_t sequence, size_t length)
{
    calling("nyr_read, of what was written");
    uint8_t *lent = lend(MESSAGE, message, length, 1);
    nyr_message *answer = lend_answer(ANSWER, sizeof *answer, sizeof answer->kind);
    expect(called(nyr_read((uint8_t)(own + 1), lent, length, answer), READING) == 0, "refused");
    expect(answer->sender == own && answer->sequence == sequence &&
               answer->payload_length == length - NYR_MESSAGE_HEADER,
           "another header");
    expect(answer->kind == (domain == 1 ? (uint64_t)NYR_SERVICE_OPERATION : id), "another kind");
    expect(!differ(message + NYR_MESSAGE_HEADER, payload, length - NYR_MESSAGE_HEADER), "another payload");
}

void fuzz_write(void)
{
    uint8_t own = (uint8_t)any(), domain = (uint8_t)(one_in(16) ? any() : below(2));
    uint32_t id = make_id(&platform_table), sequence = (uint32_t)any(), number;
    size_t length = domain == 0 ? near(id == 2 ? 0 : 4) % MOST_MESSAGE : below(one_in(20) ? MOST_MESSAGE - 100 : 60);
    size_t room = near(NYR_MESSAGE_HEADER + length) % (MOST_MESSAGE + 100);
    fill(payload, length);
    if (domain == 0 && id == 1 && !one_in(8))
        put32(payload, (uint32_t)below(2));
    calling("nyr_write");
    uint8_t *lent = lend(PAYLOAD, payload, length, 1), *out = lend(OUT, NULL, room, 1);
    size_t *written = lend_answer(ANSWER, sizeof *written, sizeof *written);
    number = nyr_write(own, domain, id, sequence, lent, length, out, room, written);
    may_change(OUT, 0, number == 0 ? NYR_MESSAGE_HEADER + length : 0, 1);
    called(number, N(4) | N(5) | N(7) | N(8) | N(9) | N(10));
    expect(number != NYR_NO_ROOM || room < NYR_MESSAGE_HEADER + length, "10, and there is room");
    if (number != 0)
        return;
    expect(*written == NYR_MESSAGE_HEADER + length, "another length");
    copy(message, out, *written);
    check_written(own, domain, id, sequence, *written);
}
