/* Inputs that go deep: tables with as much of everything as there can be, payloads and words by them, messages, full lists. */
#include "stack.h"

#include <string.h>

enum { TYPES = 256, OPERATIONS = 1024, LEAVES = 512, UINT8 = 6, UINT16 = 8, SERVICES = 8000 };

static void put(uint64_t value, int width)
{
    while (width-- > 0)
        table[table_length++] = (uint8_t)(value >> 8 * width);
}

static void put_type(unsigned kind, unsigned of, unsigned first, unsigned count)
{
    put(kind, 2);
    put(of, 2);
    put(first, 2);
    put(count, 2);
}

static void put_operation(unsigned id, unsigned kind)
{
    put(id, 4);
    put(kind, 2);
    put(NYR_NO_PAYLOAD, 2);
    if (kind != NYR_EVENT)
        put(NYR_NO_PAYLOAD, 2);
}

/* As many operations as a table can have, none with a payload, nearly all in wide entries. */
static void put_operations(void)
{
    put(OPERATIONS, 2);
    put_operation(EVENT_ID, NYR_EVENT);
    put_operation(REQUEST_ID, NYR_REQUEST_SENT);
    for (unsigned k = 2; k < OPERATIONS; k++)
        put_operation(REQUEST_ID + k, NYR_REQUEST_SERVED);
}

void nest(int kind)
{
    unsigned members = 0;
    table_length = payload_length = words_length = 0;
    put(TYPES, 2);
    put_type(0, UINT8, 0, 0);
    for (unsigned i = 1; i < TYPES; i++) {
        int this = kind ? kind : RECORD + (int)i % 3;
        put_type((unsigned)this, this == RECORD ? 0 : i - 1, this == RECORD ? members : 0, 1);
        members += this == RECORD;
        if (this == ARRAY)
            words[words_length++] = 1;
    }
    put(members, 2);
    for (unsigned i = 1; i < TYPES; i++)
        if (kind == RECORD || (!kind && i % 3 == 0))
            put(i - 1, 2);
    put(0, 2);
    put_operations();
    words[words_length++] = 1;
    for (size_t i = 0; i + 1 < words_length; i++, payload_length += 4) {
        memset(message + payload_length, 0, 4);
        message[payload_length + 3] = 1;
    }
    message[payload_length++] = 1;
    type_number = TYPES - 1;
}

void enumerate(void)
{
    table_length = 0;
    put(2, 2);
    put_type(1, 8, 0, 1024);
    put_type(ARRAY, 0, 0, 1000);
    put(0, 2);
    put(1024, 2);
    for (unsigned k = 0; k < 1024; k++)
        put(1024 - k, 8);
    put_operations();
    type_number = 1;
    words_length = 1001;
    payload_length = 2004;
    words[0] = 1000;
    memset(message, 0, payload_length);
    message[2] = 1000 >> 8;
    message[3] = 1000 & 255;
    for (size_t k = 1; k < words_length; k++) {
        words[k] = 1;
        message[3 + 2 * k] = 1;
    }
}

void spread(void)
{
    table_length = 0;
    put(TYPES, 2);
    put_type(0, UINT8, 0, 0);
    put_type(0, UINT16, 0, 0);
    for (unsigned i = 2; i < TYPES; i++)
        put_type(RECORD, 0, 0, LEAVES);
    put(LEAVES, 2);
    for (unsigned k = 0; k < LEAVES; k++)
        put(k % 2, 2);
    put(0, 2);
    put_operations();
    type_number = TYPES - 1;
    words_length = LEAVES;
    payload_length = LEAVES / 2 * 3;
    memset(message, 0, payload_length);
    memset(words, 0, LEAVES * sizeof *words);
}

void make_message(uint8_t domain, uint8_t id, const uint8_t *value, uint8_t length)
{
    static const uint8_t head[8] = {0xEC, 0x0A, 2, 0, 0, 0, 0, OTHER};
    memset(message, 0, NYR_REPLY_BYTES);
    memcpy(message, head, sizeof head);
    message[3] = domain;
    message[11] = id;
    message[15] = length;
    message[19] = LAST_PENDING;
    if (length > 0)
        memcpy(message + NYR_MESSAGE_HEADER, value, length);
    message_length = NYR_MESSAGE_HEADER + (size_t)length;
}

void make_message_3(uint8_t id, uint8_t value)
{
    size_t length = id == NYR_STATUS_3 ? 8 : id == NYR_REQUEST_3 ? 0 : id == NYR_SERVICES_3 ? 4 + 8 * SERVICES : 4;
    static const uint8_t head[4] = {0xEC, 0x0A, 0x10, OTHER};
    memset(message, 0, NYR_MESSAGE_HEADER_3 + length);
    memcpy(message, head, sizeof head);
    message[7] = id;
    message[18] = (uint8_t)(length >> 8);
    message[19] = (uint8_t)length;
    message[23] = LAST_PENDING;
    message[26] = (uint8_t)(id == NYR_SERVICES_3 ? SERVICES >> 8 : 0);
    message[27] = (uint8_t)(id == NYR_SERVICES_3 ? SERVICES & 255 : value);
    message_length = NYR_MESSAGE_HEADER_3 + length;
}

void make_pending(size_t requests)
{
    call_start();
    platform.next = 1;
    for (size_t k = 0; k < requests; k++) {
        platform.pending[k] = (k + 1) << 32 | REQUEST_ID;
        platform.pending[NYR_MOST_PENDING + k] = OTHER;
    }
}
