/* Messages among partners of Issue 3: read by their sender's issue, and written. */
#include "answers.h"

#include <stdio.h>

nyr_partners set_up(const Argument *threes)
{
    nyr_partners partners = {{0}};
    for (size_t k = 0; k < threes->length; k++)
        nyr_partners_set(&partners, threes->bytes[k], NYR_ISSUE_3);
    return partners;
}

static void put_six(const nyr_any_message *message, const uint8_t *bytes)
{
    nyr_message six;
    six.kind = message->kind;
    six.value = message->value;
    six.sender = message->sender;
    six.sequence = message->sequence;
    six.payload_start = message->payload_start;
    six.payload_length = message->payload_length;
    printf("six ");
    put_message(&six, bytes);
}

/* What it is, and its value. */
static void put_what(const nyr_any_message *message, const uint8_t *payload)
{
    static const char *const names[] = {
        "",         "status",           "request",       "unknown",   "pull",         "operation",
        "services", "services request", "not available", "composite", "composite ack"};
    printf(" %s", names[message->kind]);
    switch (message->kind) {
    case NYR_STATUS:
        printf(message->value ? " up" : " down");
        put_number(message->composite);
        break;
    case NYR_REQUEST: break;
    case NYR_SERVICES:
        put_number(message->value);
        put_bytes(payload + 4, (size_t)message->payload_length - 4);
        break;
    case NYR_COMPOSITE_ACK: printf(message->value ? " agree" : " disagree"); break;
    default: put_number(message->value); break;
    }
}

static void put_three(const nyr_any_message *message, const uint8_t *bytes)
{
    const uint8_t *payload = bytes + message->payload_start;
    printf("three");
    put_number(message->seconds);
    put_number(message->nanoseconds);
    put_what(message, payload);
    printf(" from");
    put_number(message->sender);
    printf(" seq");
    put_number(message->sequence);
    if (message->kind == NYR_SERVICE_OPERATION)
        put_bytes(payload, (size_t)message->payload_length);
}

void read_mixed(const Argument *a)
{
    nyr_partners partners = set_up(&a[1]);
    nyr_any_message message;
    if (refused(nyr_read_mixed((uint8_t)a[0].number, &partners, a[2].bytes, a[2].length, &message)))
        return;
    if (message.issue == NYR_ISSUE_6)
        put_six(&message, a[2].bytes);
    else
        put_three(&message, a[2].bytes);
}

void write_3(const Argument *a)
{
    size_t written = 0;
    uint32_t number = nyr_write_3((uint8_t)a[0].number, (uint32_t)a[1].number, (uint32_t)a[2].number,
                                  (uint8_t)a[3].number, (uint32_t)a[4].number, (uint32_t)a[5].number, a[6].bytes,
                                  a[6].length, output, (size_t)a[7].number, &written);
    put_output(number, "written", written);
}
