/* What the platform answers among partners of both issues: messages heard, services, and requests in their target's issue. */
#include "answers.h"

#include <stdio.h>
#include <string.h>

enum { PLATFORMS = 256, PAIRS_AT = 4 };

static nyr_partners partners; /* at first nobody speaks Issue 3 */
static uint64_t services[PLATFORMS * NYR_SERVICES_WORDS], ours[MOST_WORDS];

static int speaks_3(uint32_t number)
{
    return number < PLATFORMS && (partners.words[number / 64] >> number % 64 & 1);
}

static size_t threes_below(uint32_t number)
{
    size_t count = 0;
    for (uint32_t k = 0; k < number; k++)
        count += (size_t)speaks_3(k);
    return count;
}

static void start_among(const Argument *a)
{
    start_platform((uint8_t)a[0].number);
    partners = set_up(&a[1]);
    memset(services, 0, sizeof services);
    printf("platform");
    put_number(own);
    printf(" threes");
    put_number(threes_below(PLATFORMS));
}

static void put_six(const nyr_any_heard *heard)
{
    nyr_heard six;
    six.kind = heard->kind;
    six.value = heard->value;
    six.sender = heard->sender;
    six.sequence = heard->sequence;
    six.number = heard->number;
    six.payload_start = heard->payload_start;
    six.payload_length = heard->payload_length;
    six.replies = heard->replies;
    printf("six ");
    put_heard(&six);
}

/* What it was, and its value. */
static void put_what(const nyr_any_heard *heard, const uint8_t *message)
{
    static const char *const names[] = {
        "",          "status",            "request",  "unknown",  "pull all",         "pull",          "pull unknown",
        "operation", "operation unknown", "response", "services", "services request", "not available", "composite",
        "composite ack"};
    printf("three %s", names[heard->kind]);
    switch (heard->kind) {
    case NYR_HEARD_STATUS:
        printf(heard->value ? " up" : " down");
        put_number(heard->composite);
        break;
    case NYR_HEARD_REQUEST:
    case NYR_HEARD_PULL_ALL: break;
    case NYR_HEARD_SERVICES:
        put_number(heard->value);
        put_bytes(message + heard->payload_start + PAIRS_AT, (size_t)heard->payload_length - PAIRS_AT);
        break;
    case NYR_HEARD_COMPOSITE_ACK: printf(heard->value ? " agree" : " disagree"); break;
    default: put_number(heard->value); break;
    }
    printf(" from");
    put_number(heard->sender);
}

static void put_any(const nyr_any_heard *heard, const uint8_t *message)
{
    if (heard->issue == NYR_ISSUE_6) {
        put_six(heard);
        return;
    }
    put_what(heard, message);
    if (heard->kind == NYR_HEARD_RESPONSE) {
        printf(" seq");
        put_number(heard->sequence);
        return;
    }
    printf(" owed");
    put_bytes(output, (size_t)heard->replies);
}

static nyr_stamp stamp_of(const Argument *a, uint32_t composite)
{
    nyr_stamp stamp;
    stamp.seconds = (uint32_t)a[0].number;
    stamp.nanoseconds = (uint32_t)a[1].number;
    stamp.composite = composite;
    return stamp;
}

static size_t take_ours(const Argument *words)
{
    for (size_t k = 0; k < words->length / 8; k++)
        ours[k] = number_at(words->bytes + 8 * k, 8);
    return words->length / 8;
}

/* By the table's bytes, with the words of all blocks. */
static void receive(const Argument *a)
{
    nyr_stamp stamp = stamp_of(a, (uint32_t)a[2].number);
    size_t count = take_ours(&a[3]), lent = NYR_SERVICES_WORDS * threes_below(PLATFORMS);
    nyr_any_heard heard;
    if (!refused(nyr_receive_mixed(own, &stamp, &partners, ours, count, &platform, services, lent, a[4].bytes,
                                   a[4].length, a[5].bytes, a[5].length, output, (size_t)a[6].number, &heard)))
        put_any(&heard, a[5].bytes);
}

/* By the sections of the table's check, with so many words. */
static void receive_in(const Argument *a)
{
    nyr_stamp stamp = stamp_of(a, (uint32_t)a[2].number);
    size_t count = take_ours(&a[3]), lent = (size_t)a[4].number;
    nyr_sections sections;
    nyr_any_heard heard;
    if (!refused(nyr_check_table(a[5].bytes, a[5].length, &sections)) &&
        !refused(nyr_receive_mixed_in(own, &stamp, &partners, ours, count, &platform, services, lent, a[5].bytes,
                                      a[5].length, &sections, a[6].bytes, a[6].length, output, (size_t)a[7].number,
                                      &heard)))
        put_any(&heard, a[6].bytes);
}

static void send_request(const Argument *a)
{
    nyr_stamp stamp = stamp_of(a, 0);
    nyr_sections sections;
    nyr_sent sent;
    if (!refused(nyr_check_table(a[2].bytes, a[2].length, &sections)) &&
        !refused(nyr_send_mixed(own, &stamp, &partners, &platform, a[2].bytes, a[2].length, &sections,
                                (uint32_t)a[3].number, (uint32_t)a[4].number, a[5].bytes, a[5].length, output,
                                (size_t)a[6].number, &sent)))
        put_sent(&sent);
}

static void ask(const Argument *a)
{
    static const char *const names[] = {"unheard", "unavailable", "available"};
    size_t lent = NYR_SERVICES_WORDS * threes_below(PLATFORMS);
    printf("%s", names[nyr_service(&partners, services, lent, (uint32_t)a[0].number, (uint32_t)a[1].number)]);
}

/* A block's services, up to the first word that is free. */
static void known(const Argument *a)
{
    uint32_t number = (uint32_t)a[0].number;
    const uint64_t *block = services + NYR_SERVICES_WORDS * threes_below(number < PLATFORMS ? number : 0);
    size_t k = 0;
    printf("known");
    for (; speaks_3(number) && k < NYR_SERVICES_WORDS && block[k] >> 32 != 0; k++) {
        put_number((uint32_t)block[k]);
        printf(block[k] >> 32 == NYR_AVAILABLE ? " a" : " u");
    }
    if (k == 0)
        printf(" -");
}

void answer_mixed(const Call *call)
{
    const Argument *a = call->argument;
    switch (call->code) {
    case 83: start_among(a); break;
    case 84: receive(a); break;
    case 85: ask(a); break;
    case 86: known(a); break;
    case 87: receive_in(a); break;
    case 88: send_request(a); break;
    }
}
