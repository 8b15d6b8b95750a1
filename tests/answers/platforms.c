/* What the calls that speak to a platform answer: messages heard, states asked for, and requests. */
#include "answers.h"

#include <inttypes.h>
#include <stdio.h>

uint8_t own;
nyr_platform platform;

void start_platform(uint8_t number)
{
    own = number;
    nyr_start(own, &platform);
}

static void start(const Argument *a)
{
    start_platform((uint8_t)a[0].number);
    printf("platform");
    put_number(own);
}

/* With that next number, and with these words in the place of an empty list. */
static void start_with(const Argument *a)
{
    start(a);
    platform.next = a[1].number;
    for (size_t k = 0; k < a[2].length / 8; k++)
        platform.pending[k] = number_at(a[2].bytes + 8 * k, 8);
}

void put_heard(const nyr_heard *heard)
{
    static const char *const names[] = {
        "",     "status",       "request",   "unknown",           "pull all",
        "pull", "pull unknown", "operation", "operation unknown", "response"};
    printf("%s", names[heard->kind]);
    if (heard->kind == NYR_HEARD_STATUS)
        printf(heard->value ? " up" : " down");
    else if (heard->kind != NYR_HEARD_REQUEST && heard->kind != NYR_HEARD_PULL_ALL)
        put_number(heard->value);
    printf(" from");
    put_number(heard->sender);
    if (heard->kind == NYR_HEARD_RESPONSE) {
        printf(" seq");
        put_number(heard->sequence);
        return;
    }
    printf(" owed");
    put_bytes(output, (size_t)heard->replies);
}

static void receive(const Argument *a)
{
    nyr_heard heard;
    if (!refused(nyr_receive(own, &platform, a[0].bytes, a[0].length, a[1].bytes, a[1].length, output,
                             (size_t)a[2].number, &heard)))
        put_heard(&heard);
}

void put_sent(const nyr_sent *sent)
{
    printf("sent");
    put_number(sent->sequence);
    put_bytes(output, (size_t)sent->written);
}

static void send_request(const Argument *a)
{
    nyr_sections sections;
    nyr_sent sent;
    if (refused(nyr_check_table(a[0].bytes, a[0].length, &sections)) ||
        refused(nyr_send(own, &platform, a[0].bytes, a[0].length, &sections, (uint32_t)a[1].number,
                         (uint32_t)a[2].number, a[3].bytes, a[3].length, output, (size_t)a[4].number, &sent)))
        return;
    put_sent(&sent);
}

static void cancel(const Argument *a)
{
    size_t cancelled;
    if (!refused(nyr_cancel(&platform, (uint32_t)a[0].number, &cancelled)))
        printf(cancelled ? "cancelled" : "not pending");
}

static void pending(const Argument *a)
{
    nyr_awaited awaited;
    if (refused(nyr_pending(&platform, (uint32_t)a[0].number, &awaited)))
        return;
    if (!awaited.found) {
        printf("not pending");
        return;
    }
    printf("pending");
    put_number(awaited.id);
    put_number(awaited.target);
}

void answer_platform(const Call *call)
{
    const Argument *a = call->argument;
    switch (call->code) {
    case 7: start(a); break;
    case 8: receive(a); break;
    case 9: printf(nyr_is_up(own, &platform, (uint32_t)a[0].number) ? "up" : "down"); break;
    case 10: printf("count %" PRIu32, nyr_how_many_up(own, &platform)); break;
    case 20: send_request(a); break;
    case 21: cancel(a); break;
    case 22: pending(a); break;
    case 23: start_with(a); break;
    }
}
