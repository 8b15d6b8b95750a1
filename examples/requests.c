/*
 * requests: a request and its response, between platforms that are all in this program. Platform 1 asks platform 2 for
 * the range of a track; 2 hears that as an operation and answers it; 1 is delivered the response, once. Then what is no
 * response to anything, a request that is given up, and a list that is full. For a network, hand `hear` the messages
 * that nyr_take delivers (mission.c has that part), and send what `ask` and `hear` leave in `sending`.
 */
#include "nyrkovash.h"

#include <inttypes.h>
#include <stdio.h>
#include <string.h>

enum {
    RANGE = 0x30, /* the operation: asked with a track's number, answered with that and its range */
    MOST_BYTES = 64,
    MOST_WORDS = 4
};

/* Who asks and who serves have the same type table, but for the operation's kind. */
#define TABLE(kind)                                                                                                 \
    {                                                                                                               \
        0, 3,                           /* 3 types: kind, of, first, count */                                       \
        0, 0, 0, 8, 0, 0, 0, 0,         /* type 0: uint16 */                                                        \
        0, 0, 0, 11, 0, 0, 0, 0,        /* type 1: float32 */                                                       \
        0, 2, 0, 0, 0, 0, 0, 2,         /* type 2: a record of members 0 and 1 */                                   \
        0, 2, 0, 0, 0, 1,               /* 2 members: of types 0 and 1 */                                           \
        0, 0,                           /* no values of enums */                                                    \
        0, 1,                           /* 1 operation: ID, kind, type of the request, type of the response */      \
        0, 0, 0, RANGE, 0, kind, 0, 0, 0, 2                                                                         \
    }

static const uint8_t asking[] = TABLE(NYR_REQUEST_SENT), serving[] = TABLE(NYR_REQUEST_SERVED);

typedef struct {
    uint8_t own;
    const uint8_t *table;
    size_t table_length;
    nyr_sections sections;
    nyr_platform state;
} Platform;

/* What a platform wrote last, to be sent. */
static uint8_t sending[MOST_BYTES];
static size_t sending_length;

/* Whether a call refused, and then that it did; a platform goes on after it as if nothing had been. */
static int refused(const Platform *platform, const char *what, uint32_t number)
{
    if (number != NYR_OK)
        printf("%d %s: refused %" PRIu32 "\n", platform->own, what, number);
    return number != NYR_OK;
}

static void put_sending(void)
{
    for (size_t i = 0; i < sending_length; i++)
        printf(" %02X", sending[i]);
    putchar('\n');
}

static uint32_t start(Platform *platform, uint8_t own, const uint8_t *table, size_t table_length)
{
    platform->own = own;
    platform->table = table;
    platform->table_length = table_length;
    nyr_start(own, &platform->state);
    return nyr_check_table(table, table_length, &platform->sections);
}

/* Asks another platform for the range of a track: the number that refuses it, or 0. */
static uint32_t ask(Platform *platform, uint32_t target, uint64_t track, nyr_sent *sent)
{
    nyr_operation operation;
    uint8_t payload[MOST_BYTES];
    nyr_walked packed;
    uint32_t number = nyr_find(platform->table, platform->table_length, &platform->sections, RANGE, &operation);
    if (number == NYR_OK)
        number = nyr_pack(platform->table, platform->table_length, (uint16_t)operation.carries, &track, 1, payload,
                          sizeof payload, &packed);
    if (number == NYR_OK)
        number = nyr_send(platform->own, &platform->state, platform->table, platform->table_length,
                          &platform->sections, RANGE, target, payload, (size_t)packed.given, sending, sizeof sending,
                          sent);
    if (number == NYR_OK)
        sending_length = (size_t)sent->written;
    return number;
}

/* The same, and says so; the request's own number, by which its response is known, and by which it is given up. */
static uint32_t ask_for(Platform *platform, uint32_t target, uint64_t track)
{
    nyr_sent sent;
    if (refused(platform, "asks", ask(platform, target, track, &sent)))
        return 0;
    printf("%d asks %" PRIu32 " for track %" PRIu64 ", request %" PRIu64 ":", platform->own, target, track,
           sent.sequence);
    put_sending();
    return (uint32_t)sent.sequence;
}

/* Unpacks the payload of what was heard, by the type that the table gives it; how many words that made. */
static size_t unpack(const Platform *platform, uint64_t type, const uint8_t *message, const nyr_heard *heard,
                     uint64_t *words)
{
    nyr_walked walked;
    return refused(platform, "unpacks",
                   nyr_unpack_in(platform->table, platform->table_length, &platform->sections, (uint16_t)type,
                                 message + heard->payload_start, (size_t)heard->payload_length, words, MOST_WORDS,
                                 &walked))
               ? 0
               : (size_t)walked.given;
}

/* Answers a request: a message of the same ID, with the request's own number. */
static void serve(Platform *platform, const nyr_operation *operation, const uint8_t *message, const nyr_heard *heard)
{
    const float range = 1500;
    uint32_t bits;
    uint64_t words[MOST_WORDS];
    uint8_t payload[MOST_BYTES];
    nyr_walked packed;
    if (unpack(platform, operation->carries, message, heard, words) != 1)
        return;
    printf("%d hears request %" PRIu64 " of %" PRIu64 ": track %" PRIu64 "\n", platform->own, heard->sequence,
           heard->sender, words[0]);
    memcpy(&bits, &range, sizeof bits);
    words[1] = bits;
    if (refused(platform, "packs", nyr_pack(platform->table, platform->table_length, (uint16_t)operation->responds,
                                            words, 2, payload, sizeof payload, &packed)) ||
        refused(platform, "answers", nyr_write(platform->own, NYR_OPERATION_DOMAIN, (uint32_t)heard->value,
                                               (uint32_t)heard->sequence, payload, (size_t)packed.given,
                                               sending, sizeof sending, &sending_length)))
        return;
    printf("%d answers:", platform->own);
    put_sending();
}

static void deliver(Platform *platform, const nyr_operation *operation, const uint8_t *message, const nyr_heard *heard)
{
    uint64_t words[MOST_WORDS];
    uint32_t bits;
    float range;
    if (unpack(platform, operation->responds, message, heard, words) != 2)
        return;
    bits = (uint32_t)words[1];
    memcpy(&range, &bits, sizeof range);
    printf("%d is answered by %" PRIu64 ", request %" PRIu64 ": track %" PRIu64 " is at %.0f m\n", platform->own,
           heard->sender, heard->sequence, words[0], range);
}

/* One message at one platform: a request that it serves, the response to one that it sent, or 61. */
static void hear(Platform *platform, const uint8_t *message, size_t length)
{
    uint8_t replies[NYR_REPLIES_BYTES]; /* of platform messages, which mission.c has */
    nyr_operation operation;
    nyr_heard heard;
    if (refused(platform, "hears", nyr_receive_in(platform->own, &platform->state, platform->table,
                                                  platform->table_length, &platform->sections, message, length,
                                                  replies, sizeof replies, &heard)) ||
        refused(platform, "looks up", nyr_find(platform->table, platform->table_length, &platform->sections,
                                               (uint32_t)heard.value, &operation)))
        return;
    if (heard.kind == NYR_HEARD_OPERATION && operation.kind == NYR_REQUEST_SERVED)
        serve(platform, &operation, message, &heard);
    else if (heard.kind == NYR_HEARD_RESPONSE)
        deliver(platform, &operation, message, &heard);
    else
        printf("%d hears something else\n", platform->own);
}

static void tell_pending(const Platform *platform, uint32_t sequence)
{
    nyr_awaited awaited;
    nyr_pending(&platform->state, sequence, &awaited);
    if (awaited.found)
        printf("%d awaits the response to request %" PRIu32 ", operation %" PRIX64 " of %" PRIu64 "\n", platform->own,
               sequence, awaited.id, awaited.target);
    else
        printf("%d awaits no response to request %" PRIu32 "\n", platform->own, sequence);
}

/* Gives a request up, where its caller has waited long enough: the library has no clock. */
static void give_up(Platform *platform, uint32_t sequence)
{
    size_t cancelled;
    nyr_cancel(&platform->state, sequence, &cancelled);
    printf("%d gives request %" PRIu32 " up: it was %s\n", platform->own, sequence,
           cancelled ? "pending" : "not pending");
}

static void play(Platform *one, Platform *two, Platform *three)
{
    uint8_t message[MOST_BYTES];
    size_t length, pending = 0;
    nyr_sent sent;
    uint32_t sequence = ask_for(one, 2, 7);

    /* Asked and answered; the response comes twice. */
    tell_pending(one, sequence);
    hear(two, sending, sending_length);
    hear(one, sending, sending_length);
    hear(one, sending, sending_length);
    tell_pending(one, sequence);

    /* The next request is asked of 2, and 3 answers it. Then it is given up, and its response comes after all. */
    sequence = ask_for(one, 2, 8);
    length = sending_length;
    memcpy(message, sending, length);
    hear(three, message, length);
    hear(one, sending, sending_length);
    tell_pending(one, sequence);
    give_up(one, sequence);
    give_up(one, sequence);
    hear(two, message, length);
    hear(one, sending, sending_length);

    /* As many as can be pending, and one more; a place that is free again makes room for it. */
    while (ask(one, 2, 9, &sent) == NYR_OK)
        pending++;
    printf("%d awaits %zu responses, the last to request %" PRIu64 "\n", one->own, pending, sent.sequence);
    ask_for(one, 2, 10);
    give_up(one, 5);
    ask_for(one, 2, 10);
}

int main(void)
{
    static Platform one, two, three;
    uint32_t linked = nyr_library_version();
    int started;
    if (linked / 10000 != NYR_LIBRARY_VERSION / 10000 || linked < NYR_LIBRARY_VERSION) {
        fprintf(stderr, "compiled for version " NYR_LIBRARY_VERSION_TEXT ", linked with %" PRIu32 "\n", linked);
        return 2;
    }
    started = !refused(&one, "checks its table", start(&one, 1, asking, sizeof asking)) &&
              !refused(&two, "checks its table", start(&two, 2, serving, sizeof serving)) &&
              !refused(&three, "checks its table", start(&three, 3, serving, sizeof serving));
    if (started)
        play(&one, &two, &three);
    if (fflush(stdout) != 0 || ferror(stdout)) {
        perror("standard output");
        return 3;
    }
    return started ? 0 : 1;
}
