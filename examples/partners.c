/*
 * partners: platforms that speak Issue 3 and Issue 6 on one bench, all in this program. Platform 1 speaks both: it has
 * 2 set up as Issue 3, and 3, of which nothing is said, as Issue 6. Platform 2 takes everybody for Issue 3, and 3 takes
 * everybody for Issue 6, as programs do that know one issue. First 2 comes up, then 3, with what each says and is
 * answered (Part 6, Issue 3 and Issue 6, section 6.3), until nobody says anything more; then 1 asks both; then 2 goes
 * down. For a network, hand `hear` the messages that nyr_take delivers (mission.c has that part), and send what `say`
 * prints.
 */
#include "nyrkovash.h"

#include <inttypes.h>
#include <stdio.h>
#include <string.h>

enum { PLATFORMS = 3, MOST_BYTES = 64, MOST_UNDER_WAY = 16, EVERYBODY = 0, RANGE = 7, FIRST_SERVICE = 20 };

/* One type, uint8; no members, no values of enums; and one operation without payloads, whose requests 1 sends and the
 * others serve. */
#define TABLE(kind) {0, 1, 0, 0, 0, 6, 0, 0, 0, 0, 0, 0, 0, 0, 0, 1, 0, 0, 0, RANGE, 0, kind, 255, 255, 255, 255}
static const uint8_t asking[] = TABLE(NYR_REQUEST_SENT), serving[] = TABLE(NYR_REQUEST_SERVED);

typedef struct {
    uint8_t own;
    const uint8_t *table;
    nyr_sections sections;
    nyr_platform state;
    nyr_partners partners;
    nyr_stamp stamp;                                   /* its time is to be set before each call */
    uint64_t ours[2];                                  /* its own services */
    uint64_t services[PLATFORMS * NYR_SERVICES_WORDS]; /* what those that speak Issue 3 told of theirs */
} Platform;

static Platform bench[PLATFORMS];

/* Messages that are under way, in their order. */
typedef struct {
    uint8_t from;
    uint32_t to;
    size_t length;
    uint8_t bytes[MOST_BYTES];
} Message;

static Message under_way[MOST_UNDER_WAY];
static size_t first, last;

static uint32_t start(Platform *platform, uint8_t own, const uint8_t *table, size_t table_length)
{
    platform->own = own;
    platform->table = table;
    platform->stamp.seconds = own;
    platform->stamp.composite = 100 + (uint32_t)own;
    platform->ours[0] = NYR_SERVICE_WORD(FIRST_SERVICE + own, NYR_AVAILABLE);
    platform->ours[1] = NYR_SERVICE_WORD(FIRST_SERVICE + 10 + own, NYR_UNAVAILABLE);
    nyr_start(own, &platform->state);
    return nyr_check_table(table, table_length, &platform->sections);
}

/* A message goes out, to one platform or to all others: a line with its bytes, four to a group. */
static void say(const Platform *platform, uint32_t to, const uint8_t *bytes, size_t length)
{
    Message *message = &under_way[last % MOST_UNDER_WAY];
    if (last == first + MOST_UNDER_WAY || length > MOST_BYTES) {
        puts("too much is under way");
        return;
    }
    message->from = platform->own;
    message->to = to;
    message->length = length;
    memcpy(message->bytes, bytes, length);
    last++;
    printf("%d to ", platform->own);
    if (to == EVERYBODY)
        printf("all:");
    else
        printf("%" PRIu32 ":", to);
    for (size_t i = 0; i < length; i++)
        printf(i % 4 == 0 ? " %02x" : "%02x", bytes[i]);
    putchar('\n');
}

/* Our status: the first broadcast is the caller's to write, once for each issue that is spoken. It draws no own
 * number. */
static void announce(const Platform *platform, uint32_t issue, uint8_t state)
{
    const uint8_t status[] = {0, 0, 0, state, 0, 0, 0, (uint8_t)platform->stamp.composite};
    uint8_t message[MOST_BYTES];
    size_t written = 0;
    if (issue == NYR_ISSUE_3)
        nyr_write_3(platform->own, platform->stamp.seconds, platform->stamp.nanoseconds, NYR_PLATFORM_DOMAIN,
                    NYR_STATUS_3, 0, status, 8, message, sizeof message, &written);
    else
        nyr_write(platform->own, NYR_PLATFORM_DOMAIN, NYR_STATUS, 0, status, 4, message, sizeof message, &written);
    say(platform, EVERYBODY, message, written);
}

static uint32_t payload_size(const uint8_t *at)
{
    return (uint32_t)at[0] << 24 | (uint32_t)at[1] << 16 | (uint32_t)at[2] << 8 | at[3];
}

/* The replies one by one: each is as long as its header says. */
static void say_replies(const Platform *platform, const nyr_any_heard *heard, const uint8_t *replies)
{
    for (size_t at = 0; at < heard->replies;) {
        const uint8_t *reply = replies + at;
        size_t length = heard->issue == NYR_ISSUE_3 ? NYR_MESSAGE_HEADER_3 + payload_size(reply + 16)
                                                    : NYR_MESSAGE_HEADER + payload_size(reply + 12);
        say(platform, (uint32_t)heard->sender, reply, length);
        at += length;
    }
}

/* A request that we serve is answered in its sender's issue, with its ID and number. */
static void serve(const Platform *platform, const nyr_any_heard *heard)
{
    uint8_t message[MOST_BYTES];
    size_t written = 0;
    if (heard->issue == NYR_ISSUE_3)
        nyr_write_3(platform->own, platform->stamp.seconds, platform->stamp.nanoseconds, NYR_OPERATION_DOMAIN,
                    (uint32_t)heard->value, (uint32_t)heard->sequence, NULL, 0, message, sizeof message, &written);
    else
        nyr_write(platform->own, NYR_OPERATION_DOMAIN, (uint32_t)heard->value, (uint32_t)heard->sequence, NULL, 0,
                  message, sizeof message, &written);
    say(platform, (uint32_t)heard->sender, message, written);
}

static void tell(const nyr_any_heard *heard)
{
    static const char *const kinds[] = {
        "", "status", "status request", "unknown operation", "pull of all data", "pull", "pull of no data", "operation",
        "operation not in the table", "response", "services", "request for services", "service not available",
        "composite change", "composite acknowledgement"};
    printf(" hears of %" PRIu64 ", Issue %" PRIu64 ": %s, value %" PRIu64 ", number %" PRIu64, heard->sender,
           heard->issue, kinds[heard->kind], heard->value, heard->sequence);
    if (heard->issue == NYR_ISSUE_3)
        printf(", at %" PRIu64 " s", heard->seconds);
    if (heard->composite != 0)
        printf(", composite %" PRIu64, heard->composite);
    putchar('\n');
}

/* One message at one platform: a line that says what it heard, and then its replies. */
static void hear(Platform *platform, const uint8_t *message, size_t length)
{
    uint8_t replies[NYR_REPLIES_3_BYTES];
    nyr_any_heard heard;
    uint32_t number = nyr_receive_mixed_in(
        platform->own, &platform->stamp, &platform->partners, platform->ours, 2, &platform->state, platform->services,
        PLATFORMS * NYR_SERVICES_WORDS, platform->table, sizeof asking, &platform->sections, message, length, replies,
        sizeof replies, &heard);
    printf("  %d", platform->own);
    if (number != NYR_OK) {
        printf(" refuses it: %" PRIu32 "\n", number);
        return;
    }
    tell(&heard);
    say_replies(platform, &heard, replies);
    if (heard.kind == NYR_HEARD_OPERATION)
        serve(platform, &heard);
}

/* Until nobody says anything more. What goes to all is heard by those that have started, but for its sender. */
static void go_on(void)
{
    size_t messages = last - first;
    for (; first < last; first++) {
        Message message = under_way[first % MOST_UNDER_WAY];
        size_t before = last;
        for (Platform *one = bench; one < bench + PLATFORMS; one++)
            if (one->own != 0 && (message.to == one->own || (message.to == EVERYBODY && message.from != one->own)))
                hear(one, message.bytes, message.length);
        messages += last - before;
    }
    printf("silence; messages: %zu\n", messages);
}

static void ask(Platform *platform, uint32_t target)
{
    uint8_t message[MOST_BYTES];
    nyr_sent sent;
    uint32_t number = nyr_send_mixed(platform->own, &platform->stamp, &platform->partners, &platform->state,
                                     platform->table, sizeof asking, &platform->sections, RANGE, target, NULL, 0,
                                     message, sizeof message, &sent);
    if (number == NYR_OK)
        say(platform, target, message, (size_t)sent.written);
    else
        printf("%d asks %" PRIu32 ": refused %" PRIu32 "\n", platform->own, target, number);
}

static void tell_services(const Platform *platform, uint8_t of)
{
    static const char *const states[] = {"unheard", "UNAVAILABLE", "AVAILABLE"};
    printf("%d knows of %d:", platform->own, of);
    for (uint32_t id = FIRST_SERVICE + (uint32_t)of; id < FIRST_SERVICE + 30; id += 10)
        printf(" service %" PRIu32 " %s%s", id,
               states[nyr_service(&platform->partners, platform->services, PLATFORMS * NYR_SERVICES_WORDS, of, id)],
               id + 10 < FIRST_SERVICE + 30 ? "," : "\n");
}

int main(void)
{
    Platform *one = &bench[0], *two = &bench[1], *three = &bench[2];
    if (nyr_library_version() / 10000 != NYR_LIBRARY_VERSION / 10000 || nyr_library_version() < NYR_LIBRARY_VERSION) {
        fputs("partners: the library is of another version than its header\n", stderr);
        return 2;
    }
    nyr_partners_set(&one->partners, 2, NYR_ISSUE_3);
    nyr_partners_set(&two->partners, 1, NYR_ISSUE_3);
    nyr_partners_set(&two->partners, 3, NYR_ISSUE_3);
    if (start(one, 1, asking, sizeof asking) != NYR_OK)
        return 1;
    announce(one, NYR_ISSUE_3, 1);
    announce(one, NYR_ISSUE_6, 1);
    go_on();
    if (start(two, 2, serving, sizeof serving) != NYR_OK)
        return 1;
    announce(two, NYR_ISSUE_3, 1);
    go_on();
    tell_services(one, 2);
    if (start(three, 3, serving, sizeof serving) != NYR_OK)
        return 1;
    announce(three, NYR_ISSUE_6, 1);
    go_on();
    ask(one, 2);
    ask(one, 3);
    go_on();
    announce(two, NYR_ISSUE_3, 0);
    go_on();
    tell_services(one, 2);
    if (fflush(stdout) != 0 || ferror(stdout)) {
        fputs("partners: what it prints cannot be written\n", stderr);
        return 3;
    }
    return 0;
}
