/*
 * mission RECORDING TABLE: plays recorded datagrams as a mission computer would meet them. Each is joined; each message
 * that this completes is read, and answered where its sender is owed replies; and the payload of an operation that the
 * table has is unpacked to its words, by the plans of its types, which are laid out once, when the table is loaded. For
 * a network, hand `take` what a socket receives; send what `send_reply` prints.
 */
#include "nyrkovash.h"

#include <inttypes.h>
#include <stdio.h>

enum {
    OWN = 1,                /* this platform's number */
    OWN_SENDER = OWN * 256, /* our sender ID: platform times 256 plus channel */
    PIECE = 1400,           /* bytes of a message in one of our datagrams */
    SENDER_IDS = 6,         /* where they stand in a recording */
    MOST_ROOMS = 65536,     /* a recording's limit for all rooms together */
    MOST_WORDS = 65560,     /* no leaf is shorter than a byte, and no joined message longer than a room */
    TABLE_BYTES = 22536     /* the largest table */
};

static uint8_t recording[1 << 20], table[TABLE_BYTES + 1], rooms[MOST_ROOMS];
static size_t recorded, table_length, rooms_length;
static nyr_joiner joiner;
static nyr_platform platform;
static nyr_sections sections;
static uint64_t words[MOST_WORDS], plans[NYR_PLANS_WORDS];
static uint16_t counter;

static size_t number_at(const uint8_t *bytes, int width)
{
    size_t number = 0;
    while (width-- > 0)
        number = number << 8 | *bytes++;
    return number;
}

/* Cuts one reply into datagrams, and prints these where a mission computer would send them. */
static void send_reply(unsigned to, const uint8_t *reply, size_t length)
{
    uint8_t datagram[NYR_DATAGRAM_HEADER + PIECE];
    size_t pieces, written;
    if (nyr_pieces(length, PIECE, &pieces) != NYR_OK)
        return;
    for (size_t piece = 0; piece < pieces; piece++) {
        if (nyr_cut(reply, length, PIECE, OWN_SENDER, counter, piece, datagram, sizeof datagram, &written) != NYR_OK)
            return;
        printf("  to platform %u:", to);
        for (size_t i = 0; i < written; i++)
            printf(" %02X", datagram[i]);
        putchar('\n');
    }
    counter = (uint16_t)(counter + pieces);
}

/* Unpacks an operation's payload by the type that the table gives it, and prints its words, or where it is refused. */
static void unpack(uint32_t id, const uint8_t *payload, size_t length)
{
    nyr_operation operation;
    nyr_walked walked;
    if (nyr_find(table, table_length, &sections, id, &operation) != NYR_OK || !operation.found)
        return;
    if (operation.carries == NYR_NO_PAYLOAD || (length == 0 && operation.kind == NYR_VERSIONED_DATA)) {
        puts(operation.carries == NYR_NO_PAYLOAD ? "  no payload" : "  not published yet");
        return;
    }
    uint32_t number = nyr_unpack_by(table, table_length, &sections, plans, NYR_PLANS_WORDS, (uint16_t)operation.carries,
                                    payload, length, words, MOST_WORDS, &walked);
    if (number == NYR_OK)
        printf("  words");
    else
        printf("  payload refused %" PRIu32, number);
    if (NYR_INPUT_SHORT <= number && number <= NYR_ARRAY_COUNT)
        printf(" at byte %" PRIu64 ", after %" PRIu64 " leaves", walked.at, walked.leaves);
    for (size_t i = 0; number == NYR_OK && i < walked.given; i++)
        printf(" %" PRIX64, words[i]);
    putchar('\n');
}

/* Reads one delivered message, notes what it tells of its sender, and answers it. */
static void receive(const uint8_t *message, size_t length)
{
    static const char *const kinds[] = {
        "", "status", "status request", "unknown operation", "pull of all", "pull",
        "pull of what is not versioned data", "operation", "operation not in the table", "response"};
    uint8_t replies[NYR_REPLIES_BYTES];
    nyr_heard heard;
    uint32_t number = nyr_receive_in(OWN, &platform, table, table_length, &sections, message, length, replies,
                                     sizeof replies, &heard);
    if (number != NYR_OK) {
        printf("  message refused %" PRIu32 "\n", number);
        return;
    }
    printf("  platform %" PRIu64 ": %s", heard.sender, kinds[heard.kind]);
    if (heard.kind == NYR_HEARD_STATUS)
        printf(heard.value ? " UP" : " DOWN");
    else if (heard.kind != NYR_HEARD_REQUEST && heard.kind != NYR_HEARD_PULL_ALL)
        printf(" %" PRIX64, heard.value);
    printf("; %" PRIu32 " are UP\n", nyr_how_many_up(OWN, &platform));
    if (heard.kind == NYR_HEARD_OPERATION)
        unpack((uint32_t)heard.value, message + heard.payload_start, (size_t)heard.payload_length);
    for (size_t at = 0; at < heard.replies; at += NYR_REPLY_BYTES)
        send_reply((unsigned)heard.sender, replies + at, NYR_REPLY_BYTES);
}

/* Joins one datagram, and reads the message that it completes, where it lies. */
static void take(size_t number, const uint8_t *datagram, size_t length)
{
    static const char *const outcomes[] = {"", "repeated", "delivered", "held", "stray", "too long"};
    nyr_taken taken;
    uint32_t refused = nyr_take(&joiner, rooms, rooms_length, datagram, length, &taken);
    if (refused != NYR_OK) {
        printf("%zu refused %" PRIu32 "\n", number, refused);
        return;
    }
    printf("%zu %s %" PRIu64 " %" PRIu64 "\n", number, outcomes[taken.outcome], taken.missed, taken.bytes);
    if (taken.slice == NYR_IN_DATAGRAM)
        receive(datagram + taken.start, (size_t)taken.bytes);
    if (taken.slice == NYR_IN_ROOMS)
        receive(rooms + taken.start, (size_t)taken.bytes);
}

/* Sets the joiner up as the recording's start says, and leaves where its datagrams start; why not, or null. */
static const char *set_up(size_t *at)
{
    uint16_t ids[NYR_CHANNELS];
    size_t channels, room;
    if (recorded < *at)
        return "cut short";
    channels = number_at(recording, 2);
    room = number_at(recording + 2, 4);
    if (channels < 1 || channels > NYR_CHANNELS || room < NYR_SMALLEST_ROOM || room > MOST_ROOMS / channels)
        return "setup refused 20";
    rooms_length = channels * room;
    for (size_t k = 0; k < channels; k++, *at += 2) {
        if (recorded - *at < 2)
            return "cut short";
        ids[k] = (uint16_t)number_at(recording + *at, 2);
    }
    return nyr_setup(&joiner, ids, channels, (uint32_t)room, rooms_length) == NYR_OK ? NULL : "setup refused 20";
}

/* Plays the recording; why it ended early, or null. */
static const char *play(void)
{
    size_t length, at = SENDER_IDS;
    const char *early = set_up(&at);
    for (size_t i = 0; early == NULL && at < recorded; i++, at += 2 + length) {
        if (recorded - at < 2 || recorded - at - 2 < (length = number_at(recording + at, 2)))
            return "cut short";
        take(i, recording + at + 2, length);
    }
    return early;
}

static int read_file(const char *name, uint8_t *bytes, size_t room, size_t *length)
{
    FILE *file = fopen(name, "rb");
    if (file == NULL) {
        perror(name);
        return 0;
    }
    *length = fread(bytes, 1, room, file);
    fclose(file);
    if (*length == room)
        fprintf(stderr, "%s: too large for this example\n", name);
    return *length < room;
}

int main(int argc, char **argv)
{
    uint32_t number, linked = nyr_library_version();
    const char *early = NULL;
    if (linked / 10000 != NYR_LIBRARY_VERSION / 10000 || linked < NYR_LIBRARY_VERSION) {
        fprintf(stderr, "compiled for version " NYR_LIBRARY_VERSION_TEXT ", linked with %" PRIu32 "\n", linked);
        return 2;
    }
    if (argc != 3) {
        fprintf(stderr, "usage: %s RECORDING TABLE\n", argv[0]);
        return 2;
    }
    if (!read_file(argv[1], recording, sizeof recording, &recorded) ||
        !read_file(argv[2], table, sizeof table, &table_length))
        return 2;
    nyr_start(OWN, &platform);
    number = nyr_check_table(table, table_length, &sections);
    if (number == NYR_OK)
        number = nyr_plans(table, table_length, &sections, plans, NYR_PLANS_WORDS);
    if (number != NYR_OK)
        printf("table refused %" PRIu32 "\n", number);
    else if ((early = play()) != NULL)
        puts(early);
    if (fflush(stdout) != 0 || ferror(stdout)) {
        perror("standard output");
        return 3;
    }
    return number == NYR_OK && early == NULL ? 0 : 1;
}
