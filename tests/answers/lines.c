/* What a call answers, in words: each by one call of the library, or by a check of its table and one. */
#include "answers.h"

#include <inttypes.h>
#include <stdio.h>
#include <string.h>

uint8_t output[MOST_BYTES];
static uint8_t rooms[MOST_BYTES];

void put_number(uint64_t number)
{
    printf(" %" PRIu64, number);
}

void put_bytes(const uint8_t *bytes, size_t length)
{
    static const char digits[] = "0123456789abcdef";
    putchar(' ');
    if (length == 0)
        putchar('-');
    for (size_t i = 0; i < length; i++) {
        putchar(digits[bytes[i] >> 4]);
        putchar(digits[bytes[i] & 15]);
    }
}

int refused(uint32_t number)
{
    if (number != NYR_OK)
        printf("refused %" PRIu32, number);
    return number != NYR_OK;
}

int stopped(uint32_t number, const nyr_walked *walked)
{
    if (refused(number) && NYR_INPUT_SHORT <= number && number <= NYR_ARRAY_COUNT) {
        put_number(walked->at);
        put_number(walked->leaves);
    }
    return number != NYR_OK;
}

void put_output(uint32_t number, const char *name, size_t length)
{
    if (refused(number))
        return;
    printf("%s", name);
    put_bytes(output, length);
}

void put_message(const nyr_message *message, const uint8_t *bytes)
{
    static const char *const names[] = {"", "status", "request", "unknown", "pull", "operation"};
    printf("%s", names[message->kind]);
    if (message->kind == NYR_STATUS)
        printf(message->value ? " up" : " down");
    else if (message->kind != NYR_REQUEST)
        put_number(message->value);
    put_number(message->sender);
    put_number(message->sequence);
    if (message->kind == NYR_SERVICE_OPERATION)
        put_bytes(bytes + message->payload_start, (size_t)message->payload_length);
}

static void read_message(const Argument *a)
{
    nyr_message message;
    if (!refused(nyr_read((uint8_t)a[0].number, a[1].bytes, a[1].length, &message)))
        put_message(&message, a[1].bytes);
}

static void write_message(const Argument *a)
{
    size_t written = 0;
    uint32_t number = nyr_write((uint8_t)a[0].number, (uint8_t)a[1].number, (uint32_t)a[2].number,
                                (uint32_t)a[3].number, a[4].bytes, a[4].length, output, (size_t)a[5].number, &written);
    put_output(number, "written", written);
}

static void cut(const Argument *a)
{
    size_t written = 0;
    uint32_t number = nyr_cut(a[0].bytes, a[0].length, (size_t)a[1].number, (size_t)a[2].number, (size_t)a[3].number,
                              (size_t)a[4].number, output, (size_t)a[5].number, &written);
    put_output(number, "piece", written);
}

static void count_pieces(const Argument *a)
{
    size_t pieces;
    if (refused(nyr_pieces((size_t)a[0].number, (size_t)a[1].number, &pieces)))
        return;
    printf("pieces");
    put_number(pieces);
}

static void check_table(const Argument *a)
{
    nyr_sections sections;
    if (refused(nyr_check_table(a[0].bytes, a[0].length, &sections)))
        return;
    printf("table");
    for (int s = 0; s < 4; s++)
        put_number(sections.words[2 * s + 1]);
}

static void find(const Argument *a)
{
    nyr_sections sections;
    nyr_operation operation;
    if (refused(nyr_check_table(a[0].bytes, a[0].length, &sections)) ||
        refused(nyr_find(a[0].bytes, a[0].length, &sections, (uint32_t)a[1].number, &operation)))
        return;
    if (!operation.found) {
        printf("none");
        return;
    }
    printf("entry");
    put_number(operation.kind);
    put_number(operation.carries);
    put_number(operation.responds);
}

/* A joiner of all the records, or where these are too many of the first: its count alone makes it none. */
static nyr_joiner joiner_of(uint32_t room, const Argument *records)
{
    nyr_joiner joiner;
    memset(&joiner, 0, sizeof joiner);
    joiner.count = (uint32_t)(records->length / RECORD);
    joiner.room = room;
    for (size_t k = 0; k < joiner.count && k < NYR_CHANNELS; k++) {
        const uint8_t *record = records->bytes + RECORD * k;
        joiner.channel[k].sender = (uint32_t)number_at(record, 2);
        joiner.channel[k].seen = record[SEEN_AT];
        joiner.channel[k].last = (uint32_t)number_at(record + LAST_AT, 4);
        joiner.channel[k].held = (uint32_t)number_at(record + HELD_AT, 4);
    }
    return joiner;
}

static void put_at(uint8_t *bytes, uint32_t number, size_t width)
{
    while (width-- > 0) {
        bytes[width] = (uint8_t)number;
        number >>= 8;
    }
}

static void put_records(const nyr_joiner *joiner)
{
    uint8_t records[RECORD * NYR_CHANNELS];
    for (size_t k = 0; k < joiner->count; k++) {
        uint8_t *record = records + RECORD * k;
        put_at(record, joiner->channel[k].sender, 2);
        put_at(record + SEEN_AT, joiner->channel[k].seen, 1);
        put_at(record + LAST_AT, joiner->channel[k].last, 4);
        put_at(record + HELD_AT, joiner->channel[k].held, 4);
    }
    put_bytes(records, RECORD * joiner->count);
}

static void take(const Argument *a)
{
    static const char *const names[] = {"", "repeated", "delivered", "held", "stray", "too long"};
    nyr_joiner joiner = joiner_of((uint32_t)a[0].number, &a[1]);
    nyr_taken taken;
    const uint8_t *from;
    memcpy(rooms, a[2].bytes, a[2].length);
    if (refused(nyr_take(&joiner, rooms, a[2].length, a[3].bytes, a[3].length, &taken)))
        return;
    printf("%s", names[taken.outcome]);
    put_number(taken.missed);
    put_number(taken.bytes);
    from = taken.slice == NYR_IN_ROOMS ? rooms : a[3].bytes;
    put_bytes(from + taken.start, taken.slice == NYR_NOWHERE ? 0 : (size_t)taken.bytes);
    put_records(&joiner);
    put_bytes(rooms, a[2].length);
}

void answer(const Call *call)
{
    const Argument *a = call->argument;
    switch (call->code) {
    case 1: read_message(a); break;
    case 2: write_message(a); break;
    case 3: cut(a); break;
    case 4: check_table(a); break;
    case 5: unpack(a, OF_TABLE); break;
    case 6: pack(a, OF_TABLE); break;
    case 11: take(a); break;
    case 12: count_pieces(a); break;
    case 13: unpack(a, IN_SECTIONS); break;
    case 14: pack(a, IN_SECTIONS); break;
    case 15: find(a); break;
    case 16: unpack(a, BY_PLANS); break;
    case 17: pack(a, BY_PLANS); break;
    case 81: read_mixed(a); break;
    case 82: write_3(a); break;
    default: call->code < 83 ? answer_platform(call) : answer_mixed(call); break;
    }
}
