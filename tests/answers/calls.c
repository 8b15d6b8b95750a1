/* The calls of a file: for each code its arguments, what an argument may be, and where the next call stands. */
#include "answers.h"

enum { HEAD = 4, LENGTH = 4, CODES = 89 };

/* Numbers of 8, 16, 32 and 64 bits, an output's length in bytes and in words; bytes, words, a joiner's records, and the words of
 * requests that are pending. */
enum { NONE, N8, N16, N32, N64, ROOM, WORD_ROOM, BYTES, WORDS, RECORDS, LIST };

static const struct {
    uint64_t fewest, most, largest;
} kinds[] = {
    {0, 0, 0},
    {1, 8, UINT8_MAX},
    {1, 8, UINT16_MAX},
    {1, 8, UINT32_MAX},
    {1, 8, UINT64_MAX},
    {1, 8, MOST_BYTES},
    {1, 8, MOST_WORDS},
    {0, MOST_BYTES, UINT64_MAX},
    {0, 8 * MOST_WORDS, UINT64_MAX},
    {0, MOST_BYTES, UINT64_MAX},
    {0, 8 * MOST_LIST, UINT64_MAX},
};

static const struct {
    unsigned count;
    uint8_t kind[MOST_ARGUMENTS];
} shapes[CODES] = {
    {0, {NONE}},
    {2, {N8, BYTES}},
    {6, {N8, N8, N32, N32, BYTES, ROOM}},
    {6, {BYTES, N64, N64, N64, N64, ROOM}},
    {1, {BYTES}},
    {4, {BYTES, N16, BYTES, WORD_ROOM}},
    {4, {BYTES, N16, WORDS, ROOM}},
    {1, {N8}},
    {3, {BYTES, BYTES, ROOM}},
    {1, {N32}},
    {0, {NONE}},
    {4, {N32, RECORDS, BYTES, BYTES}},
    {2, {N64, N64}},
    {4, {BYTES, N16, BYTES, WORD_ROOM}},
    {4, {BYTES, N16, WORDS, ROOM}},
    {2, {BYTES, N32}},
    {4, {BYTES, N16, BYTES, WORD_ROOM}},
    {4, {BYTES, N16, WORDS, ROOM}},
    [20] = {5, {BYTES, N32, N32, BYTES, ROOM}},
    {1, {N32}},
    {1, {N32}},
    {3, {N8, N32, LIST}},
    [81] = {3, {N8, BYTES, BYTES}},
    {8, {N8, N32, N32, N8, N32, N32, BYTES, ROOM}},
    {2, {N8, BYTES}},
    {7, {N32, N32, N32, WORDS, BYTES, BYTES, ROOM}},
    {2, {N32, N32}},
    {1, {N32}},
    {8, {N32, N32, N32, WORDS, WORD_ROOM, BYTES, BYTES, ROOM}},
    {7, {N32, N32, BYTES, N32, N32, BYTES, ROOM}},
};

/* 18, 19 and 24 to 80 are none. */
static int is_code(unsigned code)
{
    return (1 <= code && code <= 17) || (20 <= code && code <= 23) || (81 <= code && code < CODES);
}

uint64_t number_at(const uint8_t *bytes, size_t width)
{
    uint64_t number = 0;
    while (width-- > 0)
        number = number << 8 | *bytes++;
    return number;
}

static int is_number(unsigned kind)
{
    return kind < BYTES;
}

/* Whether an argument of this kind may be these bytes. */
static int takes(unsigned kind, const Argument *a)
{
    if (is_number(kind))
        return a->number <= kinds[kind].largest;
    if (kind == WORDS || kind == LIST)
        return a->length % 8 == 0;
    if (kind != RECORDS)
        return 1;
    for (size_t at = 0; at + RECORD <= a->length; at += RECORD)
        if (a->bytes[at + SEEN_AT] > 1)
            return 0;
    return a->length % RECORD == 0;
}

/* In reading order, each as soon as it is there: the head, and each argument's length; the rest when the whole call is there. */
Found next_call(const uint8_t *input, size_t filled, size_t at, Call *call)
{
    int good = 1;
    unsigned count;
    if (filled - at < HEAD)
        return UNFINISHED;
    call->code = (unsigned)number_at(input + at, 2);
    count = (unsigned)number_at(input + at + 2, 2);
    if (!is_code(call->code) || count != shapes[call->code].count)
        return BAD;
    at += HEAD;
    for (unsigned k = 0; k < count; k++) {
        unsigned kind = shapes[call->code].kind[k];
        Argument *a = &call->argument[k];
        if (filled - at < LENGTH)
            return UNFINISHED;
        a->length = (size_t)number_at(input + at, LENGTH);
        if (a->length < kinds[kind].fewest || a->length > kinds[kind].most)
            return BAD;
        at += LENGTH;
        if (filled - at < a->length)
            return UNFINISHED;
        a->bytes = input + at;
        a->number = is_number(kind) ? number_at(a->bytes, a->length) : 0;
        good = good && takes(kind, a);
        at += a->length;
    }
    call->end = at;
    return good ? WHOLE : BAD;
}
