/* Tables checked and looked up, payloads unpacked and packed. */
#include "fuzz.h"

#include <string.h>

enum { MOST_WORDS = 70000, MOST_BYTES = 70000 };

#define CHECKING (N(30) | N(31) | N(32) | N(33))
#define WALKING (N(40) | N(41) | N(42) | N(43) | N(44) | N(45))

static Table table;
static uint64_t words[MOST_WORDS], first_words[MOST_WORDS];
static uint8_t payload[MOST_BYTES], first_bytes[MOST_BYTES];

/* The sections lie one behind another, with a count between them, and are the whole table; the index is that of the operations, in
 * entries of 10 bytes where the kind is 2 or 3. */
static void check_sections(const nyr_sections *sections, size_t bytes)
{
    static const size_t widths[3] = {8, 2, 8}, most[4] = {256, 1024, 1024, 1024};
    size_t at = 0;
    for (int s = 0; s < 4; s++) {
        expect(sections->words[2 * s] == at + 2 && sections->words[2 * s + 1] <= most[s], "a section in another place");
        at += 2 + (s < 3 ? (size_t)sections->words[2 * s + 1] * widths[s] : 0);
    }
    for (size_t i = 0; i < sections->words[NYR_OPERATIONS_COUNT]; i++) {
        uint64_t kind = be(table.bytes + at + 4, 2);
        expect(sections->words[8 + i] == (be(table.bytes + at, 4) << 32 | at), "another index");
        at += kind == NYR_REQUEST_SENT || kind == NYR_REQUEST_SERVED ? 10 : 8;
    }
    expect(at == bytes, "sections that are not the whole table");
}

/* Whatever the index says, what is found is what the bytes say at one of its places, bears the ID, and lies in the table whole. */
static int stands_there(const nyr_sections *sections, size_t bytes, uint32_t id, const nyr_operation *found)
{
    for (size_t i = 0; i < sections->words[NYR_OPERATIONS_COUNT]; i++) {
        size_t at = (uint32_t)sections->words[8 + i];
        const uint8_t *entry = table.bytes + at;
        int wide = found->kind == NYR_REQUEST_SENT || found->kind == NYR_REQUEST_SERVED;
        if (sections->words[8 + i] >> 32 == id && at + (wide ? 10 : 8) <= bytes && be(entry, 4) == id &&
            be(entry + 4, 2) == found->kind && be(entry + 6, 2) == found->carries &&
            found->responds == (wide ? be(entry + 8, 2) : NYR_NO_PAYLOAD))
            return 1;
    }
    return 0;
}

static void find(size_t bytes, int good)
{
    nyr_sections sections = make_sections(&table);
    uint32_t id = make_id_of(&table, (unsigned)below(4)), number;
    size_t i = 0;
    calling("nyr_find");
    uint8_t *lent = lend(TABLE, table.bytes, bytes, 1);
    nyr_sections *lent_sections = lend(SECTIONS, &sections, 1, sizeof sections);
    nyr_operation *answer = lend_answer(ANSWER, sizeof *answer, sizeof answer->found);
    number = called(nyr_find(lent, bytes, lent_sections, id, answer), N(30));
    expect((number == NYR_TABLE_LENGTH) == !lie_in(&sections, bytes), "30 at the wrong place");
    if (number != 0)
        return;
    expect(answer->found <= 1, "found more than once");
    if (answer->found)
        expect(stands_there(&sections, bytes, id, answer), "found what does not stand there");
    else
        expect(answer->kind == 0 && answer->carries == 0 && answer->responds == 0, "kind or type of nothing");
    if (!good || differ(&sections, &table.sections, sizeof sections))
        return;
    while (i < table.operations && table.ids[i] != id)
        i++;
    expect(answer->found == (i < table.operations), "not found, or found where it is not");
    expect(!answer->found || (answer->kind == table.kinds[i] && answer->carries == table.carries[i] &&
                              answer->responds == table.responds[i]),
           "its kind or type, or its response's");
}

void fuzz_table(void)
{
    size_t bytes, written;
    uint32_t number;
    int good = !one_in(4);
    make_table(&table);
    bytes = table.length;
    if (!good) {
        scramble(table.bytes, one_in(2) ? 40 < bytes ? 40 : bytes : bytes);
        bytes = one_in(3) ? near(bytes) % sizeof table.bytes : bytes;
    }
    calling("nyr_check_table");
    uint8_t *lent = lend(TABLE, table.bytes, bytes, 1);
    nyr_sections *out = lend_answer(SECTIONS, sizeof *out, sizeof *out->words);
    number = nyr_check_table(lent, bytes, out);
    written = 8 + (number == 0 ? (size_t)out->words[NYR_OPERATIONS_COUNT] : 0);
    may_change(SECTIONS, 0, written, sizeof *out->words);
    called(number, CHECKING);
    expect(!good || number == 0, "a good table is refused");
    if (number == 0) {
        check_sections(out, bytes);
        expect(!good || !differ(out, &table.sections, written * sizeof *out->words), "sections of another table");
    }
    find(bytes, good);
}

/* Words that were given are a value: they pack, to as many bytes as they came from. */
static void check_value(size_t type, size_t count, size_t length)
{
    nyr_walked walked;
    calling("nyr_pack_in, of what was unpacked");
    expect(nyr_pack_in(table.bytes, table.length, &table.sections, (uint16_t)type, first_words, count, first_bytes,
                       MOST_BYTES, &walked) == 0 &&
               walked.given == length,
           "unpacked words are no value");
}

/* The words of a value, and through nyr_pack_in its payload: both right, before anything is spoilt. */
static size_t make_payload(size_t type, size_t *count)
{
    nyr_walked walked;
    *count = make_words(&table, type, words, 4000);
    if (*count == 0)
        return 0;
    calling("nyr_pack_in, of a value");
    expect(nyr_pack_in(table.bytes, table.length, &table.sections, (uint16_t)type, words, *count, payload, MOST_BYTES,
                       &walked) == 0,
           "a value is refused");
    return (size_t)walked.given;
}

static int tells_where(uint32_t number)
{
    return NYR_INPUT_SHORT <= number && number <= NYR_ARRAY_COUNT;
}

void check_fields(uint32_t number)
{
    if (tells_where(number))
        must_tell(ANSWER, 1, 3, sizeof(uint64_t));
    else
        may_change(ANSWER, 0, 1, sizeof(uint64_t));
}

/* The payload's first bytes unpacked, and the first words packed, into room that is enough. */
typedef uint32_t First(int in, const nyr_sections *sections, size_t type, size_t length, nyr_walked *walked);

static uint32_t unpack_first(int in, const nyr_sections *sections, size_t type, size_t length, nyr_walked *walked)
{
    static uint64_t out[MOST_WORDS];
    if (!in)
        return nyr_unpack(table.bytes, table.length, (uint16_t)type, payload, length, out, MOST_WORDS, walked);
    return nyr_unpack_in(table.bytes, table.length, sections, (uint16_t)type, payload, length, out, MOST_WORDS, walked);
}

static uint32_t pack_first(int in, const nyr_sections *sections, size_t type, size_t length, nyr_walked *walked)
{
    static uint8_t out[8 * MOST_WORDS];
    if (!in)
        return nyr_pack(table.bytes, table.length, (uint16_t)type, words, length, out, sizeof out, walked);
    return nyr_pack_in(table.bytes, table.length, sections, (uint16_t)type, words, length, out, sizeof out, walked);
}

/* Cut off where it stopped, the input ends too early just there, or behind 41 it is whole, and all its leaves came before. Of 42
 * and 43 nothing matters that lies behind the item, which is no longer than this. Of 40 the last byte or word completes a leaf, and
 * moves the place, or neither. */
static void check_spot(First *first, size_t item, int in, const nyr_sections *sections, size_t type, size_t length,
                       uint32_t number, nyr_walked was)
{
    nyr_walked now = was;
    size_t at = (size_t)was.at;
    uint32_t again;
    calling(first == pack_first ? "nyr_pack, cut off where it stopped" : "nyr_unpack, cut off where it stopped");
    expect(at <= length && (at < length || number == NYR_INPUT_SHORT), "a place that is not there");
    expect(first != pack_first || was.at == was.leaves, "leaves that are not words");
    again = first(in, sections, type, at, &now);
    if (number == NYR_INPUT_LEFT) {
        expect(again == 0, "what lies before what is left over is no value");
        expect(first == pack_first || now.given == was.leaves, "other leaves than the value has");
        return;
    }
    expect(again == NYR_INPUT_SHORT && now.at == was.at && now.leaves == was.leaves, "cut there it stops elsewhere");
    if (number != NYR_INPUT_SHORT) {
        again = first(in, sections, type, length - at < item ? length : at + item, &now);
        expect(again == number && now.at == was.at && now.leaves == was.leaves, "what lies behind the item matters");
    } else if (length > 0) {
        again = first(in, sections, type, length - 1, &now);
        expect(again == number && (now.at == was.at) == (now.leaves == was.leaves), "a place where no leaf begins");
    }
}

void fuzz_unpack(void)
{
    size_t type, count, length, room;
    nyr_sections sections;
    nyr_walked first = {0, 0, 0};
    uint32_t number = 0, again;
    int whole = !one_in(3), same, spoilt = 0;
    make_table(&table);
    type = below(table.types);
    length = make_payload(type, &count);
    room = whole ? count + below(3) : near(count) % MOST_WORDS;
    if (!whole) {
        scramble(payload, length);
        length = near(length) % MOST_BYTES;
        type = near(type);
    }
    if (one_in(12)) {
        spoilt = 1;
        scramble(table.bytes, table.length);
    }
    sections = make_sections(&table);
    same = !spoilt && !differ(&sections, &table.sections, sizeof sections);
    for (int in = 0; in < 2; in++) {
        calling(in ? "nyr_unpack_in" : "nyr_unpack");
        uint8_t *lent_table = lend(TABLE, table.bytes, table.length, 1), *lent = lend(PAYLOAD, payload, length, 1);
        nyr_sections *lent_sections = lend(SECTIONS, &sections, 1, sizeof sections);
        uint64_t *out = lend(WORDS, NULL, room, sizeof *out);
        nyr_walked *walked = lend_answer(ANSWER, sizeof *walked, sizeof walked->given);
        again =
            in ? nyr_unpack_in(lent_table, table.length, lent_sections, (uint16_t)type, lent, length, out, room, walked)
               : nyr_unpack(lent_table, table.length, (uint16_t)type, lent, length, out, room, walked);
        may_change(WORDS, 0, again == 0 ? (size_t)walked->given : 0, sizeof *out);
        check_fields(again);
        called(again, CHECKING | WALKING);
        expect(!in || (again == NYR_TABLE_LENGTH) == !lie_in(&sections, table.length), "30 at the wrong place");
        if (again == 0)
            expect(walked->given <= room && walked->given <= length, "more words than bytes");
        if (whole && count > 0 && (in ? same : !spoilt))
            expect(again == 0 && walked->given == count && !differ(out, words, count * sizeof *out),
                   "not the words that were packed");
        if (!in) {
            number = again;
            first = *walked;
            copy(first_words, out, again == 0 ? (size_t)first.given * sizeof *out : 0);
        } else if (same) {
            expect(again == number && !differ(walked, &first, sizeof first) &&
                       (again != 0 || !differ(out, first_words, (size_t)first.given * sizeof *out)),
                   "by sections another answer");
        }
        if (tells_where(again))
            check_spot(unpack_first, 8, in, &sections, type, length, again, *walked);
    }
    if (number == 0 && !spoilt)
        check_value(type, (size_t)first.given, length);
}

void fuzz_pack(void)
{
    size_t type, count, length, room;
    nyr_sections sections;
    nyr_walked first = {0, 0, 0};
    uint32_t number = 0, again;
    int whole = !one_in(3), same, spoilt = 0;
    make_table(&table);
    type = below(table.types);
    length = make_payload(type, &count);
    room = whole ? length + below(3) : near(length) % MOST_BYTES;
    if (!whole) {
        size_t at = below(count + 1);
        words[at] = one_in(2) ? narrow() : below(300);
        count = near(count) % 5000;
        type = near(type);
    }
    if (one_in(12)) {
        spoilt = 1;
        scramble(table.bytes, table.length);
    }
    sections = make_sections(&table);
    same = !spoilt && !differ(&sections, &table.sections, sizeof sections);
    for (int in = 0; in < 2; in++) {
        calling(in ? "nyr_pack_in" : "nyr_pack");
        uint8_t *lent_table = lend(TABLE, table.bytes, table.length, 1), *out = lend(OUT, NULL, room, 1);
        nyr_sections *lent_sections = lend(SECTIONS, &sections, 1, sizeof sections);
        uint64_t *lent = lend(WORDS, words, count, sizeof *lent);
        nyr_walked *walked = lend_answer(ANSWER, sizeof *walked, sizeof walked->given);
        again =
            in ? nyr_pack_in(lent_table, table.length, lent_sections, (uint16_t)type, lent, count, out, room, walked)
               : nyr_pack(lent_table, table.length, (uint16_t)type, lent, count, out, room, walked);
        may_change(OUT, 0, again == 0 ? (size_t)walked->given : 0, 1);
        check_fields(again);
        called(again, CHECKING | WALKING);
        expect(!in || (again == NYR_TABLE_LENGTH) == !lie_in(&sections, table.length), "30 at the wrong place");
        if (again == 0)
            expect(walked->given <= room && walked->given <= 8 * count, "more bytes than words can be");
        if (whole && count > 0 && (in ? same : !spoilt))
            expect(again == 0 && walked->given == length && !differ(out, payload, length),
                   "not the payload that was packed");
        if (!in) {
            number = again;
            first = *walked;
            copy(first_bytes, out, again == 0 ? (size_t)first.given : 0);
        } else if (same) {
            expect(again == number && !differ(walked, &first, sizeof first) &&
                       (again != 0 || !differ(out, first_bytes, (size_t)first.given)),
                   "by sections another answer");
        }
        if (tells_where(again))
            check_spot(pack_first, 1, in, &sections, type, count, again, *walked);
    }
}
