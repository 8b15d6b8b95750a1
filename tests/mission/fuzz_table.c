/* Tables that keep every rule, and words that are a value of one of their types. */
#include "fuzz.h"

#include <string.h>

static const uint8_t widths[13] = {1, 1, 1, 2, 4, 8, 1, 1, 2, 4, 8, 4, 8};

enum { BASE, ENUM, RECORD, FIXED, ARRAY };

/* Words of the sections before their index; the largest ID that an operation can have. */
enum { FIRST_SECTIONS = 8 };
#define LAST_ID UINT32_C(0xFFFFFFFE)

/* A word of a base code. */
static uint64_t make_word(unsigned code)
{
    uint64_t bits = any(), edge = one_in(4) ? 0 : one_in(3) ? ~UINT64_C(0) : bits;
    switch (code) {
    case 0: return edge & 1;
    case 1: return (uint64_t)(int64_t)(int8_t)edge;
    case 2: return edge & 0x7F;
    case 3: return (uint64_t)(int64_t)(int16_t)edge;
    case 4: return (uint64_t)(int64_t)(int32_t)edge;
    case 5:
    case 10: return edge;
    case 8: return edge & 0xFFFF;
    case 9: return edge & 0xFFFFFFFF;
    case 11: return edge & 0x807FFFFF;
    case 12: return edge & UINT64_C(0x800FFFFFFFFFFFFF);
    default: return edge & 0xFF;
    }
}

static void put(Table *t, uint64_t number, int width)
{
    while (width-- > 0)
        t->bytes[t->length++] = (uint8_t)(number >> 8 * width);
}

/* So many distinct values of the code behind the others. */
static size_t make_values(Table *t, unsigned code, size_t count)
{
    size_t first = t->values_count;
    for (size_t tries = 0; tries < 4 * count && t->values_count - first < count && t->values_count < 1024; tries++) {
        uint64_t value = make_word(code);
        size_t k = first;
        while (k < t->values_count && t->values[k] != value)
            k++;
        if (k == t->values_count)
            t->values[t->values_count++] = value;
    }
    return t->values_count - first;
}

/* One type; answers its largest size. What would be too large, or has no smaller type to name, is a base. */
static size_t make_type(Table *t, size_t i, const size_t *sizes)
{
    size_t size = 0, kind = i == 0 ? below(2) : below(5), count = 1 + below(one_in(8) ? 40 : 5);
    t->first[i] = t->count[i] = 0;
    t->kind[i] = (uint16_t)kind;
    if (kind == ENUM) {
        unsigned code = one_in(9) ? 1 : 3 + (unsigned)below(8);
        t->of[i] = (uint16_t)code;
        t->first[i] = (uint16_t)t->values_count;
        t->count[i] = (uint16_t)make_values(t, code, count);
        size = widths[code];
    }
    if (kind == RECORD && t->members_count + count <= 1024) {
        t->of[i] = 0;
        t->first[i] = (uint16_t)t->members_count;
        t->count[i] = (uint16_t)count;
        for (size_t k = 0; k < count; k++) {
            size_t member = below(i);
            t->members[t->members_count++] = (uint16_t)member;
            size += sizes[member];
        }
    }
    /* As many leaves as a type with a plan can have, or one off. */
    if (kind == FIXED && one_in(6))
        count = 511 + below(3);
    if (kind >= FIXED) {
        t->of[i] = (uint16_t)below(i);
        t->count[i] = (uint16_t)count;
        size = count * sizes[t->of[i]] + (kind == ARRAY ? 4 : 0);
    }
    if (kind == BASE || t->count[i] == 0 || size > (one_in(20) ? 65536 : 600)) {
        t->kind[i] = BASE;
        t->of[i] = (uint16_t)below(13);
        t->first[i] = t->count[i] = 0;
        size = widths[t->of[i]];
    }
    return size;
}

/* The operations, in entries of both widths, and their index; IDs rise up to the last that there is. */
static void put_operations(Table *t)
{
    uint32_t id = 0;
    size_t step = 4000000000 / (t->operations + 1);
    fill(&t->sections, sizeof t->sections);
    put(t, t->operations, 2);
    for (size_t i = 0; i < t->operations; i++) {
        int none = one_in(4), wide = one_in(2);
        id = i + 1 == t->operations && one_in(16) ? LAST_ID : id + 1 + (uint32_t)below(one_in(2) ? 3 : step);
        t->ids[i] = id;
        t->kinds[i] = (uint16_t)(wide ? NYR_REQUEST_SENT + below(2) : none ? NYR_EVENT : below(2));
        t->carries[i] = (uint16_t)(none ? NYR_NO_PAYLOAD : below(t->types));
        t->responds[i] = (uint16_t)(!wide || one_in(4) ? NYR_NO_PAYLOAD : below(t->types));
        t->sections.words[FIRST_SECTIONS + i] = (uint64_t)id << 32 | t->length;
        put(t, id, 4);
        put(t, t->kinds[i], 2);
        put(t, t->carries[i], 2);
        if (wide)
            put(t, t->responds[i], 2);
    }
}

void make_table(Table *t)
{
    size_t sizes[256], counts[4], at = 2;
    t->members_count = t->values_count = t->length = 0;
    t->types = one_in(16) ? 256 : 1 + below(12);
    for (size_t i = 0; i < t->types; i++)
        sizes[i] = make_type(t, i, sizes);
    t->operations = one_in(64) ? MOST_OPERATIONS - below(3) : below(one_in(8) ? 64 : 6);
    put(t, t->types, 2);
    for (size_t i = 0; i < t->types; i++) {
        put(t, t->kind[i], 2);
        put(t, t->of[i], 2);
        put(t, t->first[i], 2);
        put(t, t->count[i], 2);
    }
    put(t, t->members_count, 2);
    for (size_t i = 0; i < t->members_count; i++)
        put(t, t->members[i], 2);
    put(t, t->values_count, 2);
    for (size_t i = 0; i < t->values_count; i++)
        put(t, t->values[i], 8);
    put_operations(t);
    counts[0] = t->types;
    counts[1] = t->members_count;
    counts[2] = t->values_count;
    counts[3] = t->operations;
    for (int s = 0; s < 4; s++) {
        t->sections.words[2 * s] = at;
        t->sections.words[2 * s + 1] = counts[s];
        at += counts[s] * (s == 1 ? 2 : 8) + 2;
    }
}

nyr_sections make_sections(const Table *t)
{
    nyr_sections made = t->sections;
    if (one_in(16)) {
        static const uint64_t edges[] = {257, 1025, 65536, UINT64_C(1) << 32};
        size_t at = below(8);
        made.words[at] = one_in(2) ? edges[below(4)] : one_in(2) ? below(23000) : narrow();
    }
    /* An index that says another ID, another place, at the table's end or behind it, or any words. */
    if (one_in(16) && t->operations > 0) {
        uint64_t *word = &made.words[FIRST_SECTIONS + below(t->operations)], id = *word >> 32;
        switch (below(4)) {
        case 0: *word = (id + 1) << 32 | (uint32_t)*word; break;
        case 1: *word = id << 32 | (uint32_t)narrow(); break;
        case 2: *word = id << 32 | (uint32_t)(t->length - below(12)); break;
        default: fill(&made.words[FIRST_SECTIONS], t->operations * sizeof *word); break;
        }
    }
    if (one_in(64))
        fill(&made, sizeof made);
    return made;
}

uint32_t make_id_of(const Table *t, unsigned kind)
{
    size_t from = t->operations > 0 ? below(t->operations) : 0;
    if (t->operations == 0 || one_in(8))
        return (uint32_t)(one_in(2) ? below(100) : narrow());
    for (size_t i = 0; i < t->operations && !one_in(16); i++)
        if (t->kinds[(from + i) % t->operations] == kind)
            return t->ids[(from + i) % t->operations];
    return t->ids[from];
}

int lie_in(const nyr_sections *sections, size_t bytes)
{
    static const size_t entry[4] = {8, 2, 8, 8}, most[4] = {256, 1024, 1024, 1024};
    for (int s = 0; s < 4; s++)
        if (sections->words[2 * s + 1] > most[s] || sections->words[2 * s] > bytes ||
            sections->words[2 * s + 1] * entry[s] > bytes - sections->words[2 * s])
            return 0;
    return 1;
}

static int walk(const Table *t, size_t i, uint64_t *words, size_t room, size_t *at)
{
    size_t count = t->count[i];
    if (t->kind[i] == RECORD) {
        for (size_t k = 0; k < count; k++)
            if (!walk(t, t->members[t->first[i] + k], words, room, at))
                return 0;
        return 1;
    }
    if (t->kind[i] == FIXED || t->kind[i] == ARRAY) {
        if (t->kind[i] == ARRAY) {
            count = below(count + 1);
            if (*at == room)
                return 0;
            words[(*at)++] = count;
        }
        for (size_t k = 0; k < count; k++)
            if (!walk(t, t->of[i], words, room, at))
                return 0;
        return 1;
    }
    if (*at == room)
        return 0;
    words[(*at)++] = t->kind[i] == ENUM ? t->values[t->first[i] + below(count)] : make_word(t->of[i]);
    return 1;
}

size_t make_words(const Table *t, size_t type, uint64_t *words, size_t room)
{
    size_t at = 0;
    return walk(t, type, words, room, &at) ? at : 0;
}
