/* Plans laid out, and payloads by them: by the table's own the answers are those by its sections; by any other words nothing is
 * touched, and one input has one answer. */
#include "fuzz.h"

#include <string.h>

enum {
    MOST_WORDS = 70000,
    MOST_BYTES = 70000,
    MOST_LEAVES = 512, /* of a type that has a plan */
    UNWRITTEN = 0xC3
};

#define BY (N(30) | N(32) | N(40) | N(41) | N(42) | N(43) | N(44) | N(45))

static Table table;
static nyr_sections sections;
static uint64_t words[MOST_WORDS], plans[NYR_PLANS_WORDS], others[NYR_PLANS_WORDS];
static size_t plans_length, others_length, leaves[256];
static uint8_t payload[MOST_BYTES];
static int same; /* whether table and sections are as they were made */

uint64_t plans_met;

/* How many leaves a type has that can have a plan, else 0; from those of the types before it. */
static size_t count_leaves(size_t i)
{
    size_t sum = 0;
    switch (table.kind[i]) {
    case 0:
    case 1: return 1;
    case 2:
        for (size_t k = 0; k < table.count[i]; k++) {
            size_t member = leaves[table.members[table.first[i] + k]];
            if (member == 0)
                return 0;
            sum += member;
        }
        break;
    case 3: sum = table.count[i] * leaves[table.of[i]]; break;
    default: break;
    }
    return sum <= MOST_LEAVES ? sum : 0;
}

/* A table, sometimes spoilt, with sections that mostly are its own. */
static void make(void)
{
    make_table(&table);
    for (size_t i = 0; i < table.types; i++)
        leaves[i] = count_leaves(i);
    sections = make_sections(&table);
    same = !differ(&sections, &table.sections, sizeof sections);
}

static void spoil(void)
{
    if (one_in(12)) {
        same = 0;
        scramble(table.bytes, table.length);
    }
}

/* How many words the plans need, which of a table that was made is known; of sections that do not lie in it none. */
static size_t ask_length(void)
{
    size_t needed = 1 + table.types;
    uint32_t number;
    calling("nyr_plans_length");
    uint8_t *lent = lend(TABLE, table.bytes, table.length, 1);
    nyr_sections *lent_sections = lend(SECTIONS, &sections, 1, sizeof sections);
    size_t *answer = lend_answer(ANSWER, sizeof *answer, sizeof *answer);
    number = called(nyr_plans_length(lent, table.length, lent_sections, answer), N(30));
    expect((number == NYR_TABLE_LENGTH) == !lie_in(&sections, table.length), "30 at the wrong place");
    if (number != 0)
        return 0;
    for (size_t i = 0; i < table.types; i++)
        needed += leaves[i];
    expect(!same || *answer == needed, "another number of words than the types' leaves need");
    expect(*answer <= NYR_PLANS_WORDS, "more words than any table needs");
    return *answer;
}

/* Lays the plans out in words that are enough, or too few by some; where not, the plans are none. */
static void lay(void)
{
    size_t needed = ask_length(), room = needed + (one_in(2) ? 0 : below(4));
    uint32_t number;
    if (one_in(6) && needed > 0)
        room = one_in(2) ? needed - 1 : below(needed);
    calling("nyr_plans");
    uint8_t *lent = lend(TABLE, table.bytes, table.length, 1);
    nyr_sections *lent_sections = lend(SECTIONS, &sections, 1, sizeof sections);
    uint64_t *out = lend(PLANS, NULL, room, sizeof *out);
    number = nyr_plans(lent, table.length, lent_sections, out, room);
    may_change(PLANS, 0, needed < room ? needed : room, sizeof *out);
    called(number, N(30) | N(10));
    expect((number == NYR_TABLE_LENGTH) == !lie_in(&sections, table.length), "30 at the wrong place");
    expect(number == NYR_TABLE_LENGTH || (number == NYR_NO_ROOM) == (room < needed), "10 at the wrong place");
    plans_met |= N(number == NYR_NO_ROOM ? 0 : 1);
    plans_length = number == 0 && room <= NYR_PLANS_WORDS ? room : 0;
    copy(plans, out, plans_length * sizeof *plans);
}

/* Words that are not the table's plans: another table's, any words, or its own cut off or changed. */
static void forge(void)
{
    switch (plans_length == 0 ? 0 : below(5)) {
    case 0:
        plans_length = others_length;
        copy(plans, others, others_length * sizeof *plans);
        break;
    case 1: plans_length = below(plans_length); break;
    case 2: fill(plans, plans_length * sizeof *plans); break;
    case 3:
        /* An index that leads anywhere, and runs of a few leaves or values. */
        plans[0] = near(table.types);
        for (size_t i = 1; i < plans_length; i++)
            plans[i] = i <= table.types ? below(plans_length + 2) << 32 | below(5) << 16 | below(520)
                                        : below(table.length + 9) << 40 | below(4) << 24 | below(5) << 8 | below(15);
        break;
    default:
        for (size_t k = 1 + below(4); k > 0; k--) {
            size_t at = below(plans_length);
            plans[at] = one_in(4) ? narrow() : plans[at] ^ UINT64_C(1) << below(64);
        }
    }
}

/* A payload of so many bytes unpacked, or so many words packed, into room of so many elements. */
typedef struct {
    int packing;
    uint16_t type;
    size_t length, room;
} Walk;

/* What is given back and left in the output, from what stood there. */
typedef struct {
    uint32_t number;
    nyr_walked walked;
    uint64_t out[MOST_WORDS];
} Left;

static Left was, now;

static size_t width_of(const Walk *w)
{
    return w->packing ? 1 : sizeof *words;
}

/* By sections, in memory of its own. */
static void walk_in(const Walk *w, Left *left)
{
    memset(&left->walked, UNWRITTEN, sizeof left->walked);
    left->number = w->packing ? nyr_pack_in(table.bytes, table.length, &sections, w->type, words, w->length,
                                            (uint8_t *)left->out, w->room, &left->walked)
                              : nyr_unpack_in(table.bytes, table.length, &sections, w->type, payload, w->length,
                                              left->out, w->room, &left->walked);
}

/* By plans, everything lent. */
static void walk_by(const Walk *w, Left *left)
{
    int out = w->packing ? OUT : WORDS, from = w->packing ? WORDS : PAYLOAD;
    calling(w->packing ? "nyr_pack_by" : "nyr_unpack_by");
    uint8_t *lent_table = lend(TABLE, table.bytes, table.length, 1);
    nyr_sections *lent_sections = lend(SECTIONS, &sections, 1, sizeof sections);
    uint64_t *lent_plans = lend(PLANS, plans, plans_length, sizeof *plans);
    void *lent_out = lend(out, left->out, w->room, width_of(w));
    void *lent = w->packing ? lend(from, words, w->length, sizeof *words) : lend(from, payload, w->length, 1);
    nyr_walked *walked = lend_answer(ANSWER, sizeof *walked, sizeof walked->given);
    left->number = w->packing ? nyr_pack_by(lent_table, table.length, lent_sections, lent_plans, plans_length, w->type,
                                            lent, w->length, lent_out, w->room, walked)
                              : nyr_unpack_by(lent_table, table.length, lent_sections, lent_plans, plans_length,
                                              w->type, lent, w->length, lent_out, w->room, walked);
    may_change(out, 0, left->number == 0 ? (size_t)walked->given : 0, width_of(w));
    check_fields(left->number);
    called(left->number, BY);
    left->walked = *walked;
    copy(left->out, lent_out, w->room * width_of(w));
}

static int alike(const Walk *w)
{
    return now.number == was.number && !differ(&now.walked, &was.walked, sizeof now.walked) &&
           !differ(now.out, was.out, w->room * width_of(w));
}

/* The same bytes before both. */
static void renew(const Walk *w)
{
    fill(was.out, w->room * width_of(w));
    copy(now.out, was.out, w->room * width_of(w));
}

/* A value of a type, whole or spoilt, with the room that it takes, more or less. */
static Walk make_walk(void)
{
    Walk w;
    nyr_walked walked;
    size_t type = below(table.types), count = make_words(&table, type, words, 4000);
    w.packing = (int)below(2);
    calling("nyr_pack_in, of a value");
    walked.given = 0;
    expect(count == 0 || nyr_pack_in(table.bytes, table.length, &table.sections, (uint16_t)type, words, count, payload,
                                     MOST_BYTES, &walked) == 0,
           "a value is refused");
    w.length = w.packing ? count : (size_t)walked.given;
    w.room = (w.packing ? (size_t)walked.given : count) + below(3);
    if (one_in(3)) {
        size_t at = below(count + 1);
        words[at] = one_in(2) ? narrow() : below(300);
        scramble(payload, (size_t)walked.given);
        w.length = near(w.length) % MOST_WORDS;
        w.room = near(w.room) % MOST_WORDS;
        type = near(type);
    }
    w.type = (uint16_t)type;
    return w;
}

/* Which ways were gone by the table's own plans. */
static void meet(const Walk *w)
{
    int planned = w->type < table.types && leaves[w->type] > 0;
    if (same && (now.number == 0 || now.number == NYR_VALUE))
        plans_met |= N(2 + 4 * planned + 2 * w->packing + (now.number == 0));
}

void fuzz_plans(void)
{
    Walk w;
    make();
    w = make_walk();
    spoil();
    lay();
    renew(&w);
    walk_by(&w, &now);
    walk_in(&w, &was);
    expect(alike(&w), "by plans another answer than by sections");
    if (plans_length > 0)
        meet(&w);
    if (one_in(2)) {
        forge();
        renew(&w);
        walk_by(&w, &now);
        walk_by(&w, &was);
        expect(alike(&w), "by the same plans another answer");
        walk_in(&w, &was);
        plans_met |= alike(&w) ? 0 : N(10);
    } else {
        others_length = plans_length;
        copy(others, plans, plans_length * sizeof *plans);
    }
}
