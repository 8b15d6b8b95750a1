/* Payloads unpacked and packed: by a table, by the sections of its check, or by its plans, laid out for each call anew. */
#include "answers.h"

#include <stdio.h>

static uint64_t words[MOST_WORDS], plans[NYR_PLANS_WORDS];
static size_t plans_length;

/* Whether the table can be gone by that way; where not, the number is told. Plans are lent no word more than they need. */
static int ready(Way way, const Argument *table, nyr_sections *sections)
{
    if (way == OF_TABLE)
        return 1;
    if (refused(nyr_check_table(table->bytes, table->length, sections)))
        return 0;
    return way == IN_SECTIONS || (!refused(nyr_plans_length(table->bytes, table->length, sections, &plans_length)) &&
                                  !refused(nyr_plans(table->bytes, table->length, sections, plans, plans_length)));
}

void unpack(const Argument *a, Way way)
{
    uint32_t number;
    size_t room = (size_t)a[3].number;
    nyr_walked walked;
    nyr_sections sections;
    uint16_t type = (uint16_t)a[1].number;
    if (!ready(way, &a[0], &sections))
        return;
    if (way == BY_PLANS)
        number = nyr_unpack_by(a[0].bytes, a[0].length, &sections, plans, plans_length, type, a[2].bytes, a[2].length,
                               words, room, &walked);
    else if (way == IN_SECTIONS)
        number = nyr_unpack_in(a[0].bytes, a[0].length, &sections, type, a[2].bytes, a[2].length, words, room, &walked);
    else
        number = nyr_unpack(a[0].bytes, a[0].length, type, a[2].bytes, a[2].length, words, room, &walked);
    if (stopped(number, &walked))
        return;
    printf(walked.given == 0 ? "words -" : "words");
    for (size_t i = 0; i < walked.given; i++)
        put_number(words[i]);
}

void pack(const Argument *a, Way way)
{
    uint32_t number;
    size_t count = a[2].length / 8, room = (size_t)a[3].number;
    nyr_walked walked;
    nyr_sections sections;
    uint16_t type = (uint16_t)a[1].number;
    for (size_t i = 0; i < count; i++)
        words[i] = number_at(a[2].bytes + 8 * i, 8);
    if (!ready(way, &a[0], &sections))
        return;
    if (way == BY_PLANS)
        number = nyr_pack_by(a[0].bytes, a[0].length, &sections, plans, plans_length, type, words, count, output, room,
                             &walked);
    else if (way == IN_SECTIONS)
        number = nyr_pack_in(a[0].bytes, a[0].length, &sections, type, words, count, output, room, &walked);
    else
        number = nyr_pack(a[0].bytes, a[0].length, type, words, count, output, room, &walked);
    if (!stopped(number, &walked))
        put_output(number, "bytes", (size_t)walked.given);
}
