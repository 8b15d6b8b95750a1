/* Set-up, joining and cutting. */
#include "fuzz.h"

#include <string.h>

enum { MOST_IDS = 64, MOST_ROOMS = NYR_CHANNELS * NYR_LARGEST_ROOM };

/* One joiner is kept from call to call, so that messages are joined and not only started. */
static nyr_joiner joiner;
static uint8_t rooms[MOST_ROOMS], datagram[70000], uncut[70000];
static size_t rooms_length;

static size_t make_room(void)
{
    switch (below(12)) {
    case 0: return NYR_SMALLEST_ROOM;
    case 1: return one_in(8) ? NYR_LARGEST_ROOM : 1500;
    default: return NYR_SMALLEST_ROOM + below(300);
    }
}

static void make_ids(uint16_t *ids, size_t channels)
{
    size_t id = below(100);
    for (size_t k = 0; k < channels; k++) {
        ids[k] = (uint16_t)id;
        id += 1 + below(100);
        if (one_in(3) && k > 0) {
            size_t other = below(k);
            uint16_t swapped = ids[k];
            ids[k] = ids[other];
            ids[other] = swapped;
        }
    }
    if (one_in(20) && channels > 0)
        ids[channels - 1] = (uint16_t)(one_in(2) ? 4095 + below(3) : any());
    if (one_in(20) && channels > 0)
        ids[channels / 2] = ids[below(channels)];
}

static int good_sizes(size_t channels, size_t room, size_t length)
{
    return 1 <= channels && channels <= NYR_CHANNELS && NYR_SMALLEST_ROOM <= room && room <= NYR_LARGEST_ROOM &&
           length == channels * room;
}

static int good_ids(const nyr_channel *channel, size_t channels)
{
    for (size_t k = 0; k < channels; k++) {
        if (channel[k].sender > 4095)
            return 0;
        for (size_t j = 0; j < k; j++)
            if (channel[j].sender == channel[k].sender)
                return 0;
    }
    return 1;
}

void fuzz_setup(void)
{
    uint16_t ids[MOST_IDS];
    nyr_channel fresh[MOST_IDS];
    size_t channels = one_in(16) ? below(MOST_IDS + 1) : 1 + below(one_in(3) ? 32 : 4);
    size_t room = near(make_room()) & 0xFFFFFFFF, length = near(channels * room);
    uint32_t number;
    make_ids(ids, channels);
    memset(fresh, 0, sizeof fresh);
    for (size_t k = 0; k < channels; k++)
        fresh[k].sender = ids[k];
    calling("nyr_setup");
    uint16_t *lent_ids = lend(IDS, ids, channels, sizeof *ids);
    nyr_joiner *out = lend_answer(JOINER, sizeof *out, sizeof out->count);
    number = called(nyr_setup(out, lent_ids, channels, (uint32_t)room, length), N(20));
    expect((number == 0) == (good_sizes(channels, room, length) && good_ids(fresh, channels)), "20 at the wrong place");
    if (number != 0)
        return;
    expect(out->count == channels && out->room == room, "the joiner's sizes");
    expect(!differ(out->channel, fresh, sizeof out->channel), "a record is not fresh");
    joiner = *out;
    rooms_length = length;
}

/* A datagram that is mostly one of a channel's, and mostly the next one. */
static size_t make_datagram(void)
{
    size_t k = joiner.count >= 1 && joiner.count <= NYR_CHANNELS ? below(joiner.count) : 0;
    const nyr_channel *record = &joiner.channel[k];
    size_t sender = one_in(24) ? below(4096) : record->sender & 4095,
           counter = record->last + (one_in(8) ? below(3) : 1);
    size_t piece = 1 + below(one_in(3) ? 300 : 20), length;
    if (one_in(40))
        counter = (size_t)any();
    datagram[0] = (uint8_t)(below(4) << 4 | sender >> 8);
    datagram[1] = (uint8_t)sender;
    datagram[2] = (uint8_t)(counter >> 8);
    datagram[3] = (uint8_t)counter;
    length = NYR_DATAGRAM_HEADER + piece;
    if (one_in(200))
        length = one_in(2) ? NYR_LARGEST_DATAGRAM + below(3) : below(sizeof datagram);
    if (one_in(24))
        length = below(7);
    fill(datagram + NYR_DATAGRAM_HEADER, length > NYR_DATAGRAM_HEADER ? length - NYR_DATAGRAM_HEADER : 0);
    if (one_in(24))
        scramble(datagram, NYR_DATAGRAM_HEADER);
    return length;
}

static int is_joiner(const nyr_joiner *j, size_t length)
{
    if (!good_sizes(j->count, j->room, length) || !good_ids(j->channel, j->count))
        return 0;
    for (size_t k = 0; k < j->count; k++) {
        const nyr_channel *record = &j->channel[k];
        if (record->seen > 1 || record->last > 65535 || record->held > j->room)
            return 0;
    }
    return 1;
}

/* What an accepted datagram left: its outcome, its record, its bytes of the rooms, and a joiner that the next take
 * accepts. */
static void check_taken(const nyr_joiner *before, const nyr_joiner *after, const uint8_t *after_rooms,
                        const uint8_t *rooms_before, size_t length, const nyr_taken *taken)
{
    size_t sender = (size_t)(datagram[0] & 15) << 8 | datagram[1], counter = (size_t)datagram[2] << 8 | datagram[3];
    size_t piece = length - NYR_DATAGRAM_HEADER, k = 0, room = before->room, start;
    uint64_t missed;
    while (before->channel[k].sender != sender)
        k++;
    const nyr_channel *old = &before->channel[k], *now = &after->channel[k];
    missed = old->seen ? (counter + 65536 - old->last - 1) % 65536 : 0;
    start = k * room;
    expect(before->count == after->count && before->room == after->room, "the joiner's sizes changed");
    for (size_t i = 0; i < NYR_CHANNELS; i++)
        expect(i == k || !differ(&before->channel[i], &after->channel[i], sizeof *now), "another record changed");
    expect(taken->outcome >= NYR_REPEATED && taken->outcome <= NYR_TOO_LONG, "no such outcome");
    outcomes_met |= N(taken->outcome) | (taken->slice == NYR_IN_ROOMS ? N(0) : 0);
    if (taken->outcome == NYR_REPEATED) {
        expect(old->seen && old->last == counter && !differ(old, now, sizeof *now), "repeated, and something changed");
        missed = 0;
    } else {
        expect(now->sender == sender && now->seen == 1 && now->last == counter, "the counter is not noted");
    }
    expect(taken->missed == missed, "missed");
    expect((taken->outcome == NYR_DELIVERED) == (taken->slice != NYR_NOWHERE),
           "only a delivered message lies somewhere");
    if (taken->outcome == NYR_HELD) {
        expect(taken->bytes == now->held && piece <= now->held && now->held <= room && !taken->start, "held");
        start += now->held - piece;
    }
    if (taken->outcome == NYR_DELIVERED) {
        expect(now->held == 0, "delivered, and still held");
        if (taken->slice == NYR_IN_DATAGRAM) {
            expect(taken->start == NYR_DATAGRAM_HEADER && taken->bytes == piece,
                   "a delivered message outside its datagram");
            piece = 0;
        } else {
            expect(taken->slice == NYR_IN_ROOMS && taken->start == start && piece < taken->bytes &&
                       taken->bytes <= room,
                   "a delivered message outside its room");
            expect(taken->bytes == old->held + piece, "a delivered message of another length");
            start += taken->bytes - piece;
        }
    }
    if (taken->outcome == NYR_REPEATED || taken->outcome == NYR_STRAY || taken->outcome == NYR_TOO_LONG) {
        expect(taken->bytes == 0 && taken->start == 0, "bytes of what has none");
        piece = 0;
    }
    expect(!differ(rooms_before, after_rooms, start) && !differ(after_rooms + start, datagram + 4, piece) &&
               !differ(rooms_before + start + piece, after_rooms + start + piece, before->count * room - start - piece),
           "the rooms are not those with the piece in its place");
}

/* The kept joiner, sometimes with one field, or all, spoilt. */
static nyr_joiner make_joiner(void)
{
    nyr_joiner made = joiner;
    if (one_in(16)) {
        nyr_channel *record = &made.channel[below(1 + joiner.count % NYR_CHANNELS)];
        uint32_t *const fields[] = {&made.count,   &made.room,    &record->sender,
                                    &record->seen, &record->last, &record->held};
        size_t at = below(sizeof fields / sizeof *fields);
        *fields[at] = (uint32_t)(one_in(2) ? below(40) : narrow());
    }
    if (one_in(64))
        fill(&made, sizeof made);
    return made;
}

void fuzz_take(void)
{
    nyr_joiner before = make_joiner();
    uint64_t numbers = N(20) | N(21) | N(22) | N(23);
    size_t length = rooms_length, datagram_length = make_datagram();
    uint32_t number;
    if (one_in(24))
        length = near(length) % (MOST_ROOMS + 1);
    calling("nyr_take");
    nyr_joiner *state = lend(JOINER, &before, 1, sizeof *state);
    uint8_t *lent_rooms = lend(ROOMS, length <= rooms_length ? rooms : NULL, length, 1);
    uint8_t *lent_datagram = lend(DATAGRAM, datagram, datagram_length, 1);
    nyr_taken *taken = lend_answer(ANSWER, sizeof *taken, sizeof taken->outcome);
    copy(rooms, lent_rooms, length);
    may_change(JOINER, 0, 1, sizeof *state);
    may_change(ROOMS, 0, length, 1);
    number = called(nyr_take(state, lent_rooms, length, lent_datagram, datagram_length, taken), numbers);
    expect(is_joiner(&before, length) == (number != NYR_NO_JOINER), "20 at the wrong place");
    if (number != 0)
        return;
    check_taken(&before, state, lent_rooms, rooms, datagram_length, taken);
    joiner = *state;
    copy(rooms, lent_rooms, length);
    rooms_length = length;
    calling("nyr_take, again");
    state = lend(JOINER, &joiner, 1, sizeof *state);
    lent_rooms = lend(ROOMS, rooms, length, 1);
    taken = lend_answer(ANSWER, sizeof *taken, sizeof taken->outcome);
    expect(called(nyr_take(state, lent_rooms, length, NULL, 0, taken), numbers) == NYR_DATAGRAM_LENGTH,
           "a joiner that take left is no joiner");
}

static void check_cut(const uint8_t *out, size_t written, size_t length, size_t size, size_t sender, size_t first,
                      size_t piece)
{
    size_t count = (length + size - 1) / size, rest = length - piece * size, bytes = rest < size ? rest : size;
    size_t part = count == 1 ? 3 : piece == 0 ? 0 : piece + 1 == count ? 2 : 1;
    expect(written == NYR_DATAGRAM_HEADER + bytes, "a datagram of another length");
    expect(out[0] == (part << 4 | sender >> 8) && out[1] == (sender & 255), "the datagram's part and sender");
    expect(((size_t)out[2] << 8 | out[3]) == (first + piece) % 65536, "the datagram's counter");
    expect(!differ(out + NYR_DATAGRAM_HEADER, uncut + piece * size, bytes), "the datagram's piece");
}

void fuzz_cut(void)
{
    size_t length = near(1 + below(one_in(50) ? NYR_LARGEST_MESSAGE : 900)) % sizeof uncut;
    size_t size = near(1 + below(one_in(8) ? NYR_LARGEST_PIECE : 400)), sender = near(below(4096)),
           first = near(below(65536));
    size_t count = size == 0 ? 1 : length / size + (length % size != 0);
    size_t piece = near(below(count + 1)), room = near(NYR_DATAGRAM_HEADER + (size < length ? size : length)) % 140000;
    int can = 1 <= length && length <= NYR_LARGEST_MESSAGE && 1 <= size && size <= NYR_LARGEST_PIECE;
    uint32_t number;
    calling("nyr_pieces");
    size_t *answer = lend_answer(ANSWER, sizeof *answer, sizeof *answer);
    number = called(nyr_pieces(length, size, answer), N(50));
    expect(number == (can ? 0u : NYR_CANNOT_CUT), "pieces: another number");
    expect(number != 0 || *answer == count, "pieces: another count");
    fill(uncut, length);
    calling("nyr_cut");
    uint8_t *lent_message = lend(MESSAGE, uncut, length, 1), *out = lend(OUT, NULL, room, 1);
    answer = lend_answer(ANSWER, sizeof *answer, sizeof *answer);
    number = nyr_cut(lent_message, length, size, sender, first, piece, out, room, answer);
    may_change(OUT, 0, number == 0 ? *answer : 0, 1);
    called(number, N(50) | N(51) | N(52));
    expect((number == NYR_CANNOT_CUT) == !(can && sender < 4096 && first < 65536), "50 at the wrong place");
    if (number != NYR_CANNOT_CUT)
        expect((number == NYR_NO_PIECE) == (piece >= count), "51 at the wrong place");
    if (number == 0 || number == NYR_DATAGRAM_ROOM) {
        size_t rest = length - piece * size;
        expect((number != 0) == (room < NYR_DATAGRAM_HEADER + (rest < size ? rest : size)), "52 at the wrong place");
    }
    if (number == 0)
        check_cut(out, *answer, length, size, sender, first, piece);
}
