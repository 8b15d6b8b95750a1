/* A fuzz run over the C interface: random lengths, bytes, words and state, most of them nearly right. Every buffer and every struct
 * is lent, just as long as it is, between pages that may not be touched, and after each call everything that it may not have
 * changed is compared. */
#ifndef FUZZ_H
#define FUZZ_H

#include "nyrkovash.h"

/* Randomness, the same for one seed with every compiler: no expression draws twice in an order that C leaves open. */
void seed(uint64_t from);
uint64_t any(void);
uint64_t narrow(void);      /* any number, of any width */
size_t below(size_t limit); /* 0 to limit - 1 */
int one_in(size_t times);
size_t near(size_t right);                    /* mostly right; sometimes one off, 0, small, or anything */
void scramble(uint8_t *bytes, size_t length); /* a few bytes changed */
void fill(void *bytes, size_t length);

/* As memcpy and memcmp, but of no bytes the pointers may be null. */
void copy(void *to, const void *from, size_t bytes);
int differ(const void *one, const void *other, size_t bytes);

/* A buffer that is lent: its end, or its start, stands against a page that may not be touched. */
typedef struct {
    uint8_t *pages, *at, *before;
    size_t room, length, from, to, field;
    int tells;
} Lent;

enum { IDS, JOINER, ROOMS, DATAGRAM, ANSWER, MESSAGE, OUT, PAYLOAD, TABLE, SECTIONS, WORDS, PLANS, PLATFORM, PARTNERS, STAMP, OURS,
       SERVICES, BUFFERS };

void lent_start(void);
/* A buffer of so many elements of that width, with these bytes, or any where they are null. Of no elements: null, or a place
 * that may not be touched. */
void *lend(int buffer, const void *bytes, size_t elements, size_t width);
/* A struct or a number that the call answers with, of fields of that width: just its size is lent, filled with what no field can be.
 * Where the call answers 0 it must have written every field that it may change. */
void *lend_answer(int buffer, size_t size, size_t field);
/* The call may have changed these elements, and no others, of a buffer. */
void may_change(int buffer, size_t from, size_t to, size_t width);
/* The call refused, and must all the same have written these elements, and no others, of an answer. */
void must_tell(int buffer, size_t from, size_t to, size_t width);

/* A call starts, by name; it ended, with one of these numbers (a bit each) or 0. The number is handed on. */
void calling(const char *name);
uint32_t called(uint32_t number, uint64_t numbers);
void expect(int holds, const char *what);
#define N(number) (UINT64_C(1) << (number))

/* What was met, a bit each: numbers, outcomes of a take, kinds read, what was heard; of plans too few words and enough, 42 and 0 of
 * types without one and with one, unpacked and packed, and forged ones that matter; among partners kinds of Issue 3, from 16 on
 * those of Issue 6, from 32 on numbers of reading Issue 3, from 48 on those of writing it; and what fuzz_mixed.h says. A run that
 * misses one says nothing. */
extern uint64_t calls, accepted, numbers_met, outcomes_met, kinds_met, heard_met, plans_met, mixed_met, among_met;

/* A table that keeps every rule, made at random, and the words of a value of one of its types. Behind its index the words of its
 * sections are any. */
enum { MOST_OPERATIONS = 1024, LARGEST_TABLE = 22536 };

typedef struct {
    uint8_t bytes[LARGEST_TABLE];
    size_t length, types;
    uint16_t kind[256], of[256], first[256], count[256];
    uint16_t members[1024];
    uint64_t values[1024];
    nyr_sections sections;
    size_t members_count, values_count, operations;
    uint32_t ids[MOST_OPERATIONS];
    uint16_t kinds[MOST_OPERATIONS], carries[MOST_OPERATIONS], responds[MOST_OPERATIONS];
} Table;

void make_table(Table *table);
/* Sections that are mostly the table's, and an ID that mostly is one of its operations', mostly of this kind where there is one. */
nyr_sections make_sections(const Table *table);
uint32_t make_id_of(const Table *table, unsigned kind);
/* Whether these could be the sections of a table of so many bytes. */
int lie_in(const nyr_sections *sections, size_t bytes);
size_t make_words(const Table *table, size_t type, uint64_t *words, size_t room); /* 0 where they would not fit */

/* Messages, and numbers in them. A message is mostly good, from mostly another platform. */
enum { MOST_MESSAGE = 66000 };
#define READING (N(1) | N(2) | N(3) | N(4) | N(5) | N(6) | N(7) | N(8) | N(9))

extern uint8_t message[MOST_MESSAGE];
uint64_t be(const uint8_t *bytes, int width);
void put32(uint8_t *bytes, uint32_t number);
uint32_t make_sender(uint8_t own, size_t others);
size_t make_message(const Table *table, uint32_t sender);

/* One platform and its table are kept from call to call, so that requests are answered and not only sent. */
extern nyr_platform platform;
extern Table platform_table;
void renew_platform_table(void); /* sometimes another one */
/* The place of the list that bears this number, NYR_MOST_PENDING for none; and a number that mostly is pending. */
size_t place_of(const nyr_platform *state, uint32_t sequence);
uint32_t make_sequence(const nyr_platform *state);
/* The kept platform, or one with another list: full, nearly so, with a number twice, or with any words. */
nyr_platform make_platform(void);
nyr_platform cleared(nyr_platform state, size_t place);
/* A message that mostly is the response to a request that is pending. */
size_t make_response(const nyr_platform *state, const Table *table);

/* Whether a platform speaks Issue 3; and a message of one that does, mostly good, to this platform: now and then the response to a
 * request that is pending. */
int speaks_3(const nyr_partners *set_up, uint64_t platform_number);
size_t make_message_3(const Table *table, const nyr_platform *state, uint8_t sender);

/* Of a walk's three fields 0 writes the first, 40 to 43 the two others, and any other number none. */
void check_fields(uint32_t number);

/* One or more calls of each family, with their checks. */
void fuzz_setup(void);
void fuzz_take(void);
void fuzz_cut(void);
void fuzz_read(void);
void fuzz_write(void);
void fuzz_receive(void);
void fuzz_states(void);
void fuzz_send(void);
void fuzz_cancel(void);
void fuzz_pending(void);
void fuzz_table(void);
void fuzz_unpack(void);
void fuzz_pack(void);
void fuzz_plans(void);
void fuzz_partners_set(void);
void fuzz_read_mixed(void);
void fuzz_write_3(void);
void fuzz_receive_mixed(void);
void fuzz_send_mixed(void);
void fuzz_service(void);

#endif
