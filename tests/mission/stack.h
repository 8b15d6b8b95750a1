/* The calls of the header, on inputs that stack.c makes go deep, with the stack that the header says. */
#ifndef STACK_H
#define STACK_H

#include "nyrkovash.h"

enum {
    LARGEST_TABLE = 22536,
    EVENT_ID = 7,     /* in every table that is made here: an event, */
    REQUEST_ID = 9,   /* an operation whose requests we send, and others behind it; 8 is in none */
    OTHER = 2,        /* the platform that messages come from and requests go to */
    LAST_PENDING = 64 /* the number of the last request that is pending */
};

extern uint8_t table[LARGEST_TABLE], rooms[NYR_CHANNELS * NYR_LARGEST_ROOM], message[70000], output[70000];
extern size_t table_length, datagram_length, message_length, payload_length, words_length, plans_length, given;
extern uint16_t ids[NYR_CHANNELS], type_number;
extern uint64_t words[70000], plans[NYR_PLANS_WORDS];
extern nyr_walked walked;
extern nyr_joiner joiner;
extern nyr_sections sections;
extern nyr_platform platform;
extern nyr_partners partners;
extern uint32_t number; /* what the last call answered; of one that refuses nothing 0 */

void call_setup(void);
void call_take(void);
void call_pieces(void);
void call_cut(void);
void call_read(void);
void call_write(void);
void call_check_table(void);
void call_find(void);
void call_unpack(void);
void call_unpack_in(void);
void call_pack(void);
void call_pack_in(void);
void call_plans_length(void);
void call_plans(void);
void call_unpack_by(void);
void call_pack_by(void);
void call_start(void);
void call_receive(void);
void call_receive_in(void);
void call_is_up(void);
void call_how_many_up(void);
void call_send(void);
void call_cancel(void);
void call_pending(void);
void call_partners_set(void);
void call_read_mixed(void);
void call_write_3(void);
void call_receive_mixed(void);
void call_receive_mixed_in(void);
void call_send_mixed(void);
void call_service(void);
void call_library_version(void);

/* One uint8 within as many types as a table can nest, all of this kind or (0) of each kind in turn. */
enum { RECORD = 2, FIXED = 3, ARRAY = 4 };
void nest(int kind);
/* An enum of as many values as a table can have, that fall, in an array. */
void enumerate(void);
/* Records of as many leaves as one with a plan can have, no leaf like the next, as many of them as there can be. */
void spread(void);
/* A message of platform OTHER, with number LAST_PENDING. */
void make_message(uint8_t domain, uint8_t id, const uint8_t *value, uint8_t length);
/* One of Issue 3 in domain 0 with that status; an AVAILABILITY_STATUS tells of 8,000 services. */
void make_message_3(uint8_t id, uint8_t value);
/* So many requests pending, in a row from number 1 on, the next own number being the first of them. */
void make_pending(size_t requests);

typedef struct {
    const char *name;
    void (*call)(void);
    size_t most;
} Bound;

enum { BOUNDS = 32 };
extern const Bound bounds[BOUNDS];

#endif
