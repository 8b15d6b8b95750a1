/* Files of calls (docs/CALLS.md): the library's calls, run on what a file says, with a line for each. */
#ifndef ANSWERS_H
#define ANSWERS_H

#include "nyrkovash.h"

enum {
    MOST_ARGUMENTS = 8,
    MOST_BYTES = 70000, /* of an argument, and of an output */
    MOST_WORDS = 65536,
    MOST_LIST = 128,    /* words of requests that are pending */
    RECORD = 11,        /* bytes: sender 2, seen 1, last counter 4, held 4 */
    SEEN_AT = 2,
    LAST_AT = 3,
    HELD_AT = 7
};

typedef struct {
    const uint8_t *bytes;
    size_t length;
    uint64_t number; /* that the bytes are, where the argument is one */
} Argument;

typedef struct {
    unsigned code;
    size_t end; /* where it ends in the input */
    Argument argument[MOST_ARGUMENTS];
} Call;

/* What stands at a place of what has come so far: a call that is all there, a part of one or nothing, or what no call is. */
typedef enum { WHOLE, UNFINISHED, BAD } Found;

Found next_call(const uint8_t *input, size_t filled, size_t at, Call *call);

uint64_t number_at(const uint8_t *bytes, size_t width);

/* The answer's part of a call's line, on standard output. */
void answer(const Call *call);

/* Its parts: a number, and bytes (`-` for none), each behind a space; whether a call refused, and then that it did; the same of a
 * walk, and then where too; a name and the output's first bytes behind it, or that the call refused. */
void put_number(uint64_t number);
void put_bytes(const uint8_t *bytes, size_t length);
int refused(uint32_t number);
int stopped(uint32_t number, const nyr_walked *walked);
void put_output(uint32_t number, const char *name, size_t length);

/* What the calls write to. */
extern uint8_t output[MOST_BYTES];

/* Payloads, by their table, by the sections of its check, or by its plans. */
typedef enum { OF_TABLE, IN_SECTIONS, BY_PLANS } Way;
void unpack(const Argument *a, Way way);
void pack(const Argument *a, Way way);

/* A message that was read, whose bytes these are; messages among partners of Issue 3, of which a byte each names one. */
void put_message(const nyr_message *message, const uint8_t *bytes);
nyr_partners set_up(const Argument *threes);
void read_mixed(const Argument *a);
void write_3(const Argument *a);

/* The platform that the calls speak to, at first platform 0; and the calls that do, by their codes: 7 to 10 and 20 to 23, and
 * among partners of Issue 3 83 to 88. */
extern uint8_t own;
extern nyr_platform platform;
void start_platform(uint8_t number);
void answer_platform(const Call *call);
void answer_mixed(const Call *call);
void put_heard(const nyr_heard *heard);
void put_sent(const nyr_sent *sent);

#endif
