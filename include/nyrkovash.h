/*
 * nyrkovash: UDP datagrams joined into ECOA ELI messages (Part 6, Issue 6), messages read and written, payloads
 * unpacked and packed by a type table or by plans of its types, the replies of platform start-up, requests that await
 * their responses, and the same among partners that speak Issue 3, with what they tell of their services. Link
 * libnyrkovash.a (x86-64), which needs no library but C's.
 *
 * Every call is total: no length, number, byte or state, right or wrong, makes it read or write outside what it was
 * lent. A call answers 0, or the number that refuses it, and then it has changed nothing; but where 40 to 43 refuse a
 * payload or words, two fields of nyr_walked tell where. Where a call answers 0 it has written all fields of its answer
 * (of nyr_walked `given` alone); bytes and words that a call is not said to write stay as they were.
 *
 * What has a fixed size is a struct; a pointer to a struct or to a number may not be null, and what it points at may
 * not overlap anything else of the same call. Any values in a struct that is handed in are safe. A buffer is a pointer
 * and a length, in elements. A length of 0 is an empty buffer, whatever the pointer, null too; else the elements must
 * be there, and aligned. A buffer that is written must not overlap another of the same call.
 *
 * The library has no memory, no globals and no locks: all state lies in the caller's structs, nothing is kept between
 * calls, and no pointer outlives one. Threads may call at once, each on what no other of them writes.
 *
 * `Stack` is the most bytes of stack that a call takes, `time` what its time grows with, if with anything.
 */
#ifndef NYRKOVASH_H
#define NYRKOVASH_H

#include <stddef.h>
#include <stdint.h>

#ifdef __cplusplus
extern "C" {
#endif

/*
 * The library's version: its first number times 10000, plus the second times 100, plus the third. The first grows where
 * a struct grows or a call changes: what was compiled with another first number must be compiled again, or the library
 * would write past the ends of its structs. The second grows where there are more calls or names, the third where
 * neither is so. So a program asks at its start, and goes on where the archive's first number is that of its header and
 * the whole is not less than its header's.
 */
#define NYR_LIBRARY_VERSION 40301
#define NYR_LIBRARY_VERSION_TEXT "4.3.1"

/* The version of the archive that was linked.  Stack 256. */
uint32_t nyr_library_version(void);

/* The numbers that refuse. Of several that apply the lowest is given, unless a call says otherwise. */
enum {
    NYR_OK = 0,
    /* Messages, as Issue 6 has them; nyr_read_mixed says what 1, 3, 7, 8 and 9 are in Issue 3. */
    NYR_MESSAGE_SHORT = 1,     /* shorter than its header of 20 bytes */
    NYR_MARK = 2,              /* does not start with EC 0A */
    NYR_VERSION = 3,           /* not version 2 */
    NYR_DOMAIN = 4,            /* neither 0, platform, nor 1, operation */
    NYR_PAYLOAD_SIZE = 5,      /* the payload size is not what follows; writing: 2^32 bytes or more */
    NYR_SENDER = 6,            /* the sender is this platform */
    NYR_PLATFORM_ID = 7,       /* domain 0, and the ID is not 1 to 4 */
    NYR_PLATFORM_LENGTH = 8,   /* domain 0, and the payload is not 4 bytes long (a request's: 0) */
    NYR_PLATFORM_VALUE = 9,    /* a status that is neither DOWN nor UP */
    NYR_NO_ROOM = 10,          /* output, or lent words, shorter than what must be written */
    /* Joining. */
    NYR_NO_JOINER = 20,        /* a set-up that cannot be, or values that are no joiner */
    NYR_DATAGRAM_LENGTH = 21,  /* not 5 to 65,507 bytes */
    NYR_DATAGRAM_VERSION = 22, /* the binding header's version is not 0 */
    NYR_NOT_SET_UP = 23,       /* no channel has the sender ID */
    /* Type tables. */
    NYR_TABLE_LENGTH = 30,     /* cut short, or bytes after its end; or sections that do not lie in it */
    NYR_TABLE_COUNT = 31,      /* a section's count is outside its limit */
    NYR_TABLE_ENTRY = 32,      /* an entry breaks a rule */
    NYR_TABLE_SIZE = 33,       /* a type can exceed 65,536 bytes */
    /* Payloads. */
    NYR_INPUT_SHORT = 40,      /* payload or words end too early */
    NYR_INPUT_LEFT = 41,       /* payload or words are left over */
    NYR_VALUE = 42,            /* a value that its type does not have, as a char8 above 127 */
    NYR_ARRAY_COUNT = 43,      /* an array's count over its maximum */
    NYR_NO_TYPE = 44,          /* the table has no type of that number */
    NYR_OUTPUT_SHORT = 45,     /* words or output too short */
    /* Cutting. */
    NYR_CANNOT_CUT = 50,       /* message not 1 to 65,560 bytes, piece not 1 to 65,503, or ID or counter out of range */
    NYR_NO_PIECE = 51,         /* the message has no piece of that number */
    NYR_DATAGRAM_ROOM = 52,    /* output shorter than the datagram */
    /* Requests. */
    NYR_LIST_FULL = 60,        /* 64 requests are pending */
    NYR_NOT_AWAITED = 61,      /* a request's ID, and no request with that ID, number and sender is pending */
    NYR_NO_REQUEST = 62,       /* the ID is not that of an operation whose requests we send */
    /* Services. */
    NYR_SERVICES_FULL = 63     /* a status of services that would need a 257th service of its sender */
};

/* Limits and sizes. */
enum {
    NYR_CHANNELS = 32,
    NYR_SMALLEST_ROOM = 24,
    NYR_LARGEST_ROOM = 65560,
    NYR_MESSAGE_HEADER = 20,
    NYR_MESSAGE_HEADER_3 = 24,   /* of Issue 3 */
    NYR_DATAGRAM_HEADER = 4,
    NYR_LARGEST_PIECE = 65503,
    NYR_LARGEST_DATAGRAM = 65507,
    NYR_LARGEST_MESSAGE = 65560, /* that is cut */
    NYR_REPLY_BYTES = 24,        /* one reply */
    NYR_REPLIES_BYTES = 48,      /* the most that one message is owed */
    NYR_REPLIES_3_BYTES = 88,    /* the most that one of Issue 3 is owed, but where our services are asked for: 28, and
                                  * 8 for each of them */
    NYR_MOST_PENDING = 64,       /* requests that await their responses */
    NYR_SERVICES_WORDS = 256,    /* for the services of each partner that speaks Issue 3 */
    NYR_PLANS_WORDS = 131329     /* enough for the plans of any table */
};

/* ---- Joining: a channel for each sender ID (platform times 256 plus channel: 0 to 4,095), each with its own room. */

typedef struct {
    uint32_t sender;           /* the sender ID */
    uint32_t seen;             /* whether a datagram was seen: 0 or 1 */
    uint32_t last;             /* the last counter */
    uint32_t held;             /* bytes of an unfinished message, at the start of the channel's room */
} nyr_channel;

typedef struct {
    uint32_t count;            /* how many channels there are; the others' fields are 0 */
    uint32_t room;             /* the size of each one's room; channel k's is at k times room */
    nyr_channel channel[NYR_CHANNELS];
} nyr_joiner;

typedef struct {
    uint64_t outcome;          /* what the datagram was to its channel, as below */
    uint64_t missed;           /* how many datagrams of its channel were missed before it */
    uint64_t bytes;            /* the bytes held or delivered, else 0 */
    uint64_t slice;            /* where the delivered message lies, as below */
    uint64_t start;            /* from which byte there */
} nyr_taken;

/* What a datagram was to its channel. */
enum {
    NYR_REPEATED = 1,          /* the last one once more: nothing changed */
    NYR_DELIVERED = 2,         /* it completed a message */
    NYR_HELD = 3,              /* a piece of a message that is not yet whole */
    NYR_STRAY = 4,             /* a piece of a message whose start did not come */
    NYR_TOO_LONG = 5           /* the message does not fit the room, and is dropped */
};

/* Where a delivered message lies. */
enum { NYR_NOWHERE = 0, NYR_IN_DATAGRAM = 1, NYR_IN_ROOMS = 2 };

/*
 * Makes a joiner for so many sender IDs, over rooms_length bytes with `room` bytes for each channel, in order.
 *   20  not 1 to 32 channels; room not 24 to 65,560; rooms_length not channels times room; an ID twice or above 4,095.
 * Leaves a joiner with no datagram seen. The rooms' bytes may be any.
 * Stack 4096; time: the square of the channels.
 */
uint32_t nyr_setup(nyr_joiner *joiner, const uint16_t *ids, size_t channels, uint32_t room, size_t rooms_length);

/*
 * Takes one datagram.
 *   20  values that are no joiner for these rooms: sizes or IDs that nyr_setup refuses, seen not 0 or 1, a last counter
 *       above 65,535, more bytes held than a room has.
 *   21, 22, 23 for the datagram.
 * Writes in the joiner no channel but the datagram's, and in the rooms nothing but the piece. A message in the rooms is
 * good until the next nyr_take on them.
 * Stack 1024; time: the datagram's length, and the channels (where their IDs do not rise, the square of the channels).
 */
uint32_t nyr_take(nyr_joiner *joiner, uint8_t *rooms, size_t rooms_length, const uint8_t *datagram,
                  size_t datagram_length, nyr_taken *taken);

/* ---- Cutting. */

/* How many pieces a message of that length is cut into.  50.  Stack 256. */
uint32_t nyr_pieces(size_t message_length, size_t piece_size, size_t *pieces);

/*
 * Writes the datagram of one piece, numbered from 0, at the start of output: its header, and up to piece_size bytes;
 * `written` is the length of both. The first piece has first_counter (0 to 65,535), each next one more; 65,535 is
 * followed by 0.
 *   50, 51, 52.  Stack 1024; time: the piece's length.
 */
uint32_t nyr_cut(const uint8_t *message, size_t message_length, size_t piece_size, size_t sender, size_t first_counter,
                 size_t piece, uint8_t *output, size_t output_length, size_t *written);

/* ---- Messages. `own` is this platform's number. */

typedef struct {
    uint64_t kind;             /* what it is, as below */
    uint64_t value;            /* as below */
    uint64_t sender;           /* the sending platform, any number of 32 bits but ours */
    uint64_t sequence;         /* the sequence number */
    uint64_t payload_start;    /* the byte at which the payload starts */
    uint64_t payload_length;
} nyr_message;

/* What a message is. */
enum {
    NYR_STATUS = 1,            /* value: 0 DOWN, 1 UP */
    NYR_REQUEST = 2,           /* of our status; value: 0 */
    NYR_UNKNOWN_OPERATION = 3, /* value: the ID that the sender does not know */
    NYR_PULL = 4,              /* value: the ID of the versioned data that is asked for, or NYR_ALL_DATA */
    NYR_SERVICE_OPERATION = 5, /* value: its ID */
    /* Of Issue 3 alone, told by nyr_read_mixed. */
    NYR_SERVICES = 6,          /* value: of how many services it tells; from byte 4 of the payload on each is its ID
                                * and its state, 4 bytes each: 0 UNAVAILABLE, 1 AVAILABLE */
    NYR_SERVICES_REQUEST = 7,  /* value: the ID of the service that is asked for, or NYR_ALL_SERVICES */
    NYR_NOT_AVAILABLE = 8,     /* value: the ID of an operation whose service is not available */
    NYR_COMPOSITE_CHANGE = 9,  /* value: the composite ID */
    NYR_COMPOSITE_ACK = 10     /* value: 0 DISAGREE, 1 AGREE */
};

#define NYR_ALL_DATA UINT32_C(0xFFFFFFFF)
#define NYR_ALL_SERVICES UINT32_C(0xFFFFFFFF)

/* For nyr_write and nyr_write_3. */
enum { NYR_PLATFORM_DOMAIN = 0, NYR_OPERATION_DOMAIN = 1 };

/* Reads a message of Issue 6.  1 to 9.  Stack 256. */
uint32_t nyr_read(uint8_t own, const uint8_t *message, size_t message_length, nyr_message *answer);

/*
 * Writes a message of this platform at the start of output; `written` is its length. The ID is an operation's, or in
 * domain 0 what the message is (NYR_STATUS to NYR_PULL).
 *   4, 5, 7 to 10.  Stack 1024; time: the payload's length.
 */
uint32_t nyr_write(uint8_t own, uint8_t domain, uint32_t id, uint32_t sequence, const uint8_t *payload,
                   size_t payload_length, uint8_t *output, size_t output_length, size_t *written);

/* ---- Type tables. */

typedef struct {
    uint64_t words[1032];      /* each section's first byte in the table, and its count, as below; from word 8 on the
                                * index of operations, a word for each, which is the library's own */
} nyr_sections;

/* Which word of a table's sections is which. */
enum {
    NYR_TYPES_AT = 0,
    NYR_TYPES_COUNT = 1,
    NYR_MEMBERS_AT = 2,
    NYR_MEMBERS_COUNT = 3,
    NYR_VALUES_AT = 4,
    NYR_VALUES_COUNT = 5,
    NYR_OPERATIONS_AT = 6,
    NYR_OPERATIONS_COUNT = 7
};

typedef struct {
    uint64_t found;            /* 1 if the table has it, else 0 */
    uint64_t kind;             /* its kind, else 0 */
    uint64_t carries;          /* its type's number, or NYR_NO_PAYLOAD, else 0 */
    uint64_t responds;         /* its response's type's number, or NYR_NO_PAYLOAD, as for events and versioned data,
                                * which have no response, else 0 */
} nyr_operation;

/* An operation's kind, and the type of what has no payload. */
enum {
    NYR_EVENT = 0,
    NYR_VERSIONED_DATA = 1,
    NYR_REQUEST_SENT = 2,      /* we send its requests, and await their responses */
    NYR_REQUEST_SERVED = 3,    /* we hear its requests, and answer them */
    NYR_NO_PAYLOAD = 0xFFFF
};

/*
 * Checks a table.  30 to 33.
 * Leaves where its sections lie in words 0 to 7, and its index from word 8 on, a word for each operation; the words
 * behind these stay. The calls that take sections spare the check: for a table that it accepted those that end in _in
 * answer as their namesakes do. For other tables, sections and indexes they are as safe; they give 30 where the
 * sections do not lie in the table, and those of payloads 32 for an entry that they meet and that breaks a rule.
 * Stack 4096; time: each type's members or values, and the operations; where an enum's values do not rise, the square
 * of the values.
 */
uint32_t nyr_check_table(const uint8_t *table, size_t table_length, nyr_sections *sections);

/* Looks an operation up.  30.  Stack 1024; time: the logarithm of the operations. */
uint32_t nyr_find(const uint8_t *table, size_t table_length, const nyr_sections *sections, uint32_t id,
                  nyr_operation *operation);

/* ---- Payloads: a 64-bit word for each leaf, left to right, and one for each array's count, before its elements. */

typedef struct {
    uint64_t given;            /* how many words, or packing bytes, were given */
    uint64_t at;               /* at which byte of the payload, or packing which word, the refused item begins */
    uint64_t leaves;           /* how many leaves come before it, each array's count among them */
} nyr_walked;                  /* with 0 a call writes `given` alone, with 40 to 43 the two others alone, else nothing */

/*
 * Unpacks a payload of the table's type of that number: integers sign- or zero-extended, char8 0 to 127, floats as
 * their bits, booleans 0 or 1. `given` is how many words that made, from the start of words on.
 *   30 to 33 for the table; then 44; then 40, 42 or 43, the first met from the left; then 41; then 45.
 * 40 to 43 tell where, in bytes from the payload's start: 42 and 43 where the leaf or count begins; 40 where the one
 * begins that is cut or missing; 41 at the first byte left over, behind all leaves of the value.
 * Stack 131072, where types nest as deep as they can; time: the payload's length times the nesting of its types (at
 * most 255: 65,535 bytes nested 254 deep took half a second where it was tried), and for each enum among the leaves
 * its values; and, but for _in, the table's check.
 */
uint32_t nyr_unpack(const uint8_t *table, size_t table_length, uint16_t type_number, const uint8_t *payload,
                    size_t payload_length, uint64_t *words, size_t words_length, nyr_walked *walked);

uint32_t nyr_unpack_in(const uint8_t *table, size_t table_length, const nyr_sections *sections, uint16_t type_number,
                       const uint8_t *payload, size_t payload_length, uint64_t *words, size_t words_length,
                       nyr_walked *walked);

/*
 * Packs words into a payload: the other way round, with the same numbers. `given` is how many bytes that made, from the
 * start of output on. 40 to 43 tell at which word, and as many leaves come before it, since each is a word.
 * Stack and time as nyr_unpack, with the words in the place of the payload.
 */
uint32_t nyr_pack(const uint8_t *table, size_t table_length, uint16_t type_number, const uint64_t *words,
                  size_t words_length, uint8_t *output, size_t output_length, nyr_walked *walked);

uint32_t nyr_pack_in(const uint8_t *table, size_t table_length, const nyr_sections *sections, uint16_t type_number,
                     const uint64_t *words, size_t words_length, uint8_t *output, size_t output_length,
                     nyr_walked *walked);

/* ---- Plans: a type of 1 to 512 leaves, in which no array has a count (kind 4), has a plan: its leaves laid out
 * flat, as runs of leaves that are alike. Once at load, behind nyr_check_table, ask nyr_plans_length how many words to
 * lend, and let nyr_plans lay out in them the plans of all types that have one. From then on nyr_unpack_by and
 * nyr_pack_by go by these words, for every type, with a plan or without. Plans belong to one table's bytes: where these
 * change, check them and lay the plans out again. What stands in the words is the library's own. */

/*
 * How many words are enough for a table's plans: `words` is 1, and for each type 1 and, where it has a plan, its
 * leaves; at most NYR_PLANS_WORDS, about a megabyte.
 *   30 where the sections do not lie in the table.
 * Stack 1024; time: each type's members.
 */
uint32_t nyr_plans_length(const uint8_t *table, size_t table_length, const nyr_sections *sections, size_t *words);

/*
 * Lays a table's plans out from the start of plans on, in as many words as nyr_plans_length says or fewer; the words
 * behind them stay.
 *   30 where the sections do not lie in the table; then 10 where plans_length is less than nyr_plans_length says.
 * Stack 4096; time: each type's members, and of a type with a plan the runs of its members or elements. Of the tables
 * that were tried the worst, 253 records of the same 512 members, no leaf like the next, took half a millisecond.
 */
uint32_t nyr_plans(const uint8_t *table, size_t table_length, const nyr_sections *sections, uint64_t *plans,
                   size_t plans_length);

/*
 * Unpacks by plans. By those that nyr_plans laid out for this table and these sections it does just what nyr_unpack_in
 * does, for every type and payload: the same number, the same places, the same words. A type that has a plan goes by
 * it, and the sections are not looked at; any other goes as by nyr_unpack_in, and its parts by their plans.
 *   30 where the sections do not lie in the table, and then 44, for a type without a plan alone; then as nyr_unpack_in.
 * Any other words are plans too: by them the call touches nothing outside what it was lent, and one input has one
 * answer, but that may be another than nyr_unpack_in's. By none (plans_length 0) all goes as by nyr_unpack_in.
 * Stack 131072, where types nest as deep as they can; time: the payload's length, and for each enum among the leaves
 * its values; of a type without a plan the length times the nesting of such types.
 */
uint32_t nyr_unpack_by(const uint8_t *table, size_t table_length, const nyr_sections *sections, const uint64_t *plans,
                       size_t plans_length, uint16_t type_number, const uint8_t *payload, size_t payload_length,
                       uint64_t *words, size_t words_length, nyr_walked *walked);

/*
 * Packs by plans, which are to nyr_pack_in what they are to nyr_unpack_in above, with the same numbers.
 * Stack and time as nyr_unpack_by, with the words in the place of the payload.
 */
uint32_t nyr_pack_by(const uint8_t *table, size_t table_length, const nyr_sections *sections, const uint64_t *plans,
                     size_t plans_length, uint16_t type_number, const uint64_t *words, size_t words_length,
                     uint8_t *output, size_t output_length, nyr_walked *walked);

/* ---- Platforms: which of the 256 are UP, what they are owed, and which requests they have not answered yet. */

typedef struct {
    uint64_t up[4];            /* platform k is bit k % 64 of up[k / 64] */
    uint64_t next;             /* the next own sequence number, whose low 32 bits count */
    uint64_t pending[128];     /* the requests that await their responses, in 64 places: place k's number times 2^32
                                * plus its ID is pending[k], its target pending[64 + k]; free where the number is 0 */
} nyr_platform;                /* any values are a state */

typedef struct {
    uint64_t kind;             /* what the message was, as below */
    uint64_t value;            /* as below, else 0 */
    uint64_t sender;           /* the sending platform, to whom the replies go */
    uint64_t sequence;         /* the message's sequence number: who answers a pull or a request repeats it */
    uint64_t number;           /* the number of the operation's entry, else 0 */
    uint64_t payload_start;    /* where an operation's or a response's payload starts in the message, else 0 */
    uint64_t payload_length;   /* and its length, else 0 */
    uint64_t replies;          /* the bytes of replies written */
} nyr_heard;

/* What a message was. */
enum {
    NYR_HEARD_STATUS = 1,      /* value: 0 DOWN, 1 UP; answered where its sender was DOWN and is UP.
                                * Of a sender above 255 no state is kept: nothing is noted or owed */
    NYR_HEARD_REQUEST = 2,     /* of our status: answered with it */
    NYR_HEARD_UNKNOWN = 3,     /* value: an ID that the sender does not know; nothing is owed. A request of ours stays
                                * pending: its number is the message's sequence number */
    NYR_HEARD_PULL_ALL = 4,    /* all versioned data is asked for: the caller sends it */
    NYR_HEARD_PULL_ONE = 5,    /* value: the ID that is asked for; number is given, and the caller sends it */
    NYR_HEARD_PULL_NONE = 6,   /* value: an ID that is no versioned data here; answered */
    NYR_HEARD_OPERATION = 7,   /* value: the ID; number and payload are given. Where it is a request that we serve, the
                                * caller answers with nyr_write: domain 1, the same ID, the same sequence number */
    NYR_HEARD_NOT_IN_TABLE = 8, /* value: the ID; answered */
    NYR_HEARD_RESPONSE = 9     /* value: the ID; number and payload are given; nothing is owed. Its request, under the
                                * same sequence number, was pending, and is no longer */
};

/*
 * A fresh state: this platform UP, all others DOWN, the next own sequence number 0, no request pending. It answers 0.
 * Stack 256.
 */
uint32_t nyr_start(uint8_t own, nyr_platform *platform);

/*
 * Reads a message, notes in platform the state that it tells, and writes the replies that its sender is owed at the
 * start of output, one behind another, each of NYR_REPLY_BYTES. In domain 1 a message with the ID of an operation whose
 * requests we send is the response, where a request is pending under its sequence number, with that ID and with its
 * sender for a target; then both words of the request's place are 0 again. Nothing else changes what is pending.
 *   30 to 33 for the table; then 1 to 9 for the message; then 61 for an ID whose requests we send, and no response (as
 *   the same response once more); then 10 where the replies do not fit.
 * Stack 16384, nyr_receive_in 4096; time: the logarithm of the operations, or where all data is pulled their number;
 * and, but for _in, the table's check.
 */
uint32_t nyr_receive(uint8_t own, nyr_platform *platform, const uint8_t *table, size_t table_length,
                     const uint8_t *message, size_t message_length, uint8_t *output, size_t output_length,
                     nyr_heard *heard);

uint32_t nyr_receive_in(uint8_t own, nyr_platform *platform, const uint8_t *table, size_t table_length,
                        const nyr_sections *sections, const uint8_t *message, size_t message_length, uint8_t *output,
                        size_t output_length, nyr_heard *heard);

/* 1 where the platform of that number is UP, else 0. This platform always is; one above 255 never is.  Stack 256. */
uint32_t nyr_is_up(uint8_t own, const nyr_platform *platform, uint32_t number);

/* How many of the 256 are UP, this one counted.  Stack 256. */
uint32_t nyr_how_many_up(uint8_t own, const nyr_platform *platform);

/* ---- Requests: of operations that are NYR_REQUEST_SENT in our table. Up to 64 are pending at a time, each under a
 * number of its own; where a state that no call has left has one number in two places, the first is meant. */

typedef struct {
    uint64_t written;          /* the bytes of the request */
    uint64_t sequence;         /* its sequence number */
} nyr_sent;

typedef struct {
    uint64_t found;            /* 1 if the number is pending, else 0 */
    uint64_t id;               /* its operation's ID, else 0 */
    uint64_t target;           /* the platform that was asked, else 0 */
} nyr_awaited;

/*
 * Writes a request to platform `target` at the start of output, and enters it among those that are pending. Its number
 * is the first from the next own one on that is neither 0 nor pending; the next own number is then the one behind it
 * (0xFFFFFFFF is followed by 0). The payload is not held to its type; the target may be any number of 32 bits, UP or
 * DOWN.
 *   30 where the sections do not lie in the table; then 62, also for an ID that the table has not; then 60; then 5;
 *   then 10.
 * Writes in platform no words but next and the two of the first place that is free.
 * Stack 1024; time: the payload's length, the logarithm of the operations, and how many of the next own numbers are
 * pending.
 */
uint32_t nyr_send(uint8_t own, nyr_platform *platform, const uint8_t *table, size_t table_length,
                  const nyr_sections *sections, uint32_t id, uint32_t target, const uint8_t *payload,
                  size_t payload_length, uint8_t *output, size_t output_length, nyr_sent *sent);

/*
 * Gives a request up, as one whose response is lost: `cancelled` is 1 where the number was pending, and both words of
 * its place are 0 again; else 0, and platform stays. It answers 0.  Stack 256.
 */
uint32_t nyr_cancel(nyr_platform *platform, uint32_t sequence, size_t *cancelled);

/* Looks up what is pending under a number. It answers 0.  Stack 256. */
uint32_t nyr_pending(const nyr_platform *platform, uint32_t sequence, nyr_awaited *awaited);

/* ---- Partners of Issue 3. Their messages have a header of 24 bytes with a timestamp, a status tells a composite ID
 * too, and some messages tell of services. The caller says who speaks Issue 3; all others speak Issue 6. nyr_read,
 * nyr_write, nyr_receive, nyr_receive_in and nyr_send know Issue 6 alone; the calls below are these for both, on the
 * same nyr_platform, and all else is the same for both. */

typedef struct {
    uint64_t words[4];         /* platform k speaks Issue 3 where bit k % 64 of words[k / 64] is 1 */
} nyr_partners;                /* any values are a set-up; with words of 0 all speak Issue 6 */

typedef struct {
    uint64_t kind;             /* these six as of nyr_message */
    uint64_t value;
    uint64_t sender;
    uint64_t sequence;
    uint64_t payload_start;
    uint64_t payload_length;
    uint64_t issue;            /* the sender's: NYR_ISSUE_3 or NYR_ISSUE_6 */
    uint64_t seconds;          /* the timestamp, of Issue 6 0 */
    uint64_t nanoseconds;
    uint64_t composite;        /* of a status of Issue 3 its composite ID, else 0 */
} nyr_any_message;

enum { NYR_ISSUE_3 = 3, NYR_ISSUE_6 = 6 };

/* The IDs of domain 0 in Issue 3, for nyr_write_3. From 3 on they are other numbers than the kinds of messages. */
enum {
    NYR_STATUS_3 = 1,
    NYR_REQUEST_3 = 2,
    NYR_SERVICES_3 = 3,
    NYR_SERVICES_REQUEST_3 = 4,
    NYR_UNKNOWN_OPERATION_3 = 5,
    NYR_NOT_AVAILABLE_3 = 6,
    NYR_PULL_3 = 7,
    NYR_COMPOSITE_CHANGE_3 = 8,
    NYR_COMPOSITE_ACK_3 = 9
};

/*
 * Sets one platform up: with 3 it speaks Issue 3, with any other number Issue 6. No other platform's bit changes; one
 * above 255 is in no set-up, and nothing changes. It answers 0.  Stack 256.
 */
uint32_t nyr_partners_set(nyr_partners *partners, uint32_t platform, uint32_t issue);

/*
 * Reads a message by its sender's issue. The sender is bytes 4 to 7 where byte 2 is 2, Issue 6's version, else byte 3.
 * In Issue 3's form is a message whose byte 2 is not 2 and whose sender is set up as Issue 3; every other one is in
 * Issue 6's.
 *   1 to 9: in Issue 6's form as of nyr_read, and 3 also where the sender is set up as Issue 3; in Issue 3's form
 *   1  shorter than its header of 24 bytes;
 *   3  not version 1;
 *   7  domain 0, and the ID is not 1 to 9;
 *   8  domain 0, and the payload is not 8 bytes long for a status, 0 for a request, 4 and 8 for each service told for
 *      services, 4 for any other;
 *   9  a status, a service's state or an acknowledgement that is neither 0 nor 1.
 * With words of 0 it gives the number of nyr_read, and its six fields.
 * Stack 512; time: the services that a message tells of.
 */
uint32_t nyr_read_mixed(uint8_t own, const nyr_partners *partners, const uint8_t *message, size_t message_length,
                        nyr_any_message *answer);

/*
 * Writes a message of this platform for partners of Issue 3 at the start of output, with this timestamp; `written` is
 * its length. The ID is an operation's, or in domain 0 one of NYR_STATUS_3 to NYR_COMPOSITE_ACK_3.
 *   4, 5, 7 to 10; 7 to 9 as of nyr_read_mixed in Issue 3's form.  Stack 1024; time: the payload's length.
 */
uint32_t nyr_write_3(uint8_t own, uint32_t seconds, uint32_t nanoseconds, uint8_t domain, uint32_t id,
                     uint32_t sequence, const uint8_t *payload, size_t payload_length, uint8_t *output,
                     size_t output_length, size_t *written);

/* What our messages say beside themselves where they are written for Issue 3. */
typedef struct {
    uint32_t seconds;          /* the timestamp */
    uint32_t nanoseconds;
    uint32_t composite;        /* the ID of our composite, which our status tells */
} nyr_stamp;                   /* any values are one */

typedef struct {
    uint64_t kind;             /* these eight as of nyr_heard; of Issue 3 a payload starts at byte 24 */
    uint64_t value;
    uint64_t sender;
    uint64_t sequence;
    uint64_t number;
    uint64_t payload_start;
    uint64_t payload_length;
    uint64_t replies;
    uint64_t issue;            /* the sender's: NYR_ISSUE_3 or NYR_ISSUE_6 */
    uint64_t seconds;          /* the message's timestamp, of Issue 6 0 */
    uint64_t nanoseconds;
    uint64_t composite;        /* of a status of Issue 3 its composite ID, else 0 */
} nyr_any_heard;

/* What a message was, behind the nine of nyr_heard; of Issue 3 alone. */
enum {
    NYR_HEARD_SERVICES = 10,   /* value: of how many services it told, which are noted; the payload is given, as of
                                * NYR_SERVICES. Nothing is owed */
    NYR_HEARD_SERVICES_REQUEST = 11, /* value: the ID of a service, or NYR_ALL_SERVICES; answered with ours */
    NYR_HEARD_NOT_AVAILABLE = 12,    /* value: an operation's ID; nothing is owed, nor for the two below */
    NYR_HEARD_COMPOSITE_CHANGE = 13, /* value: the composite ID */
    NYR_HEARD_COMPOSITE_ACK = 14     /* value: 0 DISAGREE, 1 AGREE */
};

/* What is known of a service. */
enum { NYR_UNHEARD = 0, NYR_UNAVAILABLE = 1, NYR_AVAILABLE = 2 };

/* A service in a word: its ID, and above it one of these. */
#define NYR_SERVICE_WORD(id, state) ((uint64_t)(state) << 32 | (uint32_t)(id))

/*
 * nyr_receive and nyr_receive_in among partners of both issues. A message of Issue 6 is noted and answered as by these,
 * one of Issue 3 in its issue's messages: DOWN to UP with three, under the next three own numbers, a status, a request
 * for all services and a pull of all data. A pull of all data is owed nothing, also where there is none. Own numbers
 * and the list of requests are one for both issues. `stamp` goes into all replies of Issue 3.
 * `ours` are our services, a word for each; what is not NYR_AVAILABLE in it is told as UNAVAILABLE. Asked for all, they
 * are told in their order; asked for one, the last of that ID is, and one that is not there as UNAVAILABLE.
 * `services` is what the partners of Issue 3 told of theirs: a block of NYR_SERVICES_WORDS for each, in the order of
 * their numbers. In a block stand the services in the order in which they were first told, a word for each, up to the
 * first word with NYR_UNHEARD; so words of 0 are a fresh state, and any words are one. A status of services is noted
 * pair by pair, the last one of an ID counts, and what it does not name stays; UP to DOWN makes all that are known of
 * its sender UNAVAILABLE. With partners set up otherwise the blocks are others, and are to be made fresh.
 *   30 to 33 for the table (_in: 30 where the sections do not lie in it); then 1 to 9 as of nyr_read_mixed; then 61;
 *   then 10 where a status of services, or UP to DOWN, finds its sender's block not whole in the lent words; then 63;
 *   then 5 where all of ours are asked for and these are 2^29 or more; then 10 where the replies do not fit.
 * Writes in services no word but of the sender's block. With nobody set up it does what nyr_receive does, and services
 * stay.
 * Stack 16384, _in 8192; time: as of nyr_receive and nyr_receive_in; the services that a message tells of, times those
 * known of its sender; and ours, where they are asked for.
 */
uint32_t nyr_receive_mixed(uint8_t own, const nyr_stamp *stamp, const nyr_partners *partners, const uint64_t *ours,
                           size_t ours_words, nyr_platform *platform, uint64_t *services, size_t services_words,
                           const uint8_t *table, size_t table_length, const uint8_t *message, size_t message_length,
                           uint8_t *output, size_t output_length, nyr_any_heard *heard);

uint32_t nyr_receive_mixed_in(uint8_t own, const nyr_stamp *stamp, const nyr_partners *partners, const uint64_t *ours,
                              size_t ours_words, nyr_platform *platform, uint64_t *services, size_t services_words,
                              const uint8_t *table, size_t table_length, const nyr_sections *sections,
                              const uint8_t *message, size_t message_length, uint8_t *output, size_t output_length,
                              nyr_any_heard *heard);

/*
 * nyr_send in the target's issue: with a header of 24 bytes and the stamp's timestamp where the target is set up as
 * Issue 3, else as nyr_send writes it; a target above 255 is in no set-up. The stamp's composite is not looked at.
 *   30, 62, 60, 5, 10 as of nyr_send; 10 where output is shorter than that header and the payload.
 * Stack 1024; time as of nyr_send.
 */
uint32_t nyr_send_mixed(uint8_t own, const nyr_stamp *stamp, const nyr_partners *partners, nyr_platform *platform,
                        const uint8_t *table, size_t table_length, const nyr_sections *sections, uint32_t id,
                        uint32_t target, const uint8_t *payload, size_t payload_length, uint8_t *output,
                        size_t output_length, nyr_sent *sent);

/*
 * What is known of a partner's service: NYR_UNHEARD, NYR_UNAVAILABLE or NYR_AVAILABLE. Of one that is not set up as
 * Issue 3, or above 255, NYR_UNHEARD; words of its block that are not there count as 0.
 * Stack 256; time: the services known of it.
 */
uint32_t nyr_service(const nyr_partners *partners, const uint64_t *services, size_t services_words, uint32_t platform,
                     uint32_t id);

#ifdef __cplusplus
}
#endif

#endif
