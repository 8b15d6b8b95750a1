/* Each call of the header on the inputs that stand here, and how much stack it may take. */
#include "stack.h"

uint8_t table[LARGEST_TABLE], rooms[NYR_CHANNELS * NYR_LARGEST_ROOM], message[70000], output[70000];
size_t table_length, datagram_length, message_length, payload_length, words_length, plans_length, given;
uint16_t ids[NYR_CHANNELS], type_number;
uint64_t words[70000], plans[NYR_PLANS_WORDS];
nyr_walked walked;
nyr_joiner joiner;
nyr_sections sections;
nyr_platform platform;
nyr_partners partners;
uint32_t number;

enum { OURS = 8746 };
static const nyr_stamp stamp = {2, 3, 4};
static uint64_t services[NYR_SERVICES_WORDS];

void call_setup(void)
{
    number = nyr_setup(&joiner, ids, NYR_CHANNELS, NYR_LARGEST_ROOM, sizeof rooms);
}

void call_take(void)
{
    nyr_taken answer;
    number = nyr_take(&joiner, rooms, sizeof rooms, message, datagram_length, &answer);
}

void call_pieces(void)
{
    number = nyr_pieces(NYR_LARGEST_MESSAGE, 1400, &given);
}

void call_cut(void)
{
    number = nyr_cut(message, NYR_LARGEST_MESSAGE, NYR_LARGEST_PIECE, 1, 65535, 0, output, sizeof output, &given);
}

void call_read(void)
{
    nyr_message answer;
    number = nyr_read(1, message, message_length, &answer);
}

void call_write(void)
{
    number = nyr_write(1, NYR_OPERATION_DOMAIN, EVENT_ID, 1, message, 65536, output, sizeof output, &given);
}

void call_check_table(void)
{
    number = nyr_check_table(table, table_length, &sections);
}

void call_find(void)
{
    nyr_operation operation;
    number = nyr_find(table, table_length, &sections, EVENT_ID, &operation);
}

void call_unpack(void)
{
    number = nyr_unpack(table, table_length, type_number, message, payload_length, words, 70000, &walked);
}

void call_unpack_in(void)
{
    number = nyr_unpack_in(table, table_length, &sections, type_number, message, payload_length, words, 70000, &walked);
}

void call_pack(void)
{
    number = nyr_pack(table, table_length, type_number, words, words_length, output, sizeof output, &walked);
}

void call_pack_in(void)
{
    number =
        nyr_pack_in(table, table_length, &sections, type_number, words, words_length, output, sizeof output, &walked);
}

void call_plans_length(void)
{
    number = nyr_plans_length(table, table_length, &sections, &given);
}

void call_plans(void)
{
    number = nyr_plans(table, table_length, &sections, plans, NYR_PLANS_WORDS);
}

void call_unpack_by(void)
{
    number = nyr_unpack_by(table, table_length, &sections, plans, plans_length, type_number, message, payload_length,
                           words, 70000, &walked);
}

void call_pack_by(void)
{
    number = nyr_pack_by(table, table_length, &sections, plans, plans_length, type_number, words, words_length, output,
                         sizeof output, &walked);
}

void call_start(void)
{
    number = nyr_start(1, &platform);
}

void call_receive(void)
{
    nyr_heard heard;
    number = nyr_receive(1, &platform, table, table_length, message, message_length, output, sizeof output, &heard);
}

void call_receive_in(void)
{
    nyr_heard heard;
    number = nyr_receive_in(1, &platform, table, table_length, &sections, message, message_length, output,
                            sizeof output, &heard);
}

void call_is_up(void)
{
    number = nyr_is_up(1, &platform, 200) & 0;
}

void call_how_many_up(void)
{
    number = nyr_how_many_up(1, &platform) & 0;
}

void call_send(void)
{
    nyr_sent sent;
    number = nyr_send(1, &platform, table, table_length, &sections, REQUEST_ID, OTHER, message, 65536, output,
                      sizeof output, &sent);
}

void call_cancel(void)
{
    number = nyr_cancel(&platform, LAST_PENDING, &given);
}

void call_pending(void)
{
    nyr_awaited awaited;
    number = nyr_pending(&platform, LAST_PENDING, &awaited);
}

void call_partners_set(void)
{
    number = nyr_partners_set(&partners, OTHER, NYR_ISSUE_3);
}

void call_read_mixed(void)
{
    nyr_any_message answer;
    number = nyr_read_mixed(1, &partners, message, message_length, &answer);
}

/* The message's payload: in domain 1, or in domain 0 as one of services. */
void call_write_3(void)
{
    uint8_t domain = message[2] & 15;
    number = nyr_write_3(1, 2, 3, domain, NYR_SERVICES_3, 4, message + NYR_MESSAGE_HEADER_3,
                         message_length - NYR_MESSAGE_HEADER_3, output, sizeof output, &given);
}

/* Of our services there are as many as the output can tell. */
void call_receive_mixed(void)
{
    nyr_any_heard heard;
    number = nyr_receive_mixed(1, &stamp, &partners, words, OURS, &platform, services, NYR_SERVICES_WORDS, table,
                               table_length, message, message_length, output, sizeof output, &heard);
}

void call_receive_mixed_in(void)
{
    nyr_any_heard heard;
    number = nyr_receive_mixed_in(1, &stamp, &partners, words, OURS, &platform, services, NYR_SERVICES_WORDS, table,
                                  table_length, &sections, message, message_length, output, sizeof output, &heard);
}

void call_send_mixed(void)
{
    nyr_sent sent;
    number = nyr_send_mixed(1, &stamp, &partners, &platform, table, table_length, &sections, REQUEST_ID, OTHER, message,
                            65536, output, sizeof output, &sent);
}

void call_service(void)
{
    number = nyr_service(&partners, services, NYR_SERVICES_WORDS, OTHER, 9) & 0;
}

void call_library_version(void)
{
    number = nyr_library_version() & 0;
}

const Bound bounds[BOUNDS] = {
    {"nyr_setup", call_setup, 4096},
    {"nyr_take", call_take, 1024},
    {"nyr_pieces", call_pieces, 256},
    {"nyr_cut", call_cut, 1024},
    {"nyr_read", call_read, 256},
    {"nyr_write", call_write, 1024},
    {"nyr_check_table", call_check_table, 4096},
    {"nyr_find", call_find, 1024},
    {"nyr_unpack", call_unpack, 131072},
    {"nyr_unpack_in", call_unpack_in, 131072},
    {"nyr_pack", call_pack, 131072},
    {"nyr_pack_in", call_pack_in, 131072},
    {"nyr_plans_length", call_plans_length, 1024},
    {"nyr_plans", call_plans, 4096},
    {"nyr_unpack_by", call_unpack_by, 131072},
    {"nyr_pack_by", call_pack_by, 131072},
    {"nyr_start", call_start, 256},
    {"nyr_receive", call_receive, 16384},
    {"nyr_receive_in", call_receive_in, 4096},
    {"nyr_is_up", call_is_up, 256},
    {"nyr_how_many_up", call_how_many_up, 256},
    {"nyr_send", call_send, 1024},
    {"nyr_cancel", call_cancel, 256},
    {"nyr_pending", call_pending, 256},
    {"nyr_partners_set", call_partners_set, 256},
    {"nyr_read_mixed", call_read_mixed, 512},
    {"nyr_write_3", call_write_3, 1024},
    {"nyr_receive_mixed", call_receive_mixed, 16384},
    {"nyr_receive_mixed_in", call_receive_mixed_in, 8192},
    {"nyr_send_mixed", call_send_mixed, 1024},
    {"nyr_service", call_service, 256},
    {"nyr_library_version", call_library_version, 256},
};
