/* stack: runs each call on a stack of its own, filled with a pattern, on inputs that go deep, and sees that it takes no
 * more than the header says. The calls that take most run once more on a thread that has just that stack. */
#define _XOPEN_SOURCE 700
#define _DEFAULT_SOURCE
#include "stack.h"

#include <pthread.h>
#include <stdio.h>
#include <string.h>
#include <sys/mman.h>
#include <ucontext.h>

enum {
    STACK = 1 << 20,
    FORBIDDEN = 1 << 16, /* a page at the least, on any machine */
    PATTERN = 0xA5
};

static uint8_t *stack;
static ucontext_t here, there;

static void nothing(void)
{
}

static size_t taken[BOUNDS];
static int failed;

/* How much of the stack a function uses, from the top. */
static size_t used(void (*call)(void))
{
    size_t untouched = 0;
    memset(stack, PATTERN, STACK);
    getcontext(&there);
    there.uc_stack.ss_sp = stack;
    there.uc_stack.ss_size = STACK;
    there.uc_link = &here;
    makecontext(&there, call, 0);
    swapcontext(&here, &there);
    while (untouched < STACK && stack[untouched] == PATTERN)
        untouched++;
    return STACK - untouched;
}

static size_t bound_of(void (*call)(void))
{
    size_t b = 0;
    while (bounds[b].call != call)
        b++;
    return b;
}

static void expect(size_t b, uint32_t expected)
{
    if (number != expected) {
        printf("stack: %s answers %u and not %u\n", bounds[b].name, (unsigned)number, (unsigned)expected);
        failed = 1;
    }
}

/* Twice from the same state: the first time the functions of C that a call uses may have to be found. */
static void measure(void (*call)(void), uint32_t expected)
{
    size_t around = used(nothing), bytes, b = bound_of(call);
    nyr_joiner joiner_before = joiner;
    nyr_platform platform_before = platform;
    used(call);
    joiner = joiner_before;
    platform = platform_before;
    bytes = used(call);
    bytes = bytes > around ? bytes - around : 0;
    expect(b, expected);
    if (bytes > bounds[b].most) {
        printf("stack: %s takes %zu bytes, and the header says %zu\n", bounds[b].name, bytes, bounds[b].most);
        failed = 1;
    }
    if (bytes > taken[b])
        taken[b] = bytes;
}

static void *on_thread(void *bound)
{
    ((const Bound *)bound)->call();
    return NULL;
}

/* On a thread whose stack is what the header says, with what the thread itself needs of it, and forbidden memory right below: a
 * call that takes more ends the program. */
static void confine(void (*call)(void), uint32_t expected)
{
    pthread_attr_t attributes;
    pthread_t thread;
    size_t b = bound_of(call), length = FORBIDDEN + bounds[b].most;
    uint8_t *memory = mmap(NULL, length, PROT_READ | PROT_WRITE, MAP_PRIVATE | MAP_ANONYMOUS, -1, 0);
    number = ~expected;
    if (memory == MAP_FAILED || mprotect(memory, FORBIDDEN, PROT_NONE) != 0 || pthread_attr_init(&attributes) != 0 ||
        pthread_attr_setstack(&attributes, memory + FORBIDDEN, bounds[b].most) != 0 ||
        pthread_create(&thread, &attributes, on_thread, (void *)&bounds[b]) != 0 || pthread_join(thread, NULL) != 0) {
        printf("stack: no thread for %s\n", bounds[b].name);
        failed = 1;
        return;
    }
    pthread_attr_destroy(&attributes);
    munmap(memory, length);
    expect(b, expected);
}

/* By the plans of the table, and by none. */
static void by_plans(void)
{
    measure(call_plans_length, 0);
    measure(call_plans, 0);
    for (int laid = 0; laid < 2; laid++) {
        plans_length = laid ? NYR_PLANS_WORDS : 0;
        measure(call_unpack_by, 0);
        measure(call_pack_by, 0);
        confine(call_unpack_by, 0);
        confine(call_pack_by, 0);
    }
}

static void payloads(void)
{
    measure(call_check_table, 0);
    measure(call_find, 0);
    measure(call_unpack, 0);
    measure(call_unpack_in, 0);
    measure(call_pack, 0);
    measure(call_pack_in, 0);
    confine(call_unpack, 0);
    confine(call_unpack_in, 0);
    confine(call_pack, 0);
    confine(call_pack_in, 0);
    by_plans();
}

static void joining(void)
{
    for (uint16_t k = 0; k < NYR_CHANNELS; k++)
        ids[k] = (uint16_t)(NYR_CHANNELS - k);
    measure(call_setup, 0);
    for (int last = 0; last < 2; last++) {
        memset(message, 0, NYR_DATAGRAM_HEADER);
        message[0] = (uint8_t)(last ? 0x20 : 0);
        message[1] = 1;
        message[3] = (uint8_t)last;
        datagram_length = last ? 40 : NYR_LARGEST_DATAGRAM;
        measure(call_take, 0);
    }
    measure(call_pieces, 0);
    measure(call_cut, 0);
}

/* Each platform message and an operation that the table has or has not, by the table and by its sections. */
static void messages(void)
{
    static const struct {
        uint8_t domain, id, value[4], length;
    } each[] = {{0, 1, {0, 0, 0, 1}, 4}, {0, 1, {0, 0, 0, 0}, 4},         {0, 2, {0}, 0},        {0, 3, {0, 0, 0, 9}, 4},
                {0, 4, {0, 0, 0, 7}, 4}, {0, 4, {255, 255, 255, 255}, 4}, {1, EVENT_ID, {0}, 0}, {1, 8, {0}, 4}};
    measure(call_write, 0);
    measure(call_start, 0);
    for (size_t i = 0; i < sizeof each / sizeof *each; i++) {
        make_message(each[i].domain, each[i].id, each[i].value, each[i].length);
        measure(call_read, 0);
        call_start();
        measure(call_receive, 0);
        call_start();
        measure(call_receive_in, 0);
    }
    measure(call_is_up, 0);
    measure(call_how_many_up, 0);
    measure(call_library_version, 0);
}

/* Requests where all places but one are pending, and where all are; the response to the last, and the same once more. */
static void requests(void)
{
    make_pending(NYR_MOST_PENDING - 1);
    measure(call_send, 0);
    measure(call_send, NYR_LIST_FULL);
    make_message(1, REQUEST_ID, NULL, 0);
    for (int in = 0; in < 2; in++) {
        make_pending(NYR_MOST_PENDING);
        measure(in ? call_receive_in : call_receive, 0);
        measure(in ? call_receive_in : call_receive, NYR_NOT_AWAITED);
    }
    make_pending(NYR_MOST_PENDING);
    measure(call_pending, 0);
    measure(call_cancel, 0);
    measure(call_pending, 0);
    measure(call_cancel, 0);
}

/* Each platform message of Issue 3, an operation, and Issue 6's form from the same partner, which is refused. */
static void partners_of_issue_3(void)
{
    measure(call_partners_set, 0);
    for (uint8_t id = NYR_STATUS_3; id <= NYR_COMPOSITE_ACK_3; id++) {
        make_message_3(id, 1);
        measure(call_read_mixed, 0);
    }
    make_message_3(NYR_COMPOSITE_ACK_3, 2);
    measure(call_read_mixed, NYR_PLATFORM_VALUE);
    make_message_3(NYR_SERVICES_3, 0);
    measure(call_write_3, 0);
    message[2] |= NYR_OPERATION_DOMAIN;
    measure(call_read_mixed, 0);
    measure(call_write_3, 0);
    make_message(0, NYR_REQUEST, NULL, 0);
    measure(call_read_mixed, NYR_VERSION);
    measure(call_receive_mixed, NYR_VERSION);
    memset(&partners, 0, sizeof partners);
    measure(call_read_mixed, 0);
}

/* Both calls on a message that stands there. */
static void heard_by_issue(uint32_t expected)
{
    measure(call_receive_mixed, expected);
    measure(call_receive_mixed_in, expected);
}

/* Each platform message of Issue 3, DOWN to UP and UP to DOWN among them; operations, responses and requests of both issues. */
static void among_partners(void)
{
    call_partners_set();
    for (uint8_t id = NYR_STATUS_3; id <= NYR_COMPOSITE_ACK_3; id++) {
        call_start();
        make_message_3(id, 1);
        heard_by_issue(0);
    }
    call_start();
    platform.up[0] |= UINT64_C(1) << OTHER;
    make_message_3(NYR_STATUS_3, 0);
    heard_by_issue(0);
    memset(message + NYR_MESSAGE_HEADER_3, 0xFF, 4);
    message[7] = NYR_SERVICES_REQUEST_3;
    message[19] = 4;
    message_length = NYR_MESSAGE_HEADER_3 + 4;
    heard_by_issue(0);
    message[7] = NYR_PULL_3;
    heard_by_issue(0);
    measure(call_service, 0);
    for (int issue = NYR_ISSUE_3; issue <= NYR_ISSUE_6; issue += 3) {
        static const uint8_t each[] = {EVENT_ID, 8, REQUEST_ID};
        nyr_partners_set(&partners, OTHER, (uint32_t)issue);
        for (size_t i = 0; i < sizeof each; i++) {
            make_message(1, each[i], NULL, 0);
            if (issue == NYR_ISSUE_3) {
                make_message_3(NYR_REQUEST_3, 0);
                message[2] |= NYR_OPERATION_DOMAIN;
                message[7] = each[i];
            }
            make_pending(NYR_MOST_PENDING);
            measure(call_receive_mixed, 0);
            make_pending(NYR_MOST_PENDING);
            measure(call_receive_mixed_in, 0);
        }
        make_pending(NYR_MOST_PENDING - 1);
        measure(call_send_mixed, 0);
        measure(call_send_mixed, NYR_LIST_FULL);
    }
}

int main(int argc, char **argv)
{
    stack = mmap(NULL, STACK, PROT_READ | PROT_WRITE, MAP_PRIVATE | MAP_ANONYMOUS, -1, 0);
    if (stack == MAP_FAILED) {
        puts("stack: no memory");
        return 2;
    }
    joining();
    for (int kind = RECORD; kind <= ARRAY; kind++) {
        nest(kind);
        payloads();
    }
    nest(0);
    payloads();
    enumerate();
    payloads();
    spread();
    payloads();
    messages();
    requests();
    partners_of_issue_3();
    among_partners();
    if (argc > 1 && strcmp(argv[1], "show") == 0)
        for (size_t b = 0; b < BOUNDS; b++)
            printf("%-20s %6zu of %6zu\n", bounds[b].name, taken[b], bounds[b].most);
    if (!failed)
        puts("stack: no call takes more than the header says");
    return failed;
}
