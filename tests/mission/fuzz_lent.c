/* Lent buffers and what may not change in them, and the randomness. */
#define _DEFAULT_SOURCE
#include "fuzz.h"

#include <signal.h>
#include <stdio.h>
#include <stdlib.h>
#include <string.h>
#include <sys/mman.h>
#include <unistd.h>

enum { CANARY = 64, CANARY_BYTE = 0xA5, UNWRITTEN = 0xC3, ROOM = 1 << 22 };

uint64_t calls, accepted, numbers_met, outcomes_met, kinds_met, heard_met;
static uint64_t state, seeded;
static const char *name = "";
static Lent lents[BUFFERS];
static int live[BUFFERS];

void seed(uint64_t from)
{
    state = seeded = from;
}

/* splitmix64 */
uint64_t any(void)
{
    uint64_t z = state += UINT64_C(0x9E3779B97F4A7C15);
    z = (z ^ z >> 30) * UINT64_C(0xBF58476D1CE4E5B9);
    z = (z ^ z >> 27) * UINT64_C(0x94D049BB133111EB);
    return z ^ z >> 31;
}

uint64_t narrow(void)
{
    uint64_t bits = any();
    return bits >> below(64);
}

size_t below(size_t limit)
{
    return (size_t)(any() % limit);
}

int one_in(size_t times)
{
    return below(times) == 0;
}

size_t near(size_t right)
{
    switch (below(24)) {
    case 0: return right + 1;
    case 1: return right - 1;
    case 2: return 0;
    case 3: return below(70000);
    case 4: return (size_t)narrow();
    default: return right;
    }
}


void scramble(uint8_t *bytes, size_t length)
{
    for (size_t i = 1 + below(3); length > 0 && i > 0; i--) {
        size_t at = below(length);
        bytes[at] = (uint8_t)(one_in(2) ? any() : below(4));
    }
}

void fill(void *bytes, size_t length)
{
    uint8_t *to = bytes;
    uint64_t word = any();
    for (size_t i = 0; i < length; i++) {
        if (i % 8 == 0)
            word = word * UINT64_C(6364136223846793005) + UINT64_C(1442695040888963407);
        to[i] = (uint8_t)(word >> 8 * (i % 8));
    }
}

void copy(void *to, const void *from, size_t bytes)
{
    if (bytes > 0)
        memcpy(to, from, bytes);
}

int differ(const void *one, const void *other, size_t bytes)
{
    return bytes > 0 && memcmp(one, other, bytes) != 0;
}

static void stop(const char *what)
{
    printf("fuzz: seed %llu, call %llu, %s: %s\n", (unsigned long long)seeded, (unsigned long long)calls, name, what);
    fflush(stdout);
    exit(1);
}

void expect(int holds, const char *what)
{
    if (!holds)
        stop(what);
}

static void touched(int signal)
{
    (void)signal;
    stop("touched a page that it was not lent, or stopped");
}

void lent_start(void)
{
    size_t page = (size_t)sysconf(_SC_PAGESIZE);
    static const int signals[] = {SIGSEGV, SIGBUS, SIGILL, SIGFPE, SIGABRT};
    for (size_t i = 0; i < sizeof signals / sizeof *signals; i++)
        signal(signals[i], touched);
    for (int b = 0; b < BUFFERS; b++) {
        uint8_t *pages = mmap(NULL, ROOM + 2 * page, PROT_NONE, MAP_PRIVATE | MAP_ANONYMOUS, -1, 0);
        lents[b].before = malloc(ROOM);
        if (pages == MAP_FAILED || mprotect(pages + page, ROOM, PROT_READ | PROT_WRITE) != 0 ||
            lents[b].before == NULL) {
            puts("fuzz: no memory");
            exit(2);
        }
        lents[b].pages = pages + page;
        lents[b].room = ROOM;
    }
}

static uint8_t *canary(const Lent *l)
{
    return l->at == l->pages ? l->at + l->length : l->at - CANARY;
}

void *lend(int buffer, const void *bytes, size_t elements, size_t width)
{
    Lent *l = &lents[buffer];
    l->length = elements * width;
    expect(l->length + CANARY <= l->room, "the fuzz run lends more than it has");
    l->at = one_in(4) ? l->pages : l->pages + l->room - l->length;
    memset(canary(l), CANARY_BYTE, CANARY);
    if (bytes != NULL)
        memcpy(l->at, bytes, l->length);
    else
        fill(l->at, l->length);
    memcpy(l->before, l->at, l->length);
    l->from = l->to = l->field = 0;
    l->tells = 0;
    live[buffer] = 1;
    if (elements == 0)
        return one_in(2) ? NULL : l->pages + l->room;
    return l->at;
}

void may_change(int buffer, size_t from, size_t to, size_t width)
{
    lents[buffer].from = from * width;
    lents[buffer].to = to * width;
}

void must_tell(int buffer, size_t from, size_t to, size_t width)
{
    may_change(buffer, from, to, width);
    lents[buffer].tells = 1;
}

void *lend_answer(int buffer, size_t size, size_t field)
{
    static uint8_t unwritten[sizeof(nyr_sections)];
    void *at;
    expect(size <= sizeof unwritten, "the fuzz run lends a larger answer than it has");
    memset(unwritten, UNWRITTEN, size);
    at = lend(buffer, unwritten, 1, size);
    may_change(buffer, 0, 1, size);
    lents[buffer].field = field;
    return at;
}

/* An answer's fields that may change are all written. */
static int all_written(const Lent *l)
{
    for (size_t at = l->from; l->field > 0 && at < l->to; at += l->field) {
        size_t i = 0;
        while (i < l->field && l->at[at + i] == UNWRITTEN)
            i++;
        if (i == l->field)
            return 0;
    }
    return 1;
}

void calling(const char *call)
{
    name = call;
    memset(live, 0, sizeof live);
    calls++;
}

uint32_t called(uint32_t number, uint64_t numbers)
{
    expect(number == 0 || (number < 64 && (numbers >> number & 1)), "a number that this call does not give");
    accepted += number == 0;
    numbers_met |= N(number);
    for (int b = 0; b < BUFFERS; b++) {
        const Lent *l = &lents[b];
        int answers = number == 0 || l->tells;
        size_t from = answers ? l->from : 0, to = answers ? l->to : 0;
        if (!live[b])
            continue;
        for (size_t i = 0; i < CANARY; i++)
            expect(canary(l)[i] == CANARY_BYTE, "wrote beside what it was lent");
        expect(from <= to && to <= l->length, "says that it wrote more than it was lent");
        expect(memcmp(l->at, l->before, from) == 0 && memcmp(l->at + to, l->before + to, l->length - to) == 0,
               number == 0 ? "changed what is not its answer" : "changed something, and refused");
        expect(!answers || all_written(l), "a field of its answer is not written");
    }
    return number;
}
