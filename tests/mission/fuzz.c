/* fuzz CALLS [SEED]: so many calls of the C interface, at random; what is out of place stops it, with the seed. */
#include "fuzz.h"

#include <stdio.h>
#include <stdlib.h>

/* Every number but 5 of writing (a payload of 4 GB) and every case of an answer, or how many are missing. */
static int missing(void)
{
    uint64_t numbers = 0, lacks[7];
    int count = 0;
    static const int groups[][2] = {{1, 10}, {20, 23}, {30, 33}, {40, 45}, {50, 52}, {60, 63}};
    for (size_t g = 0; g < sizeof groups / sizeof *groups; g++)
        for (int number = groups[g][0]; number <= groups[g][1]; number++)
            numbers |= N(number);
    lacks[0] = numbers & ~numbers_met;
    lacks[1] = 0x3F & ~outcomes_met;
    lacks[2] = 0x3E & ~kinds_met;
    lacks[3] = 0x3FE & ~heard_met;
    lacks[4] = 0x7FF & ~plans_met;
    lacks[5] = UINT64_C(0x079003FE003E07FE) & ~mixed_met;
    lacks[6] = UINT64_C(0x1FF03FE7FFE) & ~among_met;
    for (int i = 0; i < 7; i++)
        for (int bit = 0; bit < 64; bit++)
            if (lacks[i] >> bit & 1) {
                static const char *const what[] = {"number",   "outcome",    "kind",          "what was heard",
                                                   "of plans", "of Issue 3", "among partners"};
                printf("fuzz: never met: %s %d\n", what[i], bit);
                count++;
            }
    return count;
}

int main(int argc, char **argv)
{
    static void (*const families[])(void) = {
        fuzz_setup,        fuzz_take,       fuzz_take,       fuzz_take,    fuzz_take,    fuzz_take,
        fuzz_take,         fuzz_take,       fuzz_cut,        fuzz_read,    fuzz_send,    fuzz_send,
        fuzz_cancel,       fuzz_write,      fuzz_receive,    fuzz_receive, fuzz_receive, fuzz_receive,
        fuzz_receive,      fuzz_pack,       fuzz_pack,       fuzz_unpack,  fuzz_unpack,  fuzz_table,
        fuzz_table,        fuzz_table,      fuzz_pending,    fuzz_plans,   fuzz_plans,   fuzz_plans,
        fuzz_partners_set, fuzz_read_mixed, fuzz_read_mixed, fuzz_write_3, fuzz_receive_mixed, fuzz_receive_mixed,
        fuzz_receive_mixed, fuzz_receive_mixed, fuzz_receive_mixed, fuzz_receive_mixed, fuzz_receive_mixed,
        fuzz_receive_mixed, fuzz_send_mixed, fuzz_send_mixed, fuzz_table, fuzz_table, fuzz_service};
    uint64_t most = argc > 1 ? strtoull(argv[1], NULL, 10) : 0, from = argc > 2 ? strtoull(argv[2], NULL, 10) : 1;
    if (most == 0) {
        fprintf(stderr, "usage: %s CALLS [SEED]\n", argv[0]);
        return 2;
    }
    lent_start();
    seed(from);
    calling("nyr_library_version");
    expect(nyr_library_version() == NYR_LIBRARY_VERSION, "the archive is of another version than the header");
    fuzz_setup();
    while (calls < most) {
        families[below(sizeof families / sizeof *families)]();
        /* A state is asked for each of 256 platforms: seldom. */
        if (one_in(2000))
            fuzz_states();
    }
    printf("fuzz: %llu calls from seed %llu, %llu accepted, nothing out of place\n", (unsigned long long)calls,
           (unsigned long long)from, (unsigned long long)accepted);
    return most >= 100000 && missing() > 0 ? 1 : 0;
}
