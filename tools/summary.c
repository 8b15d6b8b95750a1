/*
 * summary RECORDING LINES: the table that ./replay --summary writes, told from a recording and the lines that it gave. What became of
 * a datagram stands in its line, whose channel it is in the recording: its sender ID is the low 12 bits of its first two bytes. What
 * is refused (21, 22, 23) belongs to no channel.
 */
#include <inttypes.h>
#include <stdio.h>
#include <stdlib.h>
#include <string.h>

enum { OUTCOMES = 5, CHANNELS = 32, NUMBERS = 100 };

static const char *const names[OUTCOMES] = {"delivered", "held", "repeated", "stray", "too long"};

static struct {
    unsigned sender;
    uint64_t outcomes[OUTCOMES], missed;
} channels[CHANNELS];
static unsigned count;
static uint64_t refused[NUMBERS];
static uint8_t datagram[65535];

static int fail(const char *what, uint64_t number)
{
    fprintf(stderr, "summary: %s, at datagram %" PRIu64 "\n", what, number);
    return 1;
}

static int read_number(FILE *recording, unsigned *number)
{
    uint8_t bytes[2];
    if (fread(bytes, 1, 2, recording) != 2)
        return 0;
    *number = (unsigned)bytes[0] << 8 | bytes[1];
    return 1;
}

/* How many channels the recording sets up; 0 where its start is cut short. */
static unsigned read_start(FILE *recording)
{
    unsigned set_up, skipped;
    if (!read_number(recording, &set_up) || set_up > CHANNELS || !read_number(recording, &skipped) ||
        !read_number(recording, &skipped))
        return 0;
    for (unsigned k = 0; k < set_up; k++)
        if (!read_number(recording, &channels[k].sender))
            return 0;
    return set_up;
}

/* Counts what a line says behind its number of the datagram that was just read; 0 where it cannot. */
static int note(const char *said, unsigned length)
{
    unsigned k, o;
    if (strncmp(said, " refused ", 9) == 0) {
        unsigned long number = strtoul(said + 9, NULL, 10);
        if (number >= NUMBERS)
            return 0;
        refused[number]++;
        return 1;
    }
    for (k = 0; k < count && (length < 2 || channels[k].sender != ((datagram[0] & 15u) << 8 | datagram[1])); k++)
        ;
    for (o = 0; o < OUTCOMES && strncmp(said + 1, names[o], strlen(names[o])) != 0; o++)
        ;
    if (k == count || o == OUTCOMES)
        return 0;
    channels[k].outcomes[o]++;
    channels[k].missed += strtoull(said + 1 + strlen(names[o]), NULL, 10);
    return 1;
}

static int print(void)
{
    int any = 0;
    printf("\n%6s", "sender");
    for (unsigned o = 0; o < OUTCOMES; o++)
        printf(" %10s", names[o]);
    printf(" %10s\n", "missed");
    for (unsigned k = 0; k < count; k++) {
        printf("0x%04X", channels[k].sender);
        for (unsigned o = 0; o < OUTCOMES; o++)
            printf(" %10" PRIu64, channels[k].outcomes[o]);
        printf(" %10" PRIu64 "\n", channels[k].missed);
    }
    printf("refused:");
    for (unsigned n = 0; n < NUMBERS; n++)
        if (refused[n] > 0)
            any = printf("%s %" PRIu64 " with %u", any ? "," : "", refused[n], n);
    puts(any ? "" : " none");
    return fflush(stdout) == 0 && !ferror(stdout) ? 0 : fail("the table cannot be written", 0);
}

int main(int argc, char **argv)
{
    FILE *recording, *lines;
    char line[128], *said;
    uint64_t number = 0;
    unsigned length;
    if (argc != 3) {
        fprintf(stderr, "usage: %s RECORDING LINES\n", argv[0]);
        return 2;
    }
    recording = fopen(argv[1], "rb");
    lines = fopen(argv[2], "r");
    if (recording == NULL || lines == NULL)
        return fail("the recording or its lines cannot be opened", 0);
    count = read_start(recording);
    for (; fgets(line, sizeof line, lines) != NULL; number++) {
        if (strncmp(line, "setup refused", 13) == 0)
            count = 0;
        if (strtoull(line, &said, 10) != number || said == line)
            break;
        if (!read_number(recording, &length) || fread(datagram, 1, length, recording) != length)
            return fail("the recording ends before its lines", number);
        if (!note(said, length))
            return fail("a line that is none of the recording's", number);
    }
    if (ferror(recording) || ferror(lines))
        return fail("the recording or its lines cannot be read", number);
    if (count == 0) {
        puts("\nno channel was set up");
        return fflush(stdout) == 0 ? 0 : 1;
    }
    return print();
}
