/*
 * joined [RECORDING]: joins the datagrams of a recording, or of standard input, through the C interface, and prints the lines that
 * ./replay prints. A recording may have any length: one datagram is in memory at a time.
 */
#include "nyrkovash.h"

#include <inttypes.h>
#include <stdio.h>

enum { MOST_ROOMS = 65536 }; /* a recording's limit for all rooms together */

static uint8_t rooms[MOST_ROOMS], datagram[65535];
static nyr_joiner joiner;
static size_t rooms_length;

/* Whether a number of so many bytes came, big endian. */
static int came(FILE *recording, int width, size_t *number)
{
    for (*number = 0; width > 0; width--) {
        int byte = getc(recording);
        if (byte == EOF)
            return 0;
        *number = *number << 8 | (size_t)byte;
    }
    return 1;
}

/* Sets the joiner up as the recording's start says, or ends with a line that says why not. */
static const char *set_up(FILE *recording)
{
    uint16_t ids[NYR_CHANNELS];
    size_t channels, room, id;
    if (!came(recording, 2, &channels) || !came(recording, 4, &room))
        return "cut short";
    if (channels < 1 || channels > NYR_CHANNELS || room < NYR_SMALLEST_ROOM || room > MOST_ROOMS / channels)
        return "setup refused 20";
    rooms_length = channels * room;
    for (size_t k = 0; k < channels; k++) {
        if (!came(recording, 2, &id))
            return "cut short";
        ids[k] = (uint16_t)id;
    }
    return nyr_setup(&joiner, ids, channels, (uint32_t)room, rooms_length) == NYR_OK ? NULL : "setup refused 20";
}

static void take(uint64_t number, size_t length)
{
    static const char *const outcomes[] = {"", "repeated", "delivered", "held", "stray", "too long"};
    nyr_taken taken;
    uint32_t refused = nyr_take(&joiner, rooms, rooms_length, datagram, length, &taken);
    if (refused != NYR_OK)
        printf("%" PRIu64 " refused %" PRIu32 "\n", number, refused);
    else
        printf("%" PRIu64 " %s %" PRIu64 " %" PRIu64 "\n", number, outcomes[taken.outcome], taken.missed, taken.bytes);
}

/* Takes every datagram; the line that the run ends with, if any. */
static const char *join(FILE *recording)
{
    size_t length;
    int byte;
    for (uint64_t number = 0; (byte = getc(recording)) != EOF; number++) {
        ungetc(byte, recording);
        if (!came(recording, 2, &length) || fread(datagram, 1, length, recording) != length)
            return "cut short";
        take(number, length);
    }
    return NULL;
}

int main(int argc, char **argv)
{
    FILE *recording = argc > 1 ? fopen(argv[1], "rb") : stdin;
    const char *name = argc > 1 ? argv[1] : "standard input", *end;
    if (recording == NULL) {
        perror(name);
        return 1;
    }
    if ((end = set_up(recording)) == NULL)
        end = join(recording);
    if (ferror(recording)) {
        perror(name);
        return 1;
    }
    if (end != NULL)
        puts(end);
    if (fflush(stdout) != 0 || ferror(stdout)) {
        perror("standard output");
        return 1;
    }
    return 0;
}
