/* startup: the start-up of two platforms, message by message (000, 6.3 and Figure 4): messages 1 to 4, 6 and 7 with their bytes,
 * what each platform hears, with its sequence number, and owes for it, and the silence after. Messages 5 and 8 are the versioned
 * data itself, which is the components' to send. */
#include "nyrkovash.h"

#include <inttypes.h>
#include <stdio.h>

/* One type (uint8), no members, no enum values, and one operation: 7, versioned data of that type. */
static const uint8_t table[] = {0, 1, 0, 0, 0, 6, 0, 0, 0, 0, 0, 0, 0, 0, 0, 1, 0, 0, 0, 7, 0, 1, 0, 0};

typedef struct {
    uint8_t own;
    nyr_platform state;
    uint8_t sent[NYR_REPLIES_BYTES]; /* what it wrote last */
} Platform;

/* A message with its number in Figure 4, four bytes to a group. */
static void show(int number, const uint8_t *message)
{
    printf("%d", number);
    for (int i = 0; i < NYR_REPLY_BYTES; i++)
        printf(i % 4 == 0 ? " %02x" : "%02x", message[i]);
    putchar('\n');
}

/* PLATFORM_STATUS, UP: broadcast at the start. It draws no own number. */
static void announce(Platform *platform, uint8_t own, int number)
{
    static const uint8_t up[] = {0, 0, 0, 1};
    size_t written;
    platform->own = own;
    nyr_start(own, &platform->state);
    nyr_write(own, NYR_PLATFORM_DOMAIN, NYR_STATUS, 0, up, sizeof up, platform->sent, sizeof platform->sent, &written);
    show(number, platform->sent);
}

/* One message at one platform: a line that says what it heard and what it owes. Its replies take the place of what it sent. */
static void hear(Platform *platform, const uint8_t *message)
{
    static const char *const kinds[] = {"", "status", "request", "unknown", "pull of all", "pull"};
    uint8_t replies[NYR_REPLIES_BYTES];
    nyr_heard heard;
    uint32_t number = nyr_receive(platform->own, &platform->state, table, sizeof table, message, NYR_REPLY_BYTES,
                                  replies, sizeof replies, &heard);
    printf("  platform %d", platform->own);
    if (number != NYR_OK) {
        printf(" refuses: %" PRIu32 "\n", number);
        return;
    }
    printf(" hears: %s, sequence number %" PRIu64 " of platform %" PRIu64 "; owes bytes: %" PRIu64 "\n",
           heard.kind <= NYR_HEARD_PULL_ONE ? kinds[heard.kind] : "something else", heard.sequence, heard.sender,
           heard.replies);
    for (size_t i = 0; i < heard.replies; i++)
        platform->sent[i] = replies[i];
}

static void tell_up(const Platform *platform)
{
    printf("  platform %d knows UP: %" PRIu32 "\n", platform->own, nyr_how_many_up(platform->own, &platform->state));
}

int main(void)
{
    Platform one, two;

    /* Platform 1 is UP, and nobody is there yet. Then platform 2 is UP. */
    announce(&one, 1, 1);
    announce(&two, 2, 2);

    /* Platform 1 hears 2, and owes 3 and 4. Platform 2 hears 3, and owes 6 and 7. */
    hear(&one, two.sent);
    show(3, one.sent);
    show(4, one.sent + NYR_REPLY_BYTES);
    hear(&two, one.sent);
    show(6, two.sent);
    show(7, two.sent + NYR_REPLY_BYTES);

    /* Platform 2 hears 4, for which only its data goes out, with the pull's sequence number. Platform 1 hears 6 and 7, and there
     * is silence. */
    hear(&two, one.sent + NYR_REPLY_BYTES);
    tell_up(&two);
    hear(&one, two.sent);
    hear(&one, two.sent + NYR_REPLY_BYTES);
    tell_up(&one);
    return 0;
}
