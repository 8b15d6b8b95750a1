/* answers [FILE]: answers a file of calls, or standard input, a line for each call. Ends with 1 where a file could not be
 * opened, read or written, else with 0, whatever the lines say. */
#define _POSIX_C_SOURCE 200809L
#include "answers.h"

#include <errno.h>
#include <fcntl.h>
#include <inttypes.h>
#include <limits.h>
#include <stdio.h>
#include <string.h>
#include <unistd.h>

enum { INPUT = 720896 }; /* the longest call, of code 87, has 664,364 bytes */

static uint8_t input[INPUT];

static int failed;

static void fail(const char *what)
{
    fprintf(stderr, "%s: %s\n", what, strerror(errno));
    failed = 1;
}

/* Whether the lines so far could be written; where not, that is said. */
static int written(void)
{
    if (fflush(stdout) == 0)
        return 1;
    fail("standard output");
    return 0;
}

/* Answers the calls that are all there, and says where the rest starts; beyond what is filled where the run ends here. */
static size_t answer_filled(size_t filled, uint64_t *number)
{
    size_t at = 0;
    Call call;
    Found found;
    while ((found = next_call(input, filled, at, &call)) == WHOLE) {
        printf("%" PRIu64 " ", (*number)++);
        answer(&call);
        putchar('\n');
        if (ferror(stdout)) {
            fail("standard output");
            return filled + 1;
        }
        at = call.end;
    }
    if (found == UNFINISHED)
        return at;
    printf("%" PRIu64 " bad call\n", *number);
    written();
    return filled + 1;
}

static void answer_file(int file, const char *name)
{
    size_t filled = 0, at;
    uint64_t number = 0;
    ssize_t got;
    while ((at = answer_filled(filled, &number)) <= filled) {
        filled -= at;
        memmove(input, input + at, filled);
        got = read(file, input + filled, sizeof input - filled);
        if (got < 0) {
            int error = errno;
            if (written()) {
                errno = error;
                fail(name);
            }
            return;
        }
        if (got == 0) {
            if (filled > 0)
                puts("cut short");
            written();
            return;
        }
        filled += (size_t)got;
    }
}

int main(int argc, char **argv)
{
    int file = STDIN_FILENO;
    start_platform(0);
    if (argc > 1) {
        if (strlen(argv[1]) > PATH_MAX) {
            errno = ENAMETOOLONG;
            fail("the first argument");
            return failed;
        }
        file = open(argv[1], O_RDONLY);
        if (file < 0) {
            fail(argv[1]);
            return failed;
        }
    }
    answer_file(file, argc > 1 ? argv[1] : "standard input");
    return failed;
}
