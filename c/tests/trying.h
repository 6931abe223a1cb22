/* SPDX-License-Identifier: MIT OR Apache-2.0 */
/* Runs calls, and prints a line for each with its result. */
#include <inttypes.h>
#include <stdio.h>

static int passed, failed;

static void expect(const char *what, int64_t found, int64_t wanted)
{
    if (found == wanted) {
        passed++;
        printf("%s: %lld\n", what, (long long)found);
    } else {
        failed++;
        printf("%s: %lld and not %lld\n", what, (long long)found, (long long)wanted);
    }
}

#define TRY(call, wanted) expect(#call, call, wanted)

/* Prints how many passed and failed. Returns the exit status of the program. */
static int tried(void)
{
    printf("%d passed, %d failed\n", passed, failed);
    return failed != 0;
}
