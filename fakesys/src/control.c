/* SPDX-License-Identifier: MIT OR Apache-2.0 */
/* The control file: lines that are written to it are run. */
#include "fakesysfs.h"

static char refusal[512]; /* why the last line was refused; under the lock */

static void print_refusal(unsigned line, const char *why, const char *text, size_t length)
{
    char shown[300], whole[sizeof refusal];
    escape_line(text, length, shown, sizeof shown);
    snprintf(whole, sizeof whole, "line %u: %s: %s\n", line, why, shown);
    lock_tree();
    memcpy(refusal, whole, sizeof whole);
    unlock_tree();
    fprintf(stderr, "fakesysfs: " CONTROL ", %s", whole); /* without the lock, since it may block */
}

/* Adds to the line that is not whole yet. */
static int keep_part(struct control *control, const char *bytes, size_t length)
{
    bool is_long = control->length + length > LINE_MAX_BYTES;
    char *grown = is_long ? NULL : realloc(control->part, control->length + length + 1);
    if (!grown) {
        int error = is_long ? EFBIG : ENOMEM;
        print_refusal(control->lines + 1, strerror(error), bytes, length);
        return -error;
    }
    memcpy(grown + control->length, bytes, length);
    control->part = grown;
    control->length += length;
    return 0;
}

/* Runs the line that is whole now, and clears it. */
static int run_part(struct control *control)
{
    char why[128] = "";
    int error = run_line(control->part, control->length, why, sizeof why);
    if (error)
        print_refusal(control->lines + 1, why, control->part, control->length);
    else
        control->lines++;
    control->length = 0;
    return error;
}

/* Runs the lines that end in these bytes, up to one that is refused. Returns how many bytes they had. */
static size_t run_lines(struct control *control, const char *bytes, size_t length, int *error)
{
    size_t taken = 0;
    const char *newline;
    while (!*error && (newline = memchr(bytes + taken, '\n', length - taken))) {
        size_t size = (size_t)(newline - bytes) - taken;
        *error = keep_part(control, bytes + taken, size);
        if (!*error)
            *error = run_part(control);
        if (!*error)
            taken += size + 1;
    }
    return taken;
}

/* If a line that is not the first is refused, less is taken than was written. When the caller writes the rest
 * again, that line is the first and the write fails. So no line after it is run. */
int64_t write_control(struct control *control, const char *bytes, size_t length)
{
    int error = 0;
    size_t taken = run_lines(control, bytes, length, &error);
    if (!error)
        error = keep_part(control, bytes + taken, length - taken);
    if (!error)
        return (int64_t)length;
    control->length = 0;
    control->lines += !taken;
    return taken ? (int64_t)taken : error;
}

int end_control(struct control *control)
{
    return control->length ? run_part(control) : 0;
}

int64_t read_control(size_t offset, char *page, size_t room)
{
    lock_tree();
    size_t length = strlen(refusal), from = MIN(offset, length), size = MIN(room, length - from);
    memcpy(page, refusal + from, size);
    unlock_tree();
    return (int64_t)size;
}
