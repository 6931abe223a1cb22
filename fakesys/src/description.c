/* SPDX-License-Identifier: MIT OR Apache-2.0 */
/* The description of a tree: a file of lines, or standard input. */
#include "fakesysfs.h"

/* Reads a file to its end. NULL with errno on failure. */
static char *read_all(FILE *file, size_t *length)
{
    char *text = NULL, *grown;
    size_t room = 0, got;
    *length = 0;
    do {
        if (*length == room) {
            room = room ? 2 * room : 65536;
            grown = realloc(text, room);
            if (!grown) {
                free(text);
                return NULL;
            }
            text = grown;
        }
        got = fread(text + *length, 1, room - *length, file);
        *length += got;
    } while (got);
    if (!ferror(file))
        return text;
    free(text);
    return NULL;
}

static char *read_file(const char *path, size_t *length)
{
    bool is_input = !strcmp(path, "-");
    FILE *file = is_input ? stdin : fopen(path, "re");
    if (!file)
        return NULL;
    char *text = read_all(file, length);
    int error = errno;
    if (!is_input)
        fclose(file);
    errno = error;
    return text;
}

/* Takes the next line. Whether there was one. */
static bool next_line(const char **at, const char *end, const char **line, size_t *length)
{
    if (*at == end)
        return false;
    const char *newline = memchr(*at, '\n', (size_t)(end - *at));
    *line = *at;
    *length = (size_t)((newline ? newline : end) - *at);
    *at = newline ? newline + 1 : end;
    return true;
}

static bool makes_a_node(const char *line, size_t length)
{
    static const char *const makers[] = {"mkdir ", "file ", "link "};
    for (size_t at = 0; at < sizeof makers / sizeof *makers; at++)
        if (length > strlen(makers[at]) && !memcmp(line, makers[at], strlen(makers[at])))
            return true;
    return false;
}

/* The default number of slots: twice the nodes of the tree, at least 1,024. */
static uint32_t count_slots(const char *text, size_t size)
{
    const char *line, *at = text;
    size_t length, nodes = 1;
    while (next_line(&at, text + size, &line, &length))
        nodes += makes_a_node(line, length);
    return (uint32_t)MIN(MAX(2 * nodes, 1024), KT_SLOTS_MAX);
}

/* Runs all lines, and prints each wrong one. Whether there is none. */
static bool run_lines(const char *path, const char *text, size_t size)
{
    const char *line, *at = text;
    char why[128], shown[300];
    size_t length;
    bool is_well = true;
    for (unsigned count = 1; next_line(&at, text + size, &line, &length); count++) {
        if (run_line(line, length, why, sizeof why)) {
            escape_line(line, length, shown, sizeof shown);
            fprintf(stderr, "fakesysfs: %s, line %u: %s: %s\n", path, count, why, shown);
            is_well = false;
        }
    }
    return is_well;
}

bool load_description(const char *path, uint32_t slots)
{
    size_t length;
    char *text = read_file(path, &length);
    if (!text) {
        fprintf(stderr, "fakesysfs: %s: %s\n", path, strerror(errno));
        return false;
    }
    int error = make_tree(slots ? slots : count_slots(text, length));
    if (error)
        fprintf(stderr, "fakesysfs: cannot create the tree: %s\n", strerror(-error));
    bool is_well = !error && run_lines(path, text, length);
    free(text);
    return is_well;
}
