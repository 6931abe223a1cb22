/* SPDX-License-Identifier: MIT OR Apache-2.0 */
/* Escapes: those of paths, for a blank in a name; those of texts, which are printf(1)'s %b; and those of lines
 * in messages. */
#include "fakesysfs.h"
#include <ctype.h>

/* The value of a digit, or -1. */
static int digit_of(char byte, int base)
{
    static const char digits[] = "0123456789abcdef";
    const char *at = byte ? strchr(digits, tolower((unsigned char)byte)) : NULL;
    return at && at - digits < base ? (int)(at - digits) : -1;
}

/* Reads a byte of at most `most` digits, and moves past them. */
static char read_byte(const char **from, int most, int base)
{
    int value = 0;
    for (; most && digit_of(**from, base) >= 0; most--)
        value = value * base + digit_of(*(*from)++, base);
    return (char)value;
}

static bool is_path_escape(const char *from)
{
    return from[0] == '\\' && digit_of(from[1], 4) >= 0 && digit_of(from[2], 8) >= 0
        && digit_of(from[3], 8) >= 0;
}

bool unescape_path(char *path)
{
    char *to = path;
    bool is_well = true;
    for (const char *from = path; *from; to++) {
        if (is_path_escape(from)) {
            from++;
            *to = read_byte(&from, 3, 8);
            is_well = is_well && *to;
        } else {
            *to = *from++;
        }
    }
    *to = 0;
    return is_well;
}

void escape_path(const char *path, char *out, size_t room)
{
    size_t used = 0;
    for (; *path && used + 5 < room; path++) {
        bool is_escaped = isspace((unsigned char)*path) || *path == '\\';
        used += (size_t)sprintf(out + used, is_escaped ? "\\%03o" : "%c", (unsigned char)*path);
    }
    out[used] = 0;
}

size_t unescape_text(char *text, bool *is_whole)
{
    static const char letters[] = "abefnrtv\\", meant[] = "\a\b\033\f\n\r\t\v\\";
    const char *from = text, *letter;
    char *to = text;
    *is_whole = true;
    while (*from && *is_whole) {
        if (*from != '\\' || !from[1]) {
            *to++ = *from++;
        } else if (*++from == 'c') {
            *is_whole = false;
        } else if ((letter = strchr(letters, *from))) {
            *to++ = meant[letter - letters];
            from++;
        } else if (digit_of(*from, 8) >= 0) {
            *to++ = read_byte(&from, *from == '0' ? 4 : 3, 8);
        } else if (*from == 'x' && digit_of(from[1], 16) >= 0) {
            from++;
            *to++ = read_byte(&from, 2, 16);
        } else {
            *to++ = '\\'; /* not an escape: the byte after it comes next */
        }
    }
    return (size_t)(to - text);
}

void escape_line(const char *bytes, size_t length, char *out, size_t room)
{
    size_t used = 0;
    for (size_t at = 0; at < length && used + 5 < room; at++) {
        unsigned char byte = (unsigned char)bytes[at];
        used += (size_t)sprintf(out + used, byte < ' ' || byte == 127 ? "\\%03o" : "%c", byte);
    }
    out[used] = 0;
}
