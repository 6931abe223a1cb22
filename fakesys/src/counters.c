/* SPDX-License-Identifier: MIT OR Apache-2.0 */
/* Counters: files whose text begins with a number that grows, or falls, by itself. */
#include "fakesysfs.h"
#include <ctype.h>

#define RATE_MAX 1000000000000000 /* in a second: its product with any time fits in 128 bits */
#define NANOSECONDS 1000000000

bool read_rate(const char *word, int64_t *out)
{
    const char *end = strchr(word, '/');
    bool is_negative = *word == '-';
    char digits[24];
    uint64_t rate;
    word += is_negative;
    if (!end || strcmp(end, "/s") || end < word || (size_t)(end - word) >= sizeof digits)
        return false;
    memcpy(digits, word, (size_t)(end - word));
    digits[end - word] = 0;
    if (!read_number(digits, RATE_MAX, &rate))
        return false;
    *out = is_negative ? -(int64_t)rate : (int64_t)rate;
    return true;
}

/* Parses the number that a text begins with; a blank or the end follows it. *rest is what follows. */
static bool read_text(const struct node *node, int64_t *number, const char **rest)
{
    const char *text = node->length ? node->text : "";
    char *end;
    if (!isdigit((unsigned char)text[*text == '-']))
        return false;
    errno = 0;
    *number = strtoll(text, &end, 10);
    *rest = end;
    return !errno && (!*end || isspace((unsigned char)*end));
}

/* How far a counter is from the number of its text. */
static __int128 growth(const struct node *node)
{
    struct timespec now;
    clock_gettime(CLOCK_MONOTONIC, &now);
    __int128 passed = (__int128)(now.tv_sec - node->begun.tv_sec) * NANOSECONDS + now.tv_nsec - node->begun.tv_nsec;
    return passed * node->rate / NANOSECONDS;
}

size_t text_of_counter(const struct node *node, char *page, size_t room)
{
    const char *rest;
    int64_t number;
    char text[2 * KT_PAGE_SIZE];
    if (!read_text(node, &number, &rest)) {
        memcpy(page, node->text, MIN(room, node->length));
        return MIN(room, node->length);
    }
    __int128 now = number + growth(node);
    int64_t shown = now > INT64_MAX ? INT64_MAX : now < INT64_MIN ? INT64_MIN : (int64_t)now;
    size_t left = node->length - (size_t)(rest - node->text);
    size_t begin = (size_t)snprintf(text, sizeof text, "%lld", (long long)shown);
    memcpy(text + begin, rest, left);
    memcpy(page, text, MIN(room, begin + left));
    return MIN(room, begin + left);
}

int count_from_now(struct node *node, int64_t rate)
{
    char text[KT_PAGE_SIZE];
    const char *rest;
    int64_t number;
    if (node->is_binary || !read_text(node, &number, &rest))
        return -EINVAL;
    int error = set_text(node, text, text_of_counter(node, text, TEXT_MAX));
    if (!error)
        node->rate = rate;
    return error;
}
