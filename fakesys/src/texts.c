/* SPDX-License-Identifier: MIT OR Apache-2.0 */
/* The texts of the files: their show and store callbacks, and what may disturb these. */
#include "fakesysfs.h"
#include <assert.h>

int set_text(struct node *node, const char *bytes, size_t length)
{
    char *text = malloc(length + 1);
    if (!text)
        return -ENOMEM;
    memcpy(text, bytes, length);
    text[length] = 0; /* (a counter's number is parsed) */
    if (node->is_binary || length > TEXT_MAX)
        forget_attributes(node->number); /* its size */
    free(node->text);
    node->text = text;
    clock_gettime(CLOCK_MONOTONIC, &node->begun);
    node->length = length;
    node->is_binary = length > TEXT_MAX;
    return 0;
}

int set_line(struct node *node, const char *bytes, size_t length)
{
    char text[KT_PAGE_SIZE];
    length = MIN(length, TEXT_MAX);
    memcpy(text, bytes, length);
    if (length && length < TEXT_MAX)
        text[length++] = '\n';
    return set_text(node, text, length);
}

void wait_milliseconds(unsigned count)
{
    struct timespec left = {count / 1000, count % 1000 * 1000000L};
    while (nanosleep(&left, &left) && errno == EINTR)
        continue;
}

/* Waits as long as the file is slow, and takes the lock. The library promises that no removal ends while a
 * callback is inside, so the node is in the tree. */
static struct node *begin_callback(struct open *it)
{
    struct node *node = node_of(it->number);
    struct kt_node_info stat;
    if (node->slow)
        wait_milliseconds(node->slow);
    lock_tree();
    assert(!kt_stat(&tree, key_of(it->number), &stat));
    (void)stat;
    return node;
}

/* Called before the text and its delays, so that no notify is missed. (The lock: fs_poll() uses the counter
 * too.) */
static void see_event(struct open *it)
{
    uint64_t event;
    lock_tree();
    if (!kt_event(&it->post, &event))
        it->seen = event;
    unlock_tree();
}

/* Copies at most `room` bytes of a text from an offset on. Returns how many. */
static int64_t copy_part(const struct node *node, size_t offset, char *page, size_t room)
{
    size_t length = offset < node->length ? MIN(room, node->length - offset) : 0;
    if (length)
        memcpy(page, node->text + offset, length);
    return (int64_t)length;
}

/* Copies what a node shows from an offset on. Returns the negative of its fault, or how many bytes it copied. */
static int64_t copy_text(struct open *it, size_t offset, char *page, size_t room)
{
    see_event(it);
    struct node *node = begin_callback(it);
    int64_t result = -node->fault;
    if (!result)
        result = node->rate && !node->is_binary ? (int64_t)text_of_counter(node, page, room)
                                                : copy_part(node, offset, page, room);
    unlock_tree();
    return result;
}

int64_t show(struct kt_handle *file, void *data, char *page)
{
    (void)file;
    return copy_text(data, 0, page, TEXT_MAX);
}

int64_t show_part(struct kt_handle *file, void *data)
{
    struct part *part = data;
    (void)file;
    return copy_text(part->it, part->offset, part->page, part->room);
}

int64_t store(struct kt_handle *file, void *data, const char *bytes, size_t length)
{
    (void)file;
    struct node *node = begin_callback(data);
    int64_t error = -node->fault;
    if (!error && !node->is_uevent)
        error = set_line(node, bytes, length - (bytes[length - 1] == '\n'));
    unlock_tree();
    return error ? error : (int64_t)length;
}

/* A write to a binary file does not change its size. */
int64_t store_part(struct kt_handle *file, void *data, const char *bytes, size_t length)
{
    struct part *part = data;
    (void)file;
    struct node *node = begin_callback(part->it);
    int64_t result = -node->fault;
    if (!result && part->offset >= node->length)
        result = -EFBIG;
    if (!result) {
        result = (int64_t)MIN(length, node->length - part->offset);
        memcpy(node->text + part->offset, bytes, (size_t)result);
    }
    unlock_tree();
    return result;
}
