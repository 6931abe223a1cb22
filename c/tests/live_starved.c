/* SPDX-License-Identifier: MIT OR Apache-2.0 */
/* kt_live.h, with each request for memory refused from some point on, and later none: a refused call has changed nothing
 * visible, and succeeds when it is made again. It needs glibc. */
#include <kt_live.h>

#include "trying.h"

extern void *__libc_malloc(size_t size);
extern void *__libc_calloc(size_t count, size_t size);
extern void *__libc_realloc(void *at, size_t size);

static long left = -1; /* requests until each is refused; below 0 none is */

static bool is_refused(void)
{
    return left >= 0 && left-- == 0 && !(left = 0);
}

void *malloc(size_t size)
{
    return is_refused() ? NULL : __libc_malloc(size);
}

void *calloc(size_t count, size_t size)
{
    return is_refused() ? NULL : __libc_calloc(count, size);
}

void *realloc(void *at, size_t size)
{
    return is_refused() ? NULL : __libc_realloc(at, size);
}

static int64_t show(void *device, const struct kt_attribute *attribute, char *page)
{
    (void)device;
    (void)attribute;
    page[0] = 'x';
    return 1;
}

static const struct kt_attribute attributes[] = {
    {"a", 0444, show, NULL, 0}, {"b", 0444, show, NULL, 0}, {"c", 0444, show, NULL, 0}, {"d", 0444, show, NULL, 0}};

static struct kt_live *live;
static int remnants; /* how often what could not be removed stayed for a later call */

static int told(const char *path)
{
    struct kt_child at = {.name = ""};
    int32_t answer;
    int count = 0;
    while ((answer = kt_live_list(live, path, &at)) == 1)
        count++;
    return answer ? answer : count;
}

/* Publishes, reads and unpublishes with this much memory. Returns how often it was refused for lack of memory. */
static int starve(long most)
{
    struct kt_key key = {0, 0};
    int refused = 0;
    char text[8];
    left = most;
    int64_t answer = kt_live_publish(live, "/fan0", attributes, 4, NULL, &key);
    left = -1;
    if (answer) {
        refused++;
        remnants += live->remnants != NULL;
        if (answer != -ENOMEM || key.generation || told("/") || kt_live_read(live, "/fan0/a", text, 8) > 0)
            return -1;
        if (kt_live_publish(live, "/fan0", attributes, 4, NULL, &key))
            return -2;
    }
    left = most;
    answer = kt_live_read(live, "/fan0/a", text, sizeof text);
    left = -1;
    refused += answer == -ENOMEM;
    if ((answer != 1 && answer != -ENOMEM) || told("/fan0") != 4 || kt_live_read(live, "/fan0/a", text, 8) != 1)
        return -3;
    left = most;
    answer = kt_live_watch(live, "/fan0/a");
    left = -1;
    refused += answer == -ENOMEM;
    if (answer >= 0 ? kt_live_unwatch(live, (int)answer) : answer != -ENOMEM)
        return -4;
    return kt_live_unpublish(live, key) == 1 && !told("/") ? refused : -5;
}

int main(void)
{
    int refused = 0, now;
    for (long most = 0; most < 60; most++) {
        TRY(kt_live_new(&live, 6), 0);
        TRY((now = starve(most)) >= 0, 1);
        refused += now > 0;
        TRY(starve(most) >= 0, 1);
        TRY(kt_live_delete(live), 0);
    }
    printf("%d were refused, %d remnants\n", refused, remnants);
    TRY(refused > 3 && remnants > 1 && now == 0, 1);
    return tried();
}
