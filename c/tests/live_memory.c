/* SPDX-License-Identifier: MIT OR Apache-2.0 */
/* kt_live.h, with memory refused once: the call is made again then, and the output must not depend on that. */
#include <kt_live.h>
#include <stdio.h>

static struct kt_live *live;
static struct kt_key fan, below;
static char text[KT_PAGE_SIZE];

/* Makes the call, and again if memory was refused; then nothing has changed, which `same` checks. */
#define AGAIN(call, same)                             \
    do {                                              \
        int64_t answer = call;                        \
        if (answer == -ENOMEM) {                      \
            if (!(same))                              \
                printf("changed: " #call "\n");       \
            answer = call;                            \
        }                                             \
        printf(#call ": %lld\n", (long long)answer);  \
    } while (0)

static int64_t show(void *device, const struct kt_attribute *attribute, char *page)
{
    (void)device;
    (void)attribute;
    memcpy(page, "text\n", 5);
    return 5;
}

/* It unpublishes its own device; if memory was refused, it can be called again. */
static int64_t delete(void *device, const struct kt_attribute *attribute, const char *bytes, size_t length)
{
    int32_t answer;
    (void)device;
    (void)attribute;
    (void)bytes;
    while ((answer = kt_live_unpublish(live, kt_live_self(live))) == -ENOMEM)
        ;
    printf("unpublished: %d\n", answer);
    return (int64_t)length;
}

static const struct kt_attribute attributes[] = {
    {"a", 0444, show, NULL, 0}, {"b", 0444, show, NULL, 1}, {"c", 0444, show, NULL, 2}, {"d", 0444, show, NULL, 3},
    {"e", 0444, show, NULL, 4}, {"f", 0444, show, NULL, 5}, {"delete", 0200, NULL, delete, 6},
};
static const struct kt_attribute twice[] = {
    {"a", 0444, show, NULL, 0}, {"b", 0444, show, NULL, 1}, {"a", 0444, show, NULL, 2}};

static int told(const char *path)
{
    struct kt_child at = {.name = ""};
    int32_t answer;
    int count = 0;
    while ((answer = kt_live_list(live, path, &at)) == 1 || answer == -ENOMEM)
        count += answer == 1;
    return answer ? answer : count;
}

static void round_of_it(void)
{
    int fd = -1;
    AGAIN(kt_live_publish(live, "/fan0", attributes, 7, NULL, &fan), told("/") == 0 && told("/fan0") == -ENOENT);
    AGAIN(kt_live_publish(live, "/fan1", twice, 3, NULL, &below), told("/") == 1);
    printf("in it: %d, %d\n", told("/"), told("/fan0"));
    AGAIN(kt_live_publish(live, "/fan0/below", attributes, 2, NULL, &below), told("/fan0") == 7);
    AGAIN(kt_live_read(live, "/fan0/a", text, sizeof text), 1);
    AGAIN(fd = kt_live_watch(live, "/fan0/a"), 1);
    AGAIN(kt_live_notify(live, fan, "a"), 1);
    AGAIN(kt_live_unpublish(live, below), told("/fan0/below") == 2);
    AGAIN(kt_live_write(live, "/fan0/delete", "1", 1), told("/fan0") == 7);
    printf("in it: %d, %d\n", told("/"), told("/fan0"));
    printf("raised: %d\n", (int)read(fd, text, 8));
    printf("unwatched: %d\n", kt_live_unwatch(live, fd));
}

/* Enough changes that the next one compacts the commands. */
static void change_often(void)
{
    struct kt_key root = {0, 1}, key;
    while (kt_create_file(&live->tree, root, "own", 3, 0444, 0, true, &key))
        ;
    for (int i = 0; i < 600; i++) {
        while (kt_hide(&live->tree, key))
            ;
        while (kt_unhide(&live->tree, key))
            ;
    }
    while (kt_remove(&live->tree, key) < 0)
        ;
}

int main(void)
{
    setvbuf(stdout, NULL, _IONBF, 0);
    AGAIN(kt_live_new(&live, 32), live == NULL);
    for (int i = 0; i < 3; i++)
        round_of_it();
    change_often();
    round_of_it();
    printf("deleted: %d\n", kt_live_delete(live));
    return 0;
}
