/* SPDX-License-Identifier: MIT OR Apache-2.0 */
/* A fan whose speed one thread reads while another unplugs it. */
#include <kt_live.h>
#include <stdio.h>

struct fan {
    int speed;
};

static struct kt_live *live;

/* Runs in the thread that reads. Several may run at the same time. */
static int64_t show_speed(void *device, const struct kt_attribute *attribute, char *page)
{
    const struct fan *fan = device;
    (void)attribute;
    return snprintf(page, KT_PAGE_SIZE, "%d\n", fan->speed);
}

static const struct kt_attribute fan_attributes[] = {
    {.name = "speed", .mode = 0444, .show = show_speed},
};

static void *reader(void *unused)
{
    char text[KT_PAGE_SIZE];
    while (kt_live_read(live, "/fan0/speed", text, sizeof text) >= 0)
        ;
    puts("the reader: the fan is gone");
    return unused;
}

int main(void)
{
    struct fan *fan = malloc(sizeof *fan);
    struct kt_key key;
    pthread_t thread;
    if (!fan || kt_live_new(&live, 64))
        return 1;
    fan->speed = 1200;
    if (kt_live_publish(live, "/fan0", fan_attributes, 1, fan, &key) || pthread_create(&thread, NULL, reader, NULL))
        return 1;
    if (kt_live_unpublish(live, key) == 1) /* waits until no show runs in the fan */
        free(fan);                         /* no show starts there again */
    pthread_join(thread, NULL);
    return kt_live_delete(live);
}
/* It prints:
the reader: the fan is gone
*/
