/* SPDX-License-Identifier: MIT OR Apache-2.0 */
/* A fan with a target that can be written. A monitor waits for a change of it, and for the fan to go. */
#include <kt_live.h>
#include <stdatomic.h>
#include <stdio.h>

struct fan {
    atomic_int target; /* several callbacks may run, so what they change is atomic or under a lock */
};

static struct kt_live *live;
static int fd;

static int64_t show_target(void *device, const struct kt_attribute *attribute, char *page)
{
    struct fan *fan = device;
    (void)attribute;
    return snprintf(page, KT_PAGE_SIZE, "%d\n", atomic_load(&fan->target));
}

static int64_t store_target(void *device, const struct kt_attribute *attribute, const char *bytes, size_t length)
{
    struct fan *fan = device;
    if (length > 4)
        return -EINVAL; /* the writer gets it */
    atomic_store(&fan->target, atoi(bytes)); /* a zero byte follows the bytes */
    (void)!kt_live_notify(live, kt_live_self(live), attribute->name);
    return (int64_t)length;
}

static const struct kt_attribute fan_attributes[] = {
    {.name = "target", .mode = 0644, .show = show_target, .store = store_target},
};

static void *monitor(void *unused)
{
    struct pollfd at = {.fd = fd, .events = POLLIN};
    char text[KT_PAGE_SIZE];
    uint64_t times;
    while (poll(&at, 1, -1) == 1 && read(fd, &times, sizeof times) == sizeof times) {
        int64_t length = kt_live_read(live, "/fan0/target", text, sizeof text); /* read it after the descriptor */
        if (length == -ENODEV || length == -ENOENT)
            break;
        printf("the monitor: %s", text);
    }
    puts("the monitor: the fan is gone");
    return unused;
}

int main(void)
{
    static struct fan fan;
    struct kt_key key;
    pthread_t thread;
    if (kt_live_new(&live, 64) || kt_live_publish(live, "/fan0", fan_attributes, 1, &fan, &key))
        return 1;
    fd = kt_live_watch(live, "/fan0/target");
    if (fd < 0 || kt_live_write(live, "/fan0/target", "40", 2) != 2 || pthread_create(&thread, NULL, monitor, NULL))
        return 1;
    while (poll(&(struct pollfd){.fd = fd, .events = POLLIN}, 1, 0) == 1)
        poll(NULL, 0, 1); /* the monitor has not read the descriptor yet */
    if (kt_live_unpublish(live, key) != 1)
        return 1;
    pthread_join(thread, NULL);
    return kt_live_unwatch(live, fd) || kt_live_delete(live);
}
/* It prints:
the monitor: 40
the monitor: the fan is gone
*/
