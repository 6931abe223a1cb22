/* SPDX-License-Identifier: MIT OR Apache-2.0 */
/* A daemon whose sensors come and go, as its author would write it from the header: they are plugged and unplugged at
 * eight ports, clients read all of them and set limits meanwhile, a monitor sees each new limit, and a write to `eject`
 * makes a sensor remove itself. */
#include <kt_live.h>
#include <stdatomic.h>
#include <stdio.h>

enum { PORTS = 8, ROUNDS = 200 };

struct sensor {
    int port;
    atomic_int limit;
};

static struct kt_live *live;
static struct sensor *sensors[PORTS];
static struct kt_key keys[PORTS];
static atomic_bool is_over;
static atomic_long samples, limits, freed;

static int64_t show_value(void *device, const struct kt_attribute *attribute, char *page)
{
    struct sensor *sensor = device;
    return sprintf(page, "%d\n", attribute->which ? atomic_load(&sensor->limit) : 20000 + sensor->port);
}

static int64_t store_limit(void *device, const struct kt_attribute *attribute, const char *bytes, size_t length)
{
    struct sensor *sensor = device;
    atomic_store(&sensor->limit, atoi(bytes));
    kt_live_notify(live, kt_live_self(live), attribute->name);
    return (int64_t)length;
}

static int64_t store_eject(void *device, const struct kt_attribute *attribute, const char *bytes, size_t length)
{
    (void)attribute, (void)bytes;
    if (kt_live_unpublish(live, kt_live_self(live)) == 1)
        free(device), freed++;
    return (int64_t)length;
}

static const struct kt_attribute attributes[] = {
    {"temp1_input", 0444, show_value, NULL, 0},
    {"temp1_max", 0644, show_value, store_limit, 1},
    {"eject", 0200, NULL, store_eject, 0},
};

static void plug(int port)
{
    char path[32];
    snprintf(path, sizeof path, "/sensors/port%d", port);
    sensors[port] = calloc(1, sizeof *sensors[port]);
    sensors[port]->port = port;
    if (kt_live_publish(live, path, attributes, 3, sensors[port], &keys[port]))
        abort();
}

static void unplug(int port)
{
    if (kt_live_unpublish(live, keys[port]) == 1) /* else it has ejected itself */
        free(sensors[port]), freed++;
}

static void *client(void *data)
{
    char path[KT_NAME_MAX + 32], text[64];
    unsigned seed = (unsigned)(uintptr_t)data;
    while (!is_over) {
        struct kt_child at = {.name = ""};
        while (kt_live_list(live, "/sensors", &at) == 1) {
            snprintf(path, sizeof path, "/sensors/%s/temp1_input", at.name);
            if (kt_live_read(live, path, text, sizeof text) > 0)
                samples += atoi(text) >= 20000;
            snprintf(path, sizeof path, "/sensors/%s/%s", at.name, rand_r(&seed) % 50 ? "temp1_max" : "eject");
            kt_live_write(live, path, "70000", 5);
        }
    }
    return NULL;
}

/* Reads the limit at the first port whenever it may have changed, also when another sensor is plugged there. */
static void *monitor(void *data)
{
    struct pollfd watched = {.fd = kt_live_watch(live, "/sensors/port0/temp1_max"), .events = POLLIN};
    uint64_t times;
    char text[KT_PAGE_SIZE];
    (void)data;
    while (!is_over)
        if (poll(&watched, 1, 100) == 1 && read(watched.fd, &times, sizeof times) > 0 &&
            kt_live_read(live, "/sensors/port0/temp1_max", text, sizeof text) > 0)
            limits++;
    kt_live_unwatch(live, watched.fd);
    return NULL;
}

int main(void)
{
    struct kt_key dir;
    pthread_t threads[3];
    if (kt_live_new(&live, 64) || kt_live_publish(live, "/sensors", NULL, 0, NULL, &dir))
        return 1;
    for (int i = 0; i < 3; i++)
        pthread_create(&threads[i], NULL, i ? client : monitor, (void *)(uintptr_t)i);
    for (int i = 0; i < ROUNDS; i++) {
        for (int port = 0; port < PORTS; port++)
            plug(port);
        usleep(500);
        for (int port = 0; port < PORTS; port++)
            unplug(port);
    }
    is_over = true;
    for (int i = 0; i < 3; i++)
        pthread_join(threads[i], NULL);
    printf("%ld samples, %ld limits, %ld freed\n", samples, limits, freed);
    return kt_live_unpublish(live, dir) != 1 || kt_live_delete(live) || !samples || freed != ROUNDS * PORTS;
}
