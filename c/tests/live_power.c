/* SPDX-License-Identifier: MIT OR Apache-2.0 */
/* Batteries that come and go, as a new user would write it from the header, by lines on standard input: plug PATH
 * PERCENT, unplug PATH, read PATH, write PATH VALUE, list PATH. A thread drains them, and prints those at their alarm. */
#include <kt_live.h>
#include <stdatomic.h>
#include <stdio.h>

struct battery {
    struct kt_key key;
    atomic_int capacity, alarm;
};

static struct kt_live *live;
static atomic_bool is_over;
enum { CAPACITY, ALARM };

static int64_t show(void *device, const struct kt_attribute *attribute, char *page)
{
    struct battery *battery = device;
    return sprintf(page, "%d\n", atomic_load(attribute->which == ALARM ? &battery->alarm : &battery->capacity));
}

static int64_t store_alarm(void *device, const struct kt_attribute *attribute, const char *bytes, size_t length)
{
    struct battery *battery = device;
    char *end;
    long value = strtol(bytes, &end, 10);
    if (end == bytes || value < 0 || value > 100 || attribute->which != ALARM)
        return -EINVAL;
    battery->alarm = (int)value;
    return (int64_t)length;
}

static const struct kt_attribute attributes[] = {
    {"capacity", 0444, show, NULL, CAPACITY},
    {"alarm", 0644, show, store_alarm, ALARM},
};

static int32_t plug(const char *path, int capacity)
{
    struct battery *battery = calloc(1, sizeof *battery);
    if (!battery)
        return -ENOMEM;
    battery->capacity = capacity;
    int32_t answer = kt_live_publish(live, path, attributes, 2, battery, &battery->key);
    if (answer)
        free(battery);
    return answer;
}

static int32_t unplug(const char *path)
{
    void *battery;
    int32_t answer = kt_live_unpublish_at(live, path, &battery);
    if (answer == 1)
        free(battery);
    return answer;
}

/* Of one battery, which stays until this has returned. */
static int64_t drain(void *device, void *data)
{
    struct battery *battery = device;
    (void)data;
    if (battery->capacity > 0 && --battery->capacity <= battery->alarm)
        kt_live_notify(live, battery->key, "capacity");
    return 0;
}

static void *drain_all(void *data)
{
    char path[KT_PATH_MAX(2) + 1];
    while (!is_over) {
        for (struct kt_child at = {.name = ""}; kt_live_list(live, "/power", &at) == 1;) {
            snprintf(path, sizeof path, "/power/%s", at.name);
            kt_live_run(live, path, drain, NULL);
        }
        usleep(1000);
    }
    return data;
}

static void run_line(const char *word, const char *path, const char *value)
{
    char text[KT_PAGE_SIZE];
    struct kt_child at = {.name = ""};
    int64_t answer = -EINVAL;
    if (!strcmp(word, "plug"))
        answer = plug(path, atoi(value));
    else if (!strcmp(word, "unplug"))
        answer = unplug(path);
    else if (!strcmp(word, "write"))
        answer = kt_live_write(live, path, value, strlen(value));
    else if (!strcmp(word, "read") && (answer = kt_live_read(live, path, text, sizeof text)) >= 0)
        fputs(text, stdout);
    else if (!strcmp(word, "list"))
        while ((answer = kt_live_list(live, path, &at)) == 1)
            puts(at.name);
    if (answer < 0)
        printf("%s: %s\n", path, kt_strerror(answer));
}

int main(void)
{
    char line[512], word[16], path[256], value[64] = "";
    pthread_t thread;
    struct kt_child at = {.name = ""};
    struct kt_key dir;
    if (kt_live_new(&live, 256) || kt_live_publish(live, "/power", NULL, 0, NULL, &dir))
        return 1;
    pthread_create(&thread, NULL, drain_all, NULL);
    while (fgets(line, sizeof line, stdin) && sscanf(line, "%15s %255s %63s", word, path, value) >= 2)
        run_line(word, path, value);
    is_over = true;
    pthread_join(thread, NULL);
    for (; kt_live_list(live, "/power", &at) == 1; at.name[0] = 0)
        if (snprintf(path, sizeof path, "/power/%s", at.name) < 0 || unplug(path) != 1)
            return 1;
    return kt_live_unpublish(live, dir) != 1 || kt_live_delete(live);
}
