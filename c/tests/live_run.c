/* SPDX-License-Identifier: MIT OR Apache-2.0 */
/* What a program does with its devices by their paths: kt_live_run() and kt_live_unpublish_at(), with right and wrong
 * uses. It prints a line for each test; the last line is 'N passed, M failed'. */
#include <kt_live.h>
#include <stdatomic.h>

#include "trying.h"

static struct kt_live *live;
static struct kt_key key, below;
static int fan, belt; /* devices: their addresses tell them apart */
static void *given;
static atomic_int inside, over;

static int64_t tells(void *device, void *data)
{
    *(void **)data = device;
    return 7;
}

static int64_t fails(void *device, void *data)
{
    (void)device, (void)data;
    return -ENODEV;
}

static int64_t names_itself(void *device, void *data)
{
    (void)device, (void)data;
    TRY(kt_live_self(live).slot == key.slot && kt_live_self(live).generation == key.generation, 1);
    return 0;
}

static void runs(void)
{
    TRY(kt_live_run(live, "/fan0", tells, &given), -ENOENT);
    TRY(kt_live_publish(live, "/fan0", NULL, 0, &fan, &key), 0);
    TRY(kt_live_run(live, "/fan0", tells, &given), 7);
    TRY(given == &fan, 1);
    TRY(kt_live_run(live, "/fan0", fails, NULL), -ENODEV);
    TRY(kt_live_run(live, "/fan0", names_itself, NULL), 0);
    TRY(kt_live_run(live, "fan0", tells, &given), -EINVAL);
    TRY(kt_live_run(live, "/fan0/speed", tells, &given), -ENOENT);
    TRY(kt_live_run(live, "/", tells, &given), -ENOENT); /* no device */
    TRY(kt_live_self(live).generation, 0);
}

static void unpublishes(void)
{
    given = NULL;
    TRY(kt_live_publish(live, "/fan0/belt", NULL, 0, &belt, &below), 0);
    TRY(kt_live_unpublish_at(live, "fan0", &given), -EINVAL);
    TRY(kt_live_unpublish_at(live, "/fan1", &given), -ENOENT);
    TRY(kt_live_unpublish_at(live, "/", &given), -ENOENT);
    TRY(given == NULL, 1);
    TRY(kt_live_unpublish_at(live, "/fan0/belt", &given), 1);
    TRY(given == &belt, 1);
    TRY(kt_live_unpublish_at(live, "/fan0", &given), 1);
    TRY(given == &fan, 1);
    TRY(kt_live_unpublish(live, key), -ENOENT);
}

static int64_t unpublishes_itself(void *device, void *data)
{
    (void)data;
    TRY(kt_live_unpublish_at(live, "/fan0", &given), 1);
    TRY(given == device, 1);
    TRY(kt_live_run(live, "/fan0", tells, &given), -ENOENT);
    return 5;
}

static int64_t takes_its_time(void *device, void *data)
{
    (void)device, (void)data;
    inside = 1;
    usleep(100 * 1000);
    over = 1;
    return 0;
}

static void *runs_for_long(void *data)
{
    *(int64_t *)data = kt_live_run(live, "/fan0", takes_its_time, NULL);
    return NULL;
}

static void from_inside(void)
{
    pthread_t thread;
    int64_t ran = 1;
    TRY(kt_live_publish(live, "/fan0", NULL, 0, &fan, &key), 0);
    TRY(kt_live_run(live, "/fan0", unpublishes_itself, NULL), 5);
    TRY(kt_live_publish(live, "/fan0", NULL, 0, &fan, &key), 0);
    pthread_create(&thread, NULL, runs_for_long, &ran);
    while (!inside)
        usleep(1000);
    TRY(kt_live_delete(live), -EBUSY);
    TRY(kt_live_unpublish_at(live, "/fan0", &given), 1);
    TRY(over, 1); /* it has waited */
    pthread_join(thread, NULL);
    TRY(ran, 0);
}

/* The device above is unpublished first: the one below reports its end by its own key. */
static void above(void)
{
    TRY(kt_live_publish(live, "/fan0", NULL, 0, &fan, &key), 0);
    TRY(kt_live_publish(live, "/fan0/belt", NULL, 0, &belt, &below), 0);
    TRY(kt_live_unpublish_at(live, "/fan0", &given), 1);
    TRY(kt_live_unpublish_at(live, "/fan0/belt", &given), -ENOENT);
    TRY(kt_live_unpublish(live, below), 1);
}

int main(void)
{
    TRY(kt_live_new(&live, 8), 0);
    runs();
    unpublishes();
    from_inside();
    above();
    TRY(kt_live_delete(live), 0);
    return tried();
}
