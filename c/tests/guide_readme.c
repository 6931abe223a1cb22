/* SPDX-License-Identifier: MIT OR Apache-2.0 */
#include <kt_live.h>
#include <stdio.h>

static int64_t show_speed(void *fan, const struct kt_attribute *attribute, char *page)
{
    return snprintf(page, KT_PAGE_SIZE, "%s: %d\n", attribute->name, *(int *)fan);
}

int main(void)
{
    static const struct kt_attribute attributes[] = {{.name = "speed", .mode = 0444, .show = show_speed}};
    struct kt_live *live;
    struct kt_key key;
    char text[KT_PAGE_SIZE];
    int *fan = calloc(1, sizeof *fan);
    if (!fan || kt_live_new(&live, 64) || kt_live_publish(live, "/fan0", attributes, 1, fan, &key))
        return 1;
    if (kt_live_read(live, "/fan0/speed", text, sizeof text) > 0) /* in any thread, at any time */
        fputs(text, stdout);
    if (kt_live_unpublish(live, key) == 1) /* waits until no callback runs in the fan */
        free(fan);                         /* and none will ever start */
    return kt_live_delete(live);
}
/* It prints:
speed: 0
*/
