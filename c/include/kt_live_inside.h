/* SPDX-License-Identifier: MIT OR Apache-2.0 */
/* kt_live_inside.h: the part of kt_live.h that says which thread is inside, and which one waits for it. It is private
 * to kt_live.h, which includes it. Its functions are called under the lock, except those that kt_live.h declares. */
#include "kt_live.h"
#ifndef KT_LIVE_INSIDE_H
#define KT_LIVE_INSIDE_H

/* A text that grows line by line. */
struct kt_live_lines {
    char *at;
    size_t length;
    int32_t count; /* of callbacks */
    bool is_short; /* there was no memory for a line, which is left out */
};

/* Adds a line: a path, what is there, in which thread, and for how long. */
static inline void kt_live_add_line(struct kt_live *live, struct kt_live_lines *lines, struct kt_key key,
                                    const char *what, pthread_t thread, const char *name, int64_t since)
{
    enum { MORE = 160 };
    char path[KT_PAGE_SIZE], *grown;
    int64_t length = kt_path(&live->tree, key, path, sizeof path), passed = kt_live_now() - since;
    int added;
    if (length < 0)
        length = (int64_t)strlen(strcpy(path, length == -ERANGE ? "(a long path)" : "(out of the tree)"));
    grown = (char *)realloc(lines->at, lines->length + (size_t)length + MORE);
    if (!grown) {
        lines->is_short = true;
        return;
    }
    lines->at = grown;
    added = snprintf(grown + lines->length, (size_t)length + MORE, "%.*s: %s, thread %#llx%s%s, %lld.%03lld s\n",
                     (int)length, path, what, (unsigned long long)(uintptr_t)thread, *name ? " " : "", name,
                     (long long)(passed / 1000000), (long long)(passed / 1000 % 1000));
    lines->length += added > 0 ? (size_t)added : 0;
}

/* The name of a thread that cannot have ended, because it needs the lock before it does. */
static inline const char *kt_live_name(pthread_t thread, char name[32])
{
    name[0] = 0;
#ifdef _GNU_SOURCE
    if (pthread_getname_np(thread, name, 32))
        name[0] = 0;
#else
    (void)thread;
#endif
    return name;
}

/* Adds the lines of callbacks and sleeps at a node or below it. If `sleep` is not NULL, also adds the lines of
 * callbacks that keep it waiting. */
static inline void kt_live_add_lines(struct kt_live *live, struct kt_key top, const struct kt_live_sleep *sleep,
                                     struct kt_live_lines *lines)
{
    struct kt_key root = {0, 0};
    char name[32], what[64];
    bool is_all = !kt_root(&live->tree, &root) && kt_live_is_same(top, root);
    for (struct kt_live_call *it = live->calls; it; it = it->next) {
        char way = __atomic_load_n(&it->way, __ATOMIC_RELAXED);
        bool is_here = is_all || kt_live_is_below(live, it->key, top) || (sleep && kt_live_keeps(live, it, sleep));
        if (!kt_live_stack(it) || !is_here)
            continue;
        snprintf(what, sizeof what, "a %s is inside%s", way == 'r' ? "show" : way == 'w' ? "store" : "function",
                 it->is_aside ? " and has stepped aside" : "");
        name[0] = 0;
        kt_live_add_line(live, lines, it->key, what, kt_live_thread(it),
                         it->is_open_file ? name : kt_live_name(it->thread, name),
                         __atomic_load_n(&it->since, __ATOMIC_RELAXED));
        lines->count++;
    }
    for (struct kt_live_sleep *it = live->sleeps; it; it = it->next)
        if (is_all || kt_live_is_below(live, it->key, top))
            kt_live_add_line(live, lines, it->key, "an unpublishing waits", it->thread,
                             kt_live_name(it->thread, name), it->since);
}

KT_LIVE_CALL int32_t kt_live_inside(struct kt_live *live, const char *path, FILE *out)
{
    struct kt_live_lines lines = {NULL, 0, 0, false};
    struct kt_key top;
    int before = kt_live_no_cancel();
    int32_t answer;
    kt_live_lock(live);
    answer = kt_live_walk(live, path, &top);
    if (!answer)
        kt_live_add_lines(live, top, NULL, &lines);
    kt_live_unlock(live);
    if (!answer && lines.is_short)
        answer = -ENOMEM;
    if (!answer && lines.at)
        fputs(lines.at, out);
    free(lines.at);
    kt_live_cancel_as(before);
    return answer ? answer : lines.count;
}

KT_LIVE_CALL void kt_live_warn(struct kt_live *live, unsigned milliseconds,
                               void (*function)(const char *text, void *data), void *data)
{
    kt_live_lock(live);
    live->warn_after = milliseconds;
    live->warn = function;
    live->warn_data = data;
    pthread_cond_broadcast(&live->lock.left);
    kt_live_unlock(live);
}

/* Reports an unpublishing that has slept for long. It unlocks meanwhile. */
static inline void kt_live_report(struct kt_live *live, const struct kt_live_sleep *sleep)
{
    struct kt_live_lines lines = {NULL, 0, 0, false};
    void (*warn)(const char *, void *) = live->warn;
    void *data = live->warn_data;
    kt_live_add_lines(live, sleep->key, sleep, &lines);
    kt_live_unlock(live);
    if (lines.at && warn)
        warn(lines.at, data);
    else if (lines.at)
        fprintf(stderr, "kt_live: an unpublishing still waits:\n%s", lines.at);
    free(lines.at);
    kt_live_lock(live);
}

#endif /* KT_LIVE_INSIDE_H */
