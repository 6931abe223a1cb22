/* SPDX-License-Identifier: MIT OR Apache-2.0 */
/* Steps: each request of a reader (a look-up, an open, a read ..) can be written to a file, and lines can run right
 * before one. So a test can try each step of a program in turn, and it needs neither luck nor a sleep. */
#include "fakesysfs.h"
#include <fcntl.h>
#include <linux/magic.h>
#include <search.h>
#include <sys/vfs.h>

/* A step that a line named: the N-th of a kind at a path, counted from that line on. */
struct point {
    TAILQ_ENTRY(point) link;
    enum step_kind kind;
    char *path;
    char *lines;         /* NULL once they run */
    bool is_awaited;     /* it belongs to an `await` and has no lines */
    uint64_t left, name; /* steps up to it, 0 once it is reached; a number that no other point has */
};

/* How often a step was made since the trace began. */
struct tally {
    uint64_t count;
    enum step_kind kind;
    char path[];
};

static const char *const kind_names[] = {"lookup", "stat", "open", "read", "list", "readlink", "write", "poll"};
static const double patience = 60; /* seconds that an `await` waits at most */

/* The lock of the tree protects all of these. */
static TAILQ_HEAD(points, point) points = TAILQ_HEAD_INITIALIZER(points);
static uint64_t names, resumes;
static FILE *trace;
static void *tallies; /* a tree of search.h */
static pthread_cond_t changed = PTHREAD_COND_INITIALIZER;
static struct fuse_session *session; /* set before the first request */

static atomic_bool is_on;            /* a run without points and without a trace pays one load for each step */
static __thread bool is_in_step;
/* How many `resume` lines there were when this thread's step was reached, and those that its pauses took since. So a
 * `resume` counts that comes between an `await` of the step and the pause. */
static __thread uint64_t resumed;

bool read_kind(const char *word, enum step_kind *out)
{
    for (unsigned at = 0; at < sizeof kind_names / sizeof *kind_names; at++) {
        if (!strcmp(word, kind_names[at])) {
            *out = (enum step_kind)at;
            return true;
        }
    }
    return false;
}

void begin_steps(struct fuse_session *of)
{
    session = of;
}

bool are_steps_on(void)
{
    return atomic_load_explicit(&is_on, memory_order_relaxed);
}

/* While steps matter the kernel keeps nothing, so that each one reaches this program. */
static void turn_on_or_off(void)
{
    bool is_needed = trace || !TAILQ_EMPTY(&points);
    atomic_store(&is_on, is_needed);
    pause_keeping(is_needed);
}

/* ---- waits. The caller holds the lock, which is unlocked meanwhile ---- */

/* Waits until a point is reached or forgotten, or a little. Returns whether the mount goes on: its end waits for
 * all requests, so a request must not wait for a line that no one can write any more. */
static bool wait_for_change(void)
{
    struct timespec until;
    clock_gettime(CLOCK_REALTIME, &until);
    until.tv_nsec += 100 * 1000000L;
    until.tv_sec += until.tv_nsec / 1000000000;
    until.tv_nsec %= 1000000000;
    pthread_cond_timedwait(&changed, &lock.mutex, &until);
    return !session || !fuse_session_exited(session);
}

static double seconds_now(void)
{
    struct timespec now;
    clock_gettime(CLOCK_MONOTONIC, &now);
    return (double)now.tv_sec + (double)now.tv_nsec / 1e9;
}

int pause_step(void)
{
    if (!is_in_step)
        return -EINVAL;
    while (resumes <= resumed && wait_for_change())
        continue;
    resumed++;
    return 0;
}

int resume_steps(void)
{
    resumes++;
    pthread_cond_broadcast(&changed);
    return 0;
}

/* ---- points ---- */

static void free_point(struct point *it)
{
    TAILQ_REMOVE(&points, it, link);
    free(it->path);
    free(it->lines);
    free(it);
}

static int new_point(enum step_kind kind, const char *path, uint64_t count, const char *lines, struct point **out)
{
    struct point *it = calloc(1, sizeof *it);
    if (!it)
        return -ENOMEM;
    *it = (struct point){.kind = kind, .left = count, .name = ++names};
    it->path = strdup(path);
    it->lines = lines ? strdup(lines) : NULL;
    it->is_awaited = !lines;
    TAILQ_INSERT_TAIL(&points, it, link);
    if (!it->path || (lines && !it->lines)) {
        free_point(it);
        return -ENOMEM;
    }
    *out = it;
    turn_on_or_off();
    return 0;
}

/* Whether the node of a path can be the place of such a step. A name that is looked up need not be there. */
static int check_place(enum step_kind kind, const char *path)
{
    struct kt_key key;
    const char *name;
    if (kind == LOOKUP)
        return find_place(path, &key, &name);
    int error = find_node(path, &key);
    if (error)
        return error;
    mode_t mode = node_of(number_of(key))->mode;
    if (kind == LIST)
        return S_ISDIR(mode) ? 0 : -ENOTDIR;
    if (kind == READLINK)
        return S_ISLNK(mode) ? 0 : -EINVAL;
    if (S_ISLNK(mode) && kind != STAT)
        return -ELOOP;
    return S_ISDIR(mode) && kind != STAT && kind != OPEN ? -EISDIR : 0;
}

/* Whether each of the lines of a point, between `;;`, is a line. */
static bool are_lines(const char *lines)
{
    char *copy = strdup(lines), *rest = copy, *end;
    bool is_well = copy && *copy;
    for (; is_well && rest; rest = end ? end + 2 : NULL) {
        end = strstr(rest, ";;");
        if (end)
            *end = 0;
        is_well = is_line(rest);
    }
    free(copy);
    return is_well;
}

int set_point(enum step_kind kind, const char *path, uint64_t count, const char *lines)
{
    struct point *it;
    int error = check_place(kind, path);
    if (!error && !are_lines(lines))
        error = -EBADMSG;
    return error ? error : new_point(kind, path, count, lines, &it);
}

int forget_points(void)
{
    while (!TAILQ_EMPTY(&points))
        free_point(TAILQ_FIRST(&points));
    turn_on_or_off();
    return resume_steps();
}

static struct point *find_point(uint64_t name)
{
    struct point *it;
    TAILQ_FOREACH (it, &points, link)
        if (it->name == name)
            return it;
    return NULL;
}

/* The last point of an `at` line at this place, if there is one. */
static struct point *find_last(enum step_kind kind, const char *path)
{
    struct point *it;
    TAILQ_FOREACH_REVERSE (it, &points, points, link)
        if (!it->is_awaited && it->kind == kind && !strcmp(it->path, path))
            return it;
    return NULL;
}

int await_step(enum step_kind kind, const char *path, uint64_t count)
{
    struct point *it = count ? NULL : find_last(kind, path);
    bool is_own = !it;
    int error = it ? 0 : check_place(kind, path);
    if (!it && !error)
        error = new_point(kind, path, MAX(count, 1), NULL, &it);
    if (error)
        return error;
    uint64_t name = it->name;
    double until = seconds_now() + patience;
    while (!error && (it = find_point(name)) && it->left)
        error = !wait_for_change() ? -ENODEV : seconds_now() > until ? -ETIMEDOUT : 0;
    it = find_point(name);
    if (!error && !it)
        error = -ECANCELED; /* `at off` */
    if (is_own && it)
        free_point(it);
    turn_on_or_off();
    return error;
}

/* ---- the trace ---- */

static int compare(const void *left, const void *right)
{
    const struct tally *one = left, *other = right;
    return one->kind != other->kind ? (int)one->kind - (int)other->kind : strcmp(one->path, other->path);
}

/* Counts a step. Returns how often it was made, or 0 without memory. */
static uint64_t count_step(enum step_kind kind, const char *path)
{
    struct tally *it = malloc(sizeof *it + strlen(path) + 1);
    if (!it)
        return 0;
    *it = (struct tally){.kind = kind};
    strcpy(it->path, path);
    struct tally **found = tsearch(it, &tallies, compare);
    if (!found || *found != it)
        free(it);
    return found ? ++(*found)->count : 0;
}

static void write_step(enum step_kind kind, const char *path, fuse_req_t req, bool is_point)
{
    char word[4 * 4 * KT_PAGE_SIZE];
    escape_path(path, word, sizeof word);
    fprintf(trace, "%s %s %llu %d%s\n", kind_names[kind], word, (unsigned long long)count_step(kind, path),
            (int)fuse_req_ctx(req)->pid, is_point ? " !" : "");
    fflush(trace);
}

/* Opens a file for the trace. It must not be a file of this mount, which would wait for itself. */
static FILE *open_trace(const char *path, int *error)
{
    struct statfs system;
    struct stat stat;
    int file = open(path, O_WRONLY | O_CREAT | O_CLOEXEC | O_NONBLOCK, 0666);
    bool is_open = file >= 0 && !fstat(file, &stat) && !fstatfs(file, &system);
    if (is_open && (!S_ISREG(stat.st_mode) || system.f_type == FUSE_SUPER_MAGIC)) {
        errno = EINVAL;
        is_open = false;
    }
    FILE *opened = is_open && !ftruncate(file, 0) ? fdopen(file, "w") : NULL;
    *error = opened ? 0 : -errno;
    if (!opened && file >= 0)
        close(file);
    return opened;
}

int change_trace(const char *path)
{
    int error = 0;
    unlock_tree(); /* the path may lead through this mount */
    FILE *opened = path ? open_trace(path, &error) : NULL;
    lock_tree();
    if (error)
        return error;
    if (trace)
        fclose(trace);
    trace = opened;
    tdestroy(tallies, free);
    tallies = NULL;
    turn_on_or_off();
    return 0;
}

/* ---- a step ---- */

/* Adds the lines of a point to those of other points at the same step. */
static char *add_lines(char *before, char *more)
{
    char *both = more;
    if (before && asprintf(&both, "%s;;%s", before, more) < 0)
        both = NULL;
    if (before) {
        free(before);
        free(more);
    }
    return both;
}

/* Counts a step for all points. Returns the lines that run before it, or NULL. */
static char *reach_points(enum step_kind kind, const char *path)
{
    char *lines = NULL;
    struct point *it;
    TAILQ_FOREACH (it, &points, link) {
        if (it->kind != kind || strcmp(it->path, path) || !it->left || --it->left)
            continue;
        pthread_cond_broadcast(&changed);
        if (it->lines)
            lines = add_lines(lines, it->lines);
        it->lines = NULL;
    }
    return lines;
}

/* Runs lines between `;;`, without the lock. */
static void run_lines(char *lines)
{
    char why[128], shown[300], *end;
    is_in_step = true;
    for (char *rest = lines; rest; rest = end ? end + 2 : NULL) {
        end = strstr(rest, ";;");
        if (end)
            *end = 0;
        if (run_line(rest, strlen(rest), why, sizeof why)) {
            escape_line(rest, strlen(rest), shown, sizeof shown);
            fprintf(stderr, "fakesysfs: at: %s: %s\n", why, shown);
        }
    }
    is_in_step = false;
}

/* The path of a step. A node that is gone has none. */
static void name_place(fuse_ino_t number, const char *name, char *path, size_t room)
{
    int64_t length = kt_path(&tree, key_of(number), path, room - KT_NAME_MAX - 2);
    if (length < 0)
        length = snprintf(path, room, "(gone)");
    if (name && length == 1)
        length = 0; /* the root */
    path[length] = 0;
    if (name)
        snprintf(path + length, room - (size_t)length, "/%s", name);
}

void step(enum step_kind kind, fuse_ino_t number, const char *name, fuse_req_t req)
{
    char path[4 * KT_PAGE_SIZE];
    if (!are_steps_on() || is_control(number) || (number == FUSE_ROOT_ID && name && !strcmp(name, CONTROL)))
        return;
    lock_tree();
    name_place(number, name, path, sizeof path);
    char *lines = reach_points(kind, path);
    resumed = resumes;
    if (trace)
        write_step(kind, path, req, lines != NULL);
    unlock_tree();
    if (lines)
        run_lines(lines);
    free(lines);
}
