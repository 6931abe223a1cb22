/* SPDX-License-Identifier: MIT OR Apache-2.0 */
/* The lines that make and change the tree: those of kernfs_run, and those that disturb its readers. */
#include "fakesysfs.h"

static const struct kt_key nothing;

/* Counts the command of a change that was made. */
static int changed(int error)
{
    return error ? error : count_change();
}

static int run_mkdir(struct line *line)
{
    struct kt_key made;
    return changed(make_node(line->keys[0], line->name, S_IFDIR | 0755, nothing, !line->words[1], &made));
}

static int run_file(struct line *line)
{
    const char *text = line->words[2] ? line->words[2] : "";
    mode_t mode = (mode_t)strtoul(line->words[1], NULL, 8);
    struct kt_key made;
    int error = changed(make_node(line->keys[0], line->name, S_IFREG | mode, nothing, true, &made));
    if (!error && set_line(node_of(number_of(made)), text, strlen(text))) {
        (void)!kt_remove(&tree, made); /* the lock is held: no thread has seen it */
        return -ENOMEM;
    }
    return error;
}

static int run_link(struct line *line)
{
    struct kt_key made;
    return changed(make_node(line->keys[0], line->name, S_IFLNK | 0777, line->keys[1], true, &made));
}

static int run_activate(struct line *line)
{
    return changed(kt_activate(&tree, line->keys[0]));
}

static int run_mv(struct line *line)
{
    const char *name = line->words[2];
    struct kt_key from = line->keys[0];
    if (number_of(line->keys[1]) == FUSE_ROOT_ID && !strcmp(name, CONTROL))
        return -EEXIST;
    (void)!kt_parent(&tree, line->keys[0], &from);
    int error = kt_rename(&tree, line->keys[0], line->keys[1], name, strlen(name));
    forget_names();
    forget_attributes(number_of(from));
    forget_attributes(number_of(line->keys[1]));
    return changed(error);
}

static int run_rm(struct line *line)
{
    return changed(remove_node(line->keys[0]));
}

/* A link to a device is not the device: without it the device would stay, and a test would try nothing. */
static int run_unplug(struct line *line)
{
    bool is_link = S_ISLNK(node_of(number_of(line->keys[0]))->mode);
    return is_link ? -EINVAL : changed(unplug_node(line->keys[0]));
}

static int run_hide(struct line *line)
{
    return changed(hide_node(line->keys[0]));
}

static int run_show(struct line *line)
{
    return changed(show_node(line->keys[0]));
}

static int run_notify(struct line *line)
{
    struct kt_handle post;
    if (kt_new(&post.at))
        return -ENOMEM;
    int error = kt_event_open(&tree, line->keys[0], &post);
    if (!error)
        error = kt_notify(&post);
    kt_delete(post);
    if (!error)
        wake_pollers(number_of(line->keys[0]));
    return error;
}

static int run_set(struct line *line)
{
    char empty[] = "", *text = line->words[1] ? line->words[1] : empty;
    bool is_whole;
    size_t length = unescape_text(text, &is_whole);
    struct node *node = node_of(number_of(line->keys[0]));
    if (length > TEXT_MAX && (is_whole || node->is_uevent))
        return -EFBIG;
    return is_whole ? set_line(node, text, length) : set_text(node, text, length);
}

static int run_fail(struct line *line)
{
    int fault = 0;
    read_error(line->words[1], &fault);
    node_of(number_of(line->keys[0]))->fault = fault;
    return 0;
}

static int run_count(struct line *line)
{
    int64_t rate = 0;
    read_rate(line->words[1], &rate);
    return count_from_now(node_of(number_of(line->keys[0])), rate);
}

static int run_filesystem(struct line *line)
{
    struct node *node = node_of(number_of(line->keys[0]));
    if (!S_ISDIR(node->mode))
        return -ENOTDIR;
    read_magic(line->words[1], &node->magic);
    return 0;
}

static int run_late(struct line *line)
{
    struct node *node = node_of(number_of(line->keys[0]));
    node->late = (unsigned)strtoul(line->words[1], NULL, 10);
    if (S_ISDIR(node->mode))
        forget_names(); /* if it is late, each name is looked up each time */
    return 0;
}

static int run_slow(struct line *line)
{
    node_of(number_of(line->keys[0]))->slow = (unsigned)strtoul(line->words[1], NULL, 10);
    return 0;
}

static int run_storm(struct line *line)
{
    uint64_t seed = 0;
    read_number(line->words[1], UINT64_MAX, &seed);
    return change_storm(line->words[0], seed);
}

static int run_replug(struct line *line)
{
    return replug_node(line->words[0]);
}

static int run_at(struct line *line)
{
    enum step_kind kind = LOOKUP;
    uint64_t count = 0;
    read_kind(line->words[0], &kind);
    read_number(line->words[2], UINT32_MAX, &count);
    return line->words[3] ? set_point(kind, line->words[1], count, line->words[3]) : -EBADMSG;
}

static int run_await(struct line *line)
{
    enum step_kind kind = LOOKUP;
    uint64_t count = 0;
    read_kind(line->words[0], &kind);
    if (line->words[2])
        read_number(line->words[2], UINT32_MAX, &count);
    return await_step(kind, line->words[1], count);
}

static int run_trace(struct line *line)
{
    return *line->words[0] == '/' ? change_trace(line->words[0]) : -EINVAL;
}

static int run_trace_off(struct line *line)
{
    (void)line;
    return change_trace(NULL);
}

static int run_at_off(struct line *line)
{
    (void)line;
    return forget_points();
}

static int run_pause(struct line *line)
{
    (void)line;
    return pause_step();
}

static int run_resume(struct line *line)
{
    (void)line;
    return resume_steps();
}

#define KINDS "KIND: lookup, stat, open, read, list, readlink, write or poll; N from 1"

/* A name with a blank is a whole line. */
static const struct command {
    const char *name, *kinds, *usage;
    int (*run)(struct line *line);
} commands[] = {
    {"mkdir", "no", "mkdir PATH [off]", run_mkdir},
    {"file", "nmt", "file PATH MODE TEXT", run_file},
    {"link", "np", "link PATH TARGET", run_link},
    {"activate", "p", "activate PATH", run_activate},
    {"mv", "ppw", "mv PATH DIR NAME", run_mv},
    {"rm", "p", "rm PATH", run_rm},
    {"unplug", "p", "unplug PATH", run_unplug},
    {"hide", "a", "hide PATH", run_hide},
    {"show", "p", "show PATH", run_show},
    {"notify", "a", "notify PATH", run_notify},
    {"set", "at", "set PATH TEXT", run_set},
    {"fail", "ae", "fail PATH ERRNO", run_fail},
    {"count", "ar", "count PATH N/s", run_count},
    {"filesystem", "pf", "filesystem DIR KIND (sysfs, cgroup2, debugfs ..)", run_filesystem},
    {"late", "di", "late PATH MILLISECONDS (at most 99999)", run_late},
    {"slow", "ai", "slow PATH MILLISECONDS (at most 99999)", run_slow},
    {"storm", "xs", "storm PATH SEED", run_storm},
    {"replug", "x", "replug PATH", run_replug},
    {"at off", "", "at off", run_at_off},
    {"at", "kxct", "at KIND PATH N LINE[;;LINE ..] (" KINDS "), or: at off", run_at},
    {"await", "kxC", "await KIND PATH [N] (" KINDS ")", run_await},
    {"pause", "", "pause", run_pause},
    {"resume", "", "resume", run_resume},
    {"trace off", "", "trace off", run_trace_off},
    {"trace", "x", "trace FILE, or: trace off", run_trace},
};

static bool is_named(const char *line, const char *name)
{
    size_t length = strlen(name);
    return !strncmp(line, name, length) && (!line[length] || (line[length] == ' ' && !strchr(name, ' ')));
}

/* Finds the command of a line, and takes its name off. */
static const struct command *take_command(char **line)
{
    for (size_t at = 0; at < sizeof commands / sizeof *commands; at++) {
        size_t length = strlen(commands[at].name);
        if (is_named(*line, commands[at].name)) {
            *line = (*line)[length] ? *line + length + 1 : NULL;
            return &commands[at];
        }
    }
    return NULL;
}

bool is_line(const char *text)
{
    char *copy = strdup(text), *rest = copy;
    bool is_comment = !*text || *text == '#';
    const struct command *command = copy && !is_comment ? take_command(&rest) : NULL;
    bool is_well = is_comment || (command && are_words(command->kinds, rest));
    free(copy);
    return is_well;
}

/* Runs a line, and splits it into words. */
static int run_words(char *words, char *why, size_t room)
{
    struct line line = {.rest = words};
    const struct command *command = take_command(&line.rest);
    int error = -EBADMSG;
    if (command) {
        lock_tree();
        error = take_words(command->kinds, &line);
        if (!error)
            error = command->run(&line);
        unlock_tree();
    }
    if (error == -EBADMSG && command)
        snprintf(why, room, "usage: %s", command->usage);
    else
        snprintf(why, room, "%s", error == -EBADMSG ? "no such command" : strerror(-error));
    return error;
}

int run_line(const char *bytes, size_t length, char *why, size_t room)
{
    if (!length || *bytes == '#')
        return 0;
    if (memchr(bytes, 0, length)) {
        snprintf(why, room, "the line has a zero byte (write it as \\0 in a text)");
        return -EBADMSG;
    }
    char *words = strndup(bytes, length);
    if (!words) {
        snprintf(why, room, "%s", strerror(ENOMEM));
        return -ENOMEM;
    }
    int error = run_words(words, why, room);
    free(words);
    return error;
}
