/* SPDX-License-Identifier: MIT OR Apache-2.0 */
/* fakesysfs: a live sysfs, made by the lines of a description and mounted with libfuse3 (3.10 or later).
 *
 * This file parses the command line, and begins and ends the mount. */
#include "fakesysfs.h"
#include <stddef.h>

static const char usage[] =
    "usage: fakesysfs [OPTION ..] DESCRIPTION MOUNTPOINT\n"
    "       fakesysfs --check [--slots N] DESCRIPTION\n"
    "\n"
    "Mount a live sysfs. DESCRIPTION is a file of lines that make the tree, or -\n"
    "for standard input. Lines written to MOUNTPOINT/.control change the tree.\n"
    "`fusermount3 -u MOUNTPOINT` ends it.\n"
    "\n"
    "    --slots N              maximum number of nodes, 1 to %u (default: twice\n"
    "                           those of DESCRIPTION, at least 1024)\n"
    "    --order SEED           list directories in an order that follows from SEED\n"
    "                           (default: 0, sorted by name)\n"
    "    --check                only read DESCRIPTION, and print its wrong lines\n"
    "    -h   --help            print help\n"
    "    -V   --version         print version\n"
    "    -f                     stay in the foreground, and print refused lines\n"
    "    -d   -o debug          the same, and print each request of FUSE\n"
    "    -s                     use one thread\n"
    "    -o max_threads=N       maximum number of threads (default 1024): each show\n"
    "                           that sleeps and each rm that waits takes one\n"
    "    -o max_idle_threads=N  threads that are kept for later work (default 64)\n"
    "    -o keep=WORD           what the kernel may keep: names (and attributes, the\n"
    "                           default; Linux 6.16), attributes (5.10), or nothing\n"
    "    -o clone_fd            use one descriptor of /dev/fuse for each thread\n";

enum { THREADS_MAX = 100000 }; /* libfuse's limit */

struct words {
    char *slots_word, *threads_word, *idle_word, *keeping_word, *order_word, *description;
    uint64_t slots, threads, idle, order;
    enum keeping keeping;
    int only_check;
};

static const struct fuse_opt known_words[] = {
    {"--slots %s", offsetof(struct words, slots_word), 0},
    {"--slots=%s", offsetof(struct words, slots_word), 0},
    {"slots=%s", offsetof(struct words, slots_word), 0},
    {"keep=%s", offsetof(struct words, keeping_word), 0},
    {"max_threads=%s", offsetof(struct words, threads_word), 0},
    {"max_idle_threads=%s", offsetof(struct words, idle_word), 0},
    {"--order %s", offsetof(struct words, order_word), 0},
    {"--order=%s", offsetof(struct words, order_word), 0},
    {"--check", offsetof(struct words, only_check), 1},
    FUSE_OPT_END,
};

/* Takes the first argument that is not an option. The others are libfuse's. */
static int take_word(void *data, const char *word, int key, struct fuse_args *rest)
{
    struct words *words = data;
    bool is_input = key == FUSE_OPT_KEY_OPT && !strcmp(word, "-");
    (void)rest;
    if (words->description || (key != FUSE_OPT_KEY_NONOPT && !is_input))
        return 1;
    words->description = strdup(word);
    return words->description ? 0 : -1;
}

static bool read_count(const char *what, const char *word, uint64_t most, uint64_t *out)
{
    if (!word || (read_number(word, most, out) && *out))
        return true;
    fprintf(stderr, "fakesysfs: %s must be 1 to %llu, not %s\n", what, (unsigned long long)most, word);
    return false;
}

static bool read_idle(const char *word, uint64_t *out)
{
    if (!word || read_number(word, THREADS_MAX, out))
        return true;
    fprintf(stderr, "fakesysfs: -o max_idle_threads must be 0 to %u, not %s\n", THREADS_MAX, word);
    return false;
}

static bool read_keeping_word(const char *word, enum keeping *out)
{
    if (!word || read_keeping(word, out))
        return true;
    fprintf(stderr, "fakesysfs: -o keep must be names, attributes or nothing, not %s\n", word);
    return false;
}

static bool read_seed(const char *word, uint64_t *out)
{
    if (!word || read_number(word, UINT64_MAX, out))
        return true;
    fprintf(stderr, "fakesysfs: --order must be a number, not %s\n", word);
    return false;
}

static bool read_words(struct fuse_args *args, struct words *words)
{
    words->threads = 1024;
    words->idle = 64;
    words->keeping = NAMES;
    return !fuse_opt_parse(args, words, known_words, take_word)
        && read_count("--slots", words->slots_word, KT_SLOTS_MAX, &words->slots)
        && read_count("-o max_threads", words->threads_word, THREADS_MAX, &words->threads)
        && read_idle(words->idle_word, &words->idle)
        && read_seed(words->order_word, &words->order)
        && read_keeping_word(words->keeping_word, &words->keeping);
}

static int print_usage(FILE *file, int status)
{
    fprintf(file, usage, KT_SLOTS_MAX);
    if (!status) {
        puts("\nFUSE's own options:");
        fuse_lowlevel_help();
    }
    return status;
}

static int print_version(void)
{
    printf("fakesysfs %d.%d.%d, libfuse %s\n", KT_VERSION_MAJOR, KT_VERSION_MINOR, KT_VERSION_PATCH, fuse_pkgversion());
    return 0;
}

/* Serves requests until the unmount or a signal. */
static int loop(struct fuse_session *session, const struct fuse_cmdline_opts *options, const struct words *words)
{
    if (options->singlethread)
        return fuse_session_loop(session);
#if FUSE_VERSION >= FUSE_MAKE_VERSION(3, 12)
    struct fuse_loop_config *config = fuse_loop_cfg_create();
    if (!config)
        return -ENOMEM;
    fuse_loop_cfg_set_clone_fd(config, (unsigned)options->clone_fd);
    fuse_loop_cfg_set_idle_threads(config, (unsigned)words->idle);
    fuse_loop_cfg_set_max_threads(config, (unsigned)words->threads);
    int result = fuse_session_loop_mt(session, config);
    fuse_loop_cfg_destroy(config);
    return result;
#else
    struct fuse_loop_config config = {.clone_fd = options->clone_fd, .max_idle_threads = (unsigned)words->idle};
    /* (this version has no limit of threads) */
    return fuse_session_loop_mt(session, &config);
#endif
}

/* Mounts the tree and serves it. Returns the exit status. */
static int serve(struct fuse_session *session, const struct fuse_cmdline_opts *options,
                 const struct words *words)
{
    int status = 1;
    if (fuse_set_signal_handlers(session))
        return 1;
    if (!fuse_session_mount(session, options->mountpoint)) {
        if (!fuse_daemonize(options->foreground)) {
            begin_keeping(session, words->keeping);
            begin_steps(session);
            begin_storms();
            status = loop(session, options, words) < 0; /* (the number of a signal is not an error) */
            end_storms();
        }
        fuse_session_unmount(session);
    }
    fuse_remove_signal_handlers(session);
    return status;
}

static int run(struct fuse_args *args, const struct words *words, const struct fuse_cmdline_opts *options)
{
    if (options->show_help)
        return print_usage(stdout, 0);
    if (options->show_version)
        return print_version();
    if (!words->description || !options->mountpoint == !words->only_check)
        return print_usage(stderr, 2);
    if (words->only_check)
        return !load_description(words->description, (uint32_t)words->slots);
    struct fuse_session *session = fuse_session_new(args, &operations, sizeof operations, NULL);
    if (!session)
        return 2;
    int status = 1;
    set_order(words->order);
    if (load_description(words->description, (uint32_t)words->slots))
        status = serve(session, options, words);
    fuse_session_destroy(session);
    return status;
}

int main(int count, char **list)
{
    struct fuse_args args = FUSE_ARGS_INIT(count, list);
    struct fuse_cmdline_opts options = {0};
    struct words words = {0};
    int status = 2;
    if (read_words(&args, &words)
        && !fuse_opt_insert_arg(&args, 1, "-odefault_permissions,fsname=fakesysfs,subtype=fakesysfs")
        && !fuse_parse_cmdline(&args, &options))
        status = run(&args, &words, &options);
    fuse_opt_free_args(&args);
    free(options.mountpoint);
    free(words.description);
    free(words.slots_word);
    free(words.threads_word);
    free(words.idle_word);
    free(words.keeping_word);
    free(words.order_word);
    return status;
}
