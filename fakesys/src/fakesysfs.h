/* SPDX-License-Identifier: MIT OR Apache-2.0 */
/* What the files of fakesysfs share: the tree and its lock, what is stored about a node beside the tree, and
 * what is open. */
#pragma once
#define FUSE_USE_VERSION 312
#include <fuse_lowlevel.h>
#include <kernfs_tree.h>
#include <stdatomic.h>
#include <stdio.h>
#include <stdlib.h>
#include <string.h>
#include <sys/param.h>
#include <sys/queue.h>
#include <sys/stat.h>
#include <time.h>
#include <unistd.h>

/* ---- the tree (nodes.c) ---- */

/* The lock protects the tree, what is stored about its nodes, and what is open. A callback may take it,
 * since a removal does not hold it while it waits. */
extern struct kt_lock lock;
extern struct kt_handle tree;

void lock_tree(void);
void unlock_tree(void);

/* A node's number is its key, so that no number is used twice. The root's, of slot 0 and generation 1, is the
 * number that FUSE has for the root. */
static inline fuse_ino_t number_of(struct kt_key key)
{
    return (fuse_ino_t)(key.generation - 1) << 32 | (key.slot + 1);
}

static inline struct kt_key key_of(fuse_ino_t number)
{
    return (struct kt_key){(uint32_t)number - 1, (uint32_t)(number >> 32) + 1};
}

/* What is stored about a slot's last node, even after the node has left the tree. */
struct node {
    fuse_ino_t number;
    uint64_t inode;    /* what stat(2) reports: 1, 2, .. as nodes are created, so that it fits in 32 bits */
    mode_t mode;       /* with its kind */
    uid_t owner;
    gid_t group;
    uint32_t links;
    struct timespec accessed, changed;
    uint64_t lookups;  /* of the kernel, which knows the node until it has forgotten all of them */
    fuse_ino_t target; /* of a link */
    bool leads_in;     /* of a link: an unplug in progress removes it */
    bool is_hiding;    /* of a file: a hide waits until no caller is inside */
    bool is_uevent;    /* of a file of this name: a write asks for an event, and keeps the text */
    atomic_uint late;  /* milliseconds before a show or store begins; of a directory, before a look-up */
    atomic_uint slow;  /* milliseconds inside each show and store */
    atomic_int fault;  /* the error number that each show and store fails with, else 0 */
    uint32_t magic;    /* of a directory: what statfs(2) reports for it and below, else 0 */
    int64_t rate;      /* of a counter: by how much it grows in a second, else 0 */
    struct timespec begun; /* of a counter: when its text was set, on the monotonic clock */
    size_t length;
    char *text;
    atomic_bool is_binary; /* of a text longer than TEXT_MAX: read and written at any offset (bin_attribute) */
};

/* Makes the tree with only the root. Returns 0 or a negative errno, as do all functions that follow. */
int make_tree(uint32_t slots);

/* The caller of these holds the lock. */
struct node *node_of(fuse_ino_t number);
/* The next node in the tree from a slot on, of a kind (S_IFLNK) or of any (0); NULL if there is none. */
struct node *next_node(uint32_t *slot, mode_t kind);
/* Creates a node of a kind (S_IFDIR, S_IFREG, S_IFLNK) with a mode; `target` is that of a link. */
int make_node(struct kt_key dir, const char *name, mode_t mode, struct kt_key target, bool live,
              struct kt_key *out);
bool is_live(struct kt_key key);
/* Whether a node is `top` or below it. */
bool is_below(struct kt_key key, struct kt_key top);
/* What stat(2) reports; for a node that is gone, what it reported last, until its slot is used again. */
int describe(fuse_ino_t number, struct stat *out);

/* ---- what the kernel keeps (keeping.c) ---- */

/* Of names and attributes: nothing, attributes, or both. */
enum keeping { NOTHING, ATTRIBUTES, NAMES };

bool read_keeping(const char *word, enum keeping *out);
/* Lets the kernel keep at most this, and less if it cannot be made to forget. Called before the first request. */
void begin_keeping(struct fuse_session *session, enum keeping most);
void limit_keeping(const struct fuse_conn_info *connection);

/* The caller of these holds the lock. */

/* How many seconds the kernel may keep a name of a directory, and the attributes of a node. */
double name_time(fuse_ino_t dir);
double attribute_time(fuse_ino_t number);
/* Makes the kernel look up all names again. */
void forget_names(void);
/* Makes the kernel ask for the attributes of a node again. */
void forget_attributes(fuse_ino_t number);
/* Both, for a node that is about to go away, and for all live nodes below it. It may go in this turn of the lock. */
void forget_node(struct kt_key key);
/* Lets the kernel keep nothing until pause_keeping(false), so that each request reaches this program. */
void pause_keeping(bool pauses);
/* Counts a look-up of the kernel. Whether the kernel knew the node before. */
bool add_lookup(fuse_ino_t number);
void remove_lookups(fuse_ino_t number, uint64_t count);

/* ---- texts (texts.c) ---- */

#define TEXT_MAX (KT_PAGE_SIZE - 1)

/* The callbacks of each file. Their data is a `struct open`. */
kt_show show;
kt_store store;

/* The part of a binary file that a read or a write asks for. */
struct part {
    struct open *it;
    size_t offset, room;
    char *page;
};

/* Those of a binary file: each read and each write is a callback. Their data is a `struct part`. */
kt_callback show_part;
kt_store store_part;

/* Sets the text of a file. Returns 0 or -ENOMEM. The caller holds the lock. */
int set_text(struct node *node, const char *bytes, size_t length);
/* The same, cut to TEXT_MAX bytes, with a newline after a text that is not empty, if it fits. */
int set_line(struct node *node, const char *bytes, size_t length);
void wait_milliseconds(unsigned count);

/* ---- counters (counters.c). The caller holds the lock ---- */

/* Parses a rate: a decimal number, which may be negative, and `/s`. */
bool read_rate(const char *word, int64_t *out);
/* Lets the number at the beginning of a file's text grow, or with rate 0 stay as it is now. Returns 0, -EINVAL if
 * the text does not begin with a number, or -ENOMEM. */
int count_from_now(struct node *node, int64_t rate);
/* Writes the text of a counter as it is now. Returns its length. */
size_t text_of_counter(const struct node *node, char *page, size_t room);

/* ---- what statfs(2) reports (magic.c) ---- */

/* Finds the magic number of a kind of file system, such as cgroup2. */
bool read_magic(const char *kind, uint32_t *out);
/* The magic number of a node: that of the closest directory that has one, else that of sysfs. The caller holds the
 * lock. */
uint32_t magic_of(fuse_ino_t number);

/* ---- changes that wait (removal.c). The caller holds the lock; they unlock it while they wait ---- */

int remove_node(struct kt_key key);
/* The same, and removes the links that lead into it. */
int unplug_node(struct kt_key key);
int hide_node(struct kt_key key);
int show_node(struct kt_key key);
/* Called after each change: compacts the tree's log of commands if it has grown much. Returns 0. */
int count_change(void);

/* ---- lines (words.c, commands.c, escapes.c) ---- */

#define CONTROL ".control"
#define LINE_MAX_BYTES 65536

struct line {
    char *rest;            /* what is not parsed yet */
    char *words[4];        /* NULL if there is none */
    struct kt_key keys[2]; /* of each word that is a path; for the path of a new node, of its directory */
    const char *name;      /* of the new node */
};

/* Parses the words that `kinds` names (words.c). An -EBADMSG, for a word that does not fit, precedes all other
 * errors. The caller of this and of the next two holds the lock. */
int take_words(const char *kinds, struct line *line);
/* Finds the directory and the name of a new node's path. */
int find_place(const char *path, struct kt_key *dir, const char **name);
/* Whether a line has the words that `kinds` names, as far as can be seen without the tree. It splits the line. */
bool are_words(const char *kinds, char *rest);
int find_node(const char *path, struct kt_key *key);

/* Parse a number from 0 to `most` in decimal digits, or an error number, which may also be a name. */
bool read_number(const char *word, uint64_t most, uint64_t *out);
bool read_error(const char *word, int *out);

/* Replaces the escapes of a path: a backslash and three octal digits. Whether no byte is 0. */
bool unescape_path(char *path);
/* Copies a path as a word of a line, with these escapes for blanks and backslashes, and cuts it to the buffer. */
void escape_path(const char *path, char *out, size_t room);
/* Replaces the escapes of printf(1)'s %b in a text. Returns its length; *is_whole is false if \c ended it. */
size_t unescape_text(char *text, bool *is_whole);
/* Copies a line without control bytes, so that it can be printed, and cuts it to the buffer. */
void escape_line(const char *bytes, size_t length, char *out, size_t room);

/* Runs a line of `length` bytes before its newline. Returns 0, or a negative errno and why in `why`. It takes
 * the lock. */
int run_line(const char *bytes, size_t length, char *why, size_t room);

/* Whether a text is a line with the right words. Paths are not looked up. The text is not changed. */
bool is_line(const char *text);

/* Makes the tree from the lines of a file, or of standard input if the path is `-`. It prints each wrong line.
 * Whether there was none. */
bool load_description(const char *path, uint32_t slots);

/* ---- steps (steps.c) ---- */

/* The requests of a reader. */
enum step_kind { LOOKUP, STAT, OPEN, READ, LIST, READLINK, WRITE, POLL };

/* Reports a step of a kind at a node, or at the name in it that is looked up, right before it is made. It may run
 * lines, so it takes the lock. */
void step(enum step_kind kind, fuse_ino_t number, const char *name, fuse_req_t req);
/* Whether steps are counted or written now, so that each must reach this program. */
bool are_steps_on(void);
/* Called before the first request, so that no request waits for a line once the mount ends. */
void begin_steps(struct fuse_session *session);

/* The caller of these holds the lock. Those that wait unlock it meanwhile. */
bool read_kind(const char *word, enum step_kind *out);
/* Writes each step to a file, from now on, or ends that (NULL). */
int change_trace(const char *path);
/* Lets lines run before the `count`-th step of a kind at a path from now on. */
int set_point(enum step_kind kind, const char *path, uint64_t count, const char *lines);
/* Forgets all points, and resumes the steps that pause. */
int forget_points(void);
/* Waits until the last point at this place is reached (count 0), or else the `count`-th such step from now on. */
int await_step(enum step_kind kind, const char *path, uint64_t count);
/* Lets the step before which it runs wait until resume_steps(). */
int pause_step(void);
int resume_steps(void);

/* ---- storms (storm.c) ---- */

/* Removes a node as unplug_node() does and creates it again: another device of the same name. The caller holds the
 * lock. */
int replug_node(const char *path);

/* Begins a storm at a path, or ends the one there (seed 0). The caller holds the lock. */
int change_storm(const char *path, uint64_t seed);
/* Storms run from begin_storms() on, after the last fork, until end_storms(). The caller does not hold the
 * lock. */
void begin_storms(void);
void end_storms(void);

/* ---- listings (order.c, listing.c) ---- */

/* The order of all listings follows from a seed; 0, as at the start, is the order of names. */
void set_order(uint64_t seed);

/* The names of one directory in the order of a seed, gathered when they are first needed. */
struct names {
    struct place *places;
    size_t count, room;
};

/* Finds the name after `last` (the first one after an empty name). Returns its length, -ENOENT if there is none, or
 * another negative errno. The caller holds the lock while it uses `names`, which begins as {0}. */
int64_t next_name(struct names *names, struct kt_key dir, const char *last, char *out);
void free_names(struct names *names);

/* ---- what is open (opens.c) ---- */

/* The names of a directory that one open(2) has listed so far. */
struct listing {
    char **names;
    size_t count, room;
};

/* Fills a page with a directory's entries from an offset on. Returns the bytes, or a negative errno. The
 * caller holds the lock. */
int64_t list_entries(struct listing *listing, fuse_req_t req, fuse_ino_t dir, size_t offset, char *page,
                     size_t room);
void free_listing(struct listing *listing);

/* What was written to the control file through one open(2) and is not a whole line yet. */
struct control {
    char *part;
    size_t length;
    unsigned lines;
    uint64_t writer; /* whose part it is, as the kernel numbers the owners of descriptors */
};

/* Runs the lines that are whole now, and returns what write(2) returns. end_control() runs a last line without
 * a newline. */
int64_t write_control(struct control *control, const char *bytes, size_t length);
int end_control(struct control *control);
/* Reads why the last refused line was refused, of any control file. */
int64_t read_control(size_t offset, char *page, size_t room);

struct open {
    LIST_ENTRY(open) link;
    fuse_ino_t number;
    struct kt_handle handle;        /* the library's open file, or a hold of a directory */
    pthread_mutex_t mutex;          /* for the handle, `next` and `control`: one call at a time */
    struct kt_handle post;          /* of a file: its event counter, which any thread may read */
    atomic_uint_fast64_t seen;      /* that number at the last show; 0 before */
    size_t next;                    /* where the last read ended, if a text is left to read on; else 0 */
    struct fuse_pollhandle *poller; /* asks the kernel to poll again; protected by the tree's lock */
    struct listing listing;         /* protected by the tree's lock */
    struct control control;
};

static inline struct open *open_of(struct fuse_file_info *info)
{
    return (struct open *)(uintptr_t)info->fh;
}

/* The control file has the other numbers of slot 0; each look-up returns another one. The kernel locks a file
 * during a write, so with a single number no line could be written while an rm waits. */
static inline bool is_control(fuse_ino_t number)
{
    return (uint32_t)number == FUSE_ROOT_ID && number != FUSE_ROOT_ID;
}

/* Makes pollers of this file, and of files that are gone, poll again. The caller holds the lock. */
void wake_pollers(fuse_ino_t number);

/* The operations of open files and directories. */
void fs_open(fuse_req_t req, fuse_ino_t number, struct fuse_file_info *info);
void fs_read(fuse_req_t req, fuse_ino_t number, size_t size, off_t offset, struct fuse_file_info *info);
void fs_write(fuse_req_t req, fuse_ino_t number, const char *bytes, size_t size, off_t offset,
              struct fuse_file_info *info);
void fs_readdir(fuse_req_t req, fuse_ino_t number, size_t size, off_t offset, struct fuse_file_info *info);
void fs_poll(fuse_req_t req, fuse_ino_t number, struct fuse_file_info *info, struct fuse_pollhandle *poller);
void fs_flush(fuse_req_t req, fuse_ino_t number, struct fuse_file_info *info);
void fs_release(fuse_req_t req, fuse_ino_t number, struct fuse_file_info *info);

/* All operations (operations.c). */
extern const struct fuse_lowlevel_ops operations;
