/* SPDX-License-Identifier: MIT OR Apache-2.0 */
/* What the kernel keeps, so that it need not ask each time, and how it forgets before a change is over.
 *
 * Attributes are kept as long as a node is live and they do not change. When they do, the kernel gets a notice
 * for this node (FUSE_NOTIFY_INVAL_INODE). It does not keep a reply that is on its way meanwhile, if it knows
 * the node already (Linux 5.8 and later). So the reply to the first look-up of a node is never kept.
 *
 * Names are kept until any name goes away. Then the kernel gets a notice to look up each name again
 * (FUSE_NOTIFY_INC_EPOCH, Linux 6.16 and later). A notice for one name would not do: the kernel locks the
 * directory for that, and a look-up there may be waiting for this program. The kernel never keeps that a name is
 * missing, so a new name needs no notice.
 *
 * Neither notice waits for a request, so they are sent under the tree's lock. */
#include "fakesysfs.h"

#define FOR_EVER 1e6 /* seconds */
#define INCREASE_EPOCH 8

static enum keeping keeping; /* set before the first request, and lowered by the first one */
static atomic_bool is_paused;
static struct fuse_session *session;

/* libfuse has this notice from 3.18 on: a reply to no request, whose error is the kind of the notice. */
static bool send_epoch(void)
{
    struct { uint32_t length; int32_t kind; uint64_t request; } notice = {16, INCREASE_EPOCH, 0};
    return write(fuse_session_fd(session), &notice, sizeof notice) == sizeof notice;
}

bool read_keeping(const char *word, enum keeping *out)
{
    static const char *const words[] = {"nothing", "attributes", "names"};
    for (unsigned at = 0; at < sizeof words / sizeof *words; at++) {
        if (!strcmp(word, words[at])) {
            *out = (enum keeping)at;
            return true;
        }
    }
    return false;
}

void begin_keeping(struct fuse_session *of, enum keeping most)
{
    session = of;
    keeping = most;
    if (keeping == NAMES && !send_epoch())
        keeping = ATTRIBUTES;
}

void limit_keeping(const struct fuse_conn_info *connection)
{
    const unsigned of_linux_5_10 = 32;
    if (connection->proto_major == 7 && connection->proto_minor < of_linux_5_10)
        keeping = NOTHING;
}

static bool keeps(enum keeping what)
{
    return keeping >= what && !is_paused;
}

double name_time(fuse_ino_t dir)
{
    return keeps(NAMES) && !node_of(dir)->late ? FOR_EVER : 0;
}

double attribute_time(fuse_ino_t number)
{
    return keeps(ATTRIBUTES) && !is_control(number) && is_live(key_of(number)) ? FOR_EVER : 0;
}

void forget_names(void)
{
    if (keeping == NAMES)
        send_epoch();
}

static bool is_known(fuse_ino_t number)
{
    return number == FUSE_ROOT_ID || node_of(number)->lookups;
}

void forget_attributes(fuse_ino_t number)
{
    if (keeping >= ATTRIBUTES && is_known(number))
        fuse_lowlevel_notify_inval_inode(session, number, -1, 0);
}

/* The same for all live nodes below it. Returns whether the kernel knows one of them: even if it does not know
 * `top`, it may know a node that was moved there. */
static bool forget_attributes_below(struct kt_key top)
{
    char last[KT_NAME_MAX] = "", name[KT_NAME_MAX];
    struct kt_key key;
    int64_t length = 0;
    bool knows = is_known(number_of(top));
    forget_attributes(number_of(top));
    while ((length = kt_next(&tree, top, last, (size_t)length, name, sizeof name)) >= 0) {
        memcpy(last, name, (size_t)length);
        if (!kt_find(&tree, top, name, (size_t)length, &key) && forget_attributes_below(key))
            knows = true;
    }
    return knows;
}

void forget_node(struct kt_key key)
{
    if (keeping >= ATTRIBUTES && forget_attributes_below(key))
        forget_names();
}

void pause_keeping(bool pauses)
{
    struct node *node;
    if (pauses == is_paused)
        return;
    is_paused = pauses;
    forget_names();
    for (uint32_t slot = 0; pauses && (node = next_node(&slot, 0));)
        forget_attributes(node->number);
}

/* ---- how often the kernel has looked up a node, so that it knows the node ---- */

bool add_lookup(fuse_ino_t number)
{
    return !is_control(number) && node_of(number)->lookups++;
}

void remove_lookups(fuse_ino_t number, uint64_t count)
{
    struct node *node = node_of(number);
    if (node->number == number)
        node->lookups -= MIN(count, node->lookups);
}
