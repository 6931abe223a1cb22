/* SPDX-License-Identifier: MIT OR Apache-2.0 */
/* Parses the words of a line: paths, which are looked up, numbers and modes. */
#include "fakesysfs.h"
#include <ctype.h>

bool read_number(const char *word, uint64_t most, uint64_t *out)
{
    uint64_t value = 0;
    if (!*word)
        return false;
    for (; *word; word++) {
        uint64_t digit = (uint64_t)(*word - '0');
        if (!isdigit((unsigned char)*word) || value > (UINT64_MAX - digit) / 10)
            return false;
        value = value * 10 + digit;
    }
    *out = value;
    return value <= most;
}

bool read_error(const char *word, int *out)
{
    static const struct { const char *name; int number; } errors[] = {
        {"EPERM", EPERM}, {"ENOENT", ENOENT}, {"EINTR", EINTR}, {"EIO", EIO}, {"ENXIO", ENXIO},
        {"EAGAIN", EAGAIN}, {"ENOMEM", ENOMEM}, {"EACCES", EACCES}, {"EFAULT", EFAULT}, {"EBUSY", EBUSY},
        {"EEXIST", EEXIST}, {"ENODEV", ENODEV}, {"EINVAL", EINVAL}, {"EFBIG", EFBIG}, {"ENOSPC", ENOSPC},
        {"EPIPE", EPIPE}, {"ERANGE", ERANGE}, {"ENODATA", ENODATA}, {"EPROTO", EPROTO},
        {"EOVERFLOW", EOVERFLOW}, {"EOPNOTSUPP", EOPNOTSUPP}, {"ETIMEDOUT", ETIMEDOUT},
        {"EREMOTEIO", EREMOTEIO}, {"ENOMEDIUM", ENOMEDIUM},
    };
    uint64_t number;
    for (size_t at = 0; at < sizeof errors / sizeof *errors; at++) {
        if (!strcmp(word, errors[at].name)) {
            *out = errors[at].number;
            return true;
        }
    }
    if (!read_number(word, EHWPOISON, &number)) /* the last one of Linux */
        return false;
    *out = (int)number;
    return true;
}

/* Whether a word is of its kind, as far as can be seen without the tree. */
static bool is_word(char kind, const char *word)
{
    size_t length = word ? strlen(word) : 0;
    enum step_kind step;
    uint64_t number;
    uint32_t magic;
    int64_t rate;
    int error;
    switch (kind) {
    case 'o': return !word || !strcmp(word, "off");
    case 't': return true;
    case 'm': return length == 3 && strspn(word, "01234567") == length;
    case 'i': return word && read_number(word, 99999, &number);
    case 's': return word && read_number(word, UINT64_MAX, &number);
    case 'e': return word && read_error(word, &error);
    case 'k': return word && read_kind(word, &step);
    case 'C': return !word || (read_number(word, UINT32_MAX, &number) && number);
    case 'c': return word && read_number(word, UINT32_MAX, &number) && number;
    case 'r': return word && read_rate(word, &rate);
    case 'f': return word && read_magic(word, &magic);
    default: return length;
    }
}

int find_node(const char *path, struct kt_key *key)
{
    return kt_walk(&tree, path, strlen(path), key);
}

/* No node may have the name of the control file. */
static int refuse_control(struct kt_key dir, const char *name)
{
    return number_of(dir) == FUSE_ROOT_ID && !strcmp(name, CONTROL) ? -EEXIST : 0;
}

int find_place(const char *path, struct kt_key *dir, const char **name)
{
    const char *slash = strrchr(path, '/');
    if (*path != '/' || !path[1] || path[1] == '/')
        return -EINVAL; /* kt_walk() would accept / and //NAME */
    *name = slash + 1;
    int error = kt_walk(&tree, path, slash > path ? (size_t)(slash - path) : 1, dir);
    return error ? error : refuse_control(*dir, *name);
}

/* Finds the node of a path, which must have a text, or if `is_dir_well` may be a directory. */
static int find_text(const char *path, bool is_dir_well, struct kt_key *key)
{
    int error = find_node(path, key);
    if (error)
        return error;
    mode_t mode = node_of(number_of(*key))->mode;
    if (S_ISREG(mode) || (S_ISDIR(mode) && is_dir_well))
        return 0;
    return S_ISDIR(mode) ? -EISDIR : -EINVAL;
}

static int find(char kind, char *word, struct line *line, struct kt_key *key)
{
    if (!unescape_path(word))
        return -EINVAL;
    switch (kind) {
    case 'n': return find_place(word, key, &line->name);
    case 'p': return find_node(word, key);
    case 'w':
    case 'x': return 0;
    default: return find_text(word, kind == 'd', key);
    }
}

static char *next_word(char kind, char **rest)
{
    return strsep(rest, kind == 't' ? "" : " ");
}

bool are_words(const char *kinds, char *rest)
{
    for (; *kinds; kinds++)
        if (!is_word(*kinds, next_word(*kinds, &rest)))
            return false;
    return !rest;
}

/* The kinds: n the path of a new node, p a path, a the path of a file, d of a file or directory, x a path that
 * need not exist, w a name, m a mode, i milliseconds, e an error number, s a seed, k a kind of step, c a count
 * from 1 on, C the same or nothing, r a rate, f a kind of file system, o `off` or nothing, t the rest of the
 * line. */
int take_words(const char *kinds, struct line *line)
{
    int error = 0;
    for (int at = 0; kinds[at]; at++) {
        char *word = line->words[at] = next_word(kinds[at], &line->rest);
        if (!is_word(kinds[at], word))
            return -EBADMSG;
        if (!error && strchr("npadwx", kinds[at]))
            error = find(kinds[at], word, line, &line->keys[MIN(at, 1)]);
    }
    return line->rest ? -EBADMSG : error;
}
