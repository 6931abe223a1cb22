/* SPDX-License-Identifier: MIT OR Apache-2.0 */
/* Loaded before the C library (LD_PRELOAD). Memory, reads, writes and threads fail as the environment says:

   FAIL_MEMORY=N   only the Nth request for memory is refused
   FAIL_READ=N     only the Nth read fails
   FAIL_WRITE=N    only the Nth write fails
   EMPTY_WRITE=N   only the Nth write takes no byte
   FAIL_THREAD=N   only the Nth thread cannot be created
   NO_THREADS=1    no thread can be created
   READ_MOST=N     a read returns at most N bytes
   WRITE_MOST=N    a write takes at most N bytes
   NEWLINES=N      the input is N newlines, one per read, and then its end
   FAIL_REPORT=F   at the end the file F has the numbers of requests, reads, writes, threads and failures, and of the bytes
                   of memory that were in use at the last read

   Requests are counted from the moment when this file is loaded, shortly before main begins. */
#define _GNU_SOURCE
#include <dlfcn.h>
#include <errno.h>
#include <fcntl.h>
#include <malloc.h>
#include <pthread.h>
#include <stdatomic.h>
#include <stdio.h>
#include <stdlib.h>
#include <string.h>
#include <sys/syscall.h>
#include <unistd.h>

static atomic_ulong requests, reads, writes, threads, failed, in_use, in_use_at_read;
static unsigned long fail_memory, fail_read, fail_write, empty_write, fail_thread, no_threads, read_most, write_most, newlines;
static int (*make_thread)(pthread_t *, const pthread_attr_t *, void *(*)(void *), void *);
static const char *report;
static atomic_int is_on;

extern void *__libc_malloc(size_t size);
extern void *__libc_calloc(size_t count, size_t size);
extern void *__libc_realloc(void *at, size_t size);
extern void *__libc_memalign(size_t line, size_t size);
extern void __libc_free(void *at);

static unsigned long number(const char *name) {
    const char *text = getenv(name);
    return text ? strtoul(text, NULL, 10) : 0;
}

__attribute__((constructor)) static void begin(void) {
    fail_memory = number("FAIL_MEMORY");
    fail_read = number("FAIL_READ");
    fail_write = number("FAIL_WRITE");
    empty_write = number("EMPTY_WRITE");
    fail_thread = number("FAIL_THREAD");
    no_threads = number("NO_THREADS");
    read_most = number("READ_MOST");
    write_most = number("WRITE_MOST");
    newlines = number("NEWLINES");
    report = getenv("FAIL_REPORT");
    *(void **)&make_thread = dlsym(RTLD_NEXT, "pthread_create");
    atomic_store(&is_on, 1);
}

__attribute__((destructor)) static void tell(void) {
    char text[160];
    if (!report)
        return;
    int file = open(report, O_WRONLY | O_CREAT | O_TRUNC, 0600);
    int size = snprintf(text, sizeof text, "%lu %lu %lu %lu %lu %lu\n", atomic_load(&requests), atomic_load(&reads),
                        atomic_load(&writes), atomic_load(&threads), atomic_load(&failed),
                        atomic_load(&in_use_at_read));
    if (file >= 0 && syscall(SYS_write, file, text, (size_t)size) == size)
        close(file);
}

/* A program may end at once, with no destructor run. */
__attribute__((noreturn)) void _exit(int status) {
    tell();
    for (;;)
        syscall(SYS_exit_group, status);
}

/* Whether this request is the one to be refused. */
static int is_refused(void) {
    if (!atomic_load(&is_on) || atomic_fetch_add(&requests, 1) + 1 != fail_memory)
        return 0;
    atomic_fetch_add(&failed, 1);
    errno = ENOMEM;
    return 1;
}

static void *taken(void *at) {
    atomic_fetch_add(&in_use, malloc_usable_size(at));
    return at;
}

void *malloc(size_t size) { return is_refused() ? NULL : taken(__libc_malloc(size)); }
void *calloc(size_t count, size_t size) { return is_refused() ? NULL : taken(__libc_calloc(count, size)); }
void *memalign(size_t line, size_t size) { return is_refused() ? NULL : taken(__libc_memalign(line, size)); }
void *aligned_alloc(size_t line, size_t size) { return is_refused() ? NULL : taken(__libc_memalign(line, size)); }

void *realloc(void *at, size_t size) {
    size_t before = malloc_usable_size(at);
    if (is_refused())
        return NULL;
    void *now = __libc_realloc(at, size);
    if (now || !size) {
        atomic_fetch_sub(&in_use, before);
        taken(now);
    }
    return now;
}

void free(void *at) {
    atomic_fetch_sub(&in_use, malloc_usable_size(at));
    __libc_free(at);
}

int posix_memalign(void **to, size_t line, size_t size) {
    void *at = is_refused() ? NULL : taken(__libc_memalign(line, size));
    if (at)
        *to = at;
    return at ? 0 : ENOMEM;
}

ssize_t read(int file, void *to, size_t size) {
    unsigned long turn = atomic_fetch_add(&reads, 1) + 1;
    atomic_store(&in_use_at_read, atomic_load(&in_use));
    if (turn == fail_read) {
        atomic_fetch_add(&failed, 1);
        errno = EIO;
        return -1;
    }
    if (newlines && size) {
        *(char *)to = '\n';
        return turn <= newlines;
    }
    return syscall(SYS_read, file, to, read_most && size > read_most ? read_most : size);
}

ssize_t write(int file, const void *from, size_t size) {
    /* (messages on standard error are written whole) */
    if (file == 2)
        return syscall(SYS_write, file, from, size);
    unsigned long turn = atomic_fetch_add(&writes, 1) + 1;
    if (turn == fail_write || turn == empty_write) {
        atomic_fetch_add(&failed, 1);
        errno = EIO;
        return turn == fail_write ? -1 : 0;
    }
    return syscall(SYS_write, file, from, write_most && size > write_most ? write_most : size);
}

int pthread_create(pthread_t *thread, const pthread_attr_t *how, void *(*body)(void *), void *with) {
    if (atomic_fetch_add(&threads, 1) + 1 == fail_thread || no_threads) {
        atomic_fetch_add(&failed, 1);
        return EAGAIN;
    }
    return make_thread(thread, how, body, with);
}
