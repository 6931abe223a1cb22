/* SPDX-License-Identifier: MIT OR Apache-2.0 */
/* What kt_enter() and kt_leave(), and kt_pass_enter() and kt_pass_leave(), cost beside two additions on an atomic word,
 * with one thread and with four. Each of the four uses another node by its hold, and one gate by its pass. Their
 * handles lie side by side in arrays. With an argument: status 1 if any of these takes more than that many times as
 * long. Processor time counts, and the best of 15 rounds: so other work on the machine does not. With fewer than four
 * processors the four threads are left out, and the program says so. */
#define _GNU_SOURCE
#include <kernfs_tree.h>
#include <pthread.h>
#include <stdatomic.h>
#include <stdio.h>
#include <stdlib.h>
#include <time.h>
#include <unistd.h>

enum { TURNS = 200000, ROUNDS = 15, THREADS = 4 };

static struct kt_handle tree, holds[THREADS], gate, passes[THREADS];
static _Alignas(128) struct {
    atomic_ulong word;
    char rest[120];
} words[THREADS];
static pthread_barrier_t begun;

struct job {
    void (*what)(int number);
    int number;
    double took; /* nanoseconds of a turn */
};

static double now(void)
{
    struct timespec time;
    clock_gettime(CLOCK_THREAD_CPUTIME_ID, &time);
    return (double)time.tv_sec * 1e9 + (double)time.tv_nsec;
}

/* (The results are added up: a branch for each would cost more.) */
static void enter_and_leave(int number)
{
    struct kt_handle *hold = &holds[number];
    int32_t answers = 0;
    for (int i = 0; i < TURNS; i++) {
        answers |= kt_enter(hold);
        answers |= kt_leave(hold);
    }
    if (answers)
        exit(2);
}

static void pass_and_leave(int number)
{
    struct kt_handle *pass = &passes[number];
    int32_t answers = 0;
    for (int i = 0; i < TURNS; i++) {
        answers |= kt_pass_enter(pass);
        answers |= kt_pass_leave(pass);
    }
    if (answers)
        exit(2);
}

static void add(int number)
{
    for (int i = 0; i < TURNS; i++) {
        atomic_fetch_add(&words[number].word, 1);
        atomic_fetch_sub(&words[number].word, 1);
    }
}

static void *run(void *data)
{
    struct job *job = data;
    pthread_barrier_wait(&begun);
    double start = now();
    job->what(job->number);
    job->took = (now() - start) / TURNS;
    return NULL;
}

/* The best round: how long a turn took, on average over the threads. */
static double best(int count, void (*what)(int number))
{
    double least = 1e18;
    pthread_barrier_init(&begun, NULL, (unsigned)count);
    for (int round = 0; round < ROUNDS; round++) {
        pthread_t threads[THREADS];
        struct job jobs[THREADS];
        double took = 0;
        for (int i = 0; i < count; i++) {
            jobs[i] = (struct job){.what = what, .number = i};
            if (pthread_create(&threads[i], NULL, run, &jobs[i]))
                exit(2);
        }
        for (int i = 0; i < count; i++) {
            if (pthread_join(threads[i], NULL))
                exit(2);
            took += jobs[i].took / count;
        }
        least = took < least ? took : least;
    }
    pthread_barrier_destroy(&begun);
    return least;
}

/* Prints the figures. Returns how many times as long an enter and a leave take, by a hold or by a pass. */
static double compare(int count)
{
    double ours = best(count, enter_and_leave), passing = best(count, pass_and_leave), theirs = best(count, add);
    const char *more = count == 1 ? "" : "s";
    printf("%d thread%s: enter and leave %.1f ns, two additions %.1f ns, %.2f times\n", count, more, ours, theirs,
           ours / theirs);
    printf("%d thread%s: enter and leave by a pass %.1f ns, %.2f times\n", count, more, passing, passing / theirs);
    return (ours > passing ? ours : passing) / theirs;
}

/* A gate of the last node, and a pass of it for each thread. */
static int make_gate(struct kt_key key)
{
    if (kt_new(&gate.at) || kt_hold(&tree, key, &gate))
        return 2;
    for (int i = 0; i < THREADS; i++)
        if (kt_new(&passes[i].at))
            return 2;
    if (kt_gate(&gate, THREADS, &passes[0]))
        return 2;
    for (uint32_t i = 1; i < THREADS; i++)
        if (kt_pass(&passes[0], i, &passes[i]))
            return 2;
    return 0;
}

int main(int count, char **words_given)
{
    struct kt_key root, key;
    double most = count > 1 ? atof(words_given[1]) : 1e18;
    if (kt_new(&tree.at) || kt_create_root(&tree, 256, 16) || kt_root(&tree, &root))
        return 2;
    for (int i = 0; i < THREADS; i++) {
        char name = (char)('a' + i);
        if (kt_create_file(&tree, root, &name, 1, 0444, 0, true, &key) || kt_new(&holds[i].at) ||
            kt_hold(&tree, key, &holds[i]))
            return 2;
    }
    if (make_gate(key))
        return 2;
    int is_slow = compare(1) > most;
    if (sysconf(_SC_NPROCESSORS_ONLN) < THREADS)
        printf("4 threads: left out, since there are fewer than 4 processors\n");
    else
        is_slow |= compare(THREADS) > most;
    return is_slow;
}
