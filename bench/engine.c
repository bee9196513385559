/* engine FOLDER BLOCK BLOCKS SYNCS: four threads write so many blocks of one file, each block at its place: first by pwrite into a plain
 * file, then through an engine by a writer each. Prints the seconds from the first write until the last one has been answered, by
 * hand and through the engine. Then it prints the seconds that either had a processor; those of the engine are of its whole run. With
 * SYNCS 1 each thread syncs at its end within these times. FOLDER is to be empty. bench/engine builds it. */
#define _GNU_SOURCE
#include "plfs.h"

#include <fcntl.h>
#include <pthread.h>
#include <stdio.h>
#include <stdlib.h>
#include <string.h>
#include <sys/resource.h>
#include <time.h>
#include <unistd.h>

enum { THREADS = 4 };

static size_t block;
static long blocks;
static int syncs;
static pthread_barrier_t begin;

struct part {
    int rank, fd;        /* fd: the plain file */
    plfs_file *out;      /* or the writer, where it isn't NULL */
    unsigned char *bytes;
    double began, ended;
};

static void fail(const char *what) {
    fprintf(stderr, "engine: %s failed\n", what);
    exit(1);
}

static double now(void) {
    struct timespec t;
    clock_gettime(CLOCK_MONOTONIC, &t);
    return (double)t.tv_sec + (double)t.tv_nsec * 1e-9;
}

/* Seconds that the program, or the engine once it has ended, had a processor. */
static double spent(int whose) {
    struct rusage of;
    getrusage(whose, &of);
    return (double)(of.ru_utime.tv_sec + of.ru_stime.tv_sec) + (double)(of.ru_utime.tv_usec + of.ru_stime.tv_usec) * 1e-6;
}

static void *work(void *given) {
    struct part *p = given;
    pthread_barrier_wait(&begin);
    p->began = now();
    for (long k = p->rank; k < blocks; k += THREADS) {
        uint64_t at = (uint64_t)k * block;
        memcpy(p->bytes, &k, sizeof k);
        int64_t n = p->out ? plfs_pwrite(p->out, p->bytes, block, at) : pwrite(p->fd, p->bytes, block, (off_t)at);
        if (n != (int64_t)block) fail("a write");
    }
    if (syncs && (p->out ? plfs_sync(p->out) < 0 : fsync(p->fd) < 0)) fail("a sync");
    p->ended = now();
    return NULL;
}

static double worked(struct part *parts) {
    pthread_t threads[THREADS];
    pthread_barrier_init(&begin, NULL, THREADS);
    for (int i = 0; i < THREADS; i++) {
        if (pthread_create(&threads[i], NULL, work, &parts[i])) fail("a thread");
    }
    for (int i = 0; i < THREADS; i++) pthread_join(threads[i], NULL);
    pthread_barrier_destroy(&begin);
    double began = parts[0].began, ended = parts[0].ended;
    for (int i = 1; i < THREADS; i++) {
        if (parts[i].began < began) began = parts[i].began;
        if (parts[i].ended > ended) ended = parts[i].ended;
    }
    return ended - began;
}

int main(int count, char **words) {
    if (count != 5) return 2;
    block = (size_t)atol(words[2]);
    blocks = atol(words[3]);
    syncs = atoi(words[4]);
    struct part parts[THREADS];
    char path[4096];
    snprintf(path, sizeof path, "%s/plain", words[1]);
    int fd = open(path, O_WRONLY | O_CREAT | O_EXCL, 0644);
    if (fd < 0) fail("the plain file");
    for (int i = 0; i < THREADS; i++) {
        parts[i] = (struct part){.rank = i, .fd = fd, .bytes = malloc(block)};
        if (!parts[i].bytes) fail("memory");
        memset(parts[i].bytes, 65 + i, block);
    }
    double had = spent(RUSAGE_SELF), by_hand = worked(parts), busy_by_hand = spent(RUSAGE_SELF) - had;
    close(fd);
    unlink(path);
    plfs_fs *fs;
    if (plfs_mount(words[1], 0, &fs) < 0) fail("the mount");
    for (int i = 0; i < THREADS; i++) {
        if (plfs_open_write(fs, "f", &parts[i].out) < 0) fail("an opening");
    }
    had = spent(RUSAGE_SELF);
    double through = worked(parts), busy = spent(RUSAGE_SELF) - had;
    for (int i = 0; i < THREADS; i++) {
        if (plfs_close(parts[i].out) != blocks / THREADS) fail("a close");
        free(parts[i].bytes);
    }
    if (plfs_stat(fs, "f") != blocks * (int64_t)block) fail("the size");
    if (plfs_unmount(fs) < 0) fail("the unmount");
    printf("%.9f %.9f %.9f %.9f\n", by_hand, through, busy_by_hand, busy + spent(RUSAGE_CHILDREN));
    return 0;
}
