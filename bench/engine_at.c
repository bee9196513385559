/* engine_at FOLDER DOOR BLOCK BLOCKS SYNCS: four processes write so many blocks of one file, each block at its place: first by pwrite into a
 * plain file, then each through the engine that serves by DOOR. Prints the seconds from the first write until the last one has been answered, by
 * hand and through the engine. With SYNCS 1 each process syncs at its end within these times. bench/engine builds it. */
#define _GNU_SOURCE
#include "plfs.h"

#include <fcntl.h>
#include <pthread.h>
#include <stdio.h>
#include <stdlib.h>
#include <string.h>
#include <sys/mman.h>
#include <sys/wait.h>
#include <time.h>
#include <unistd.h>

enum { PROCESSES = 4 };

/* What the processes share. */
struct shared {
    pthread_barrier_t begin;
    double began[PROCESSES], ended[PROCESSES];
};

static size_t block;
static long blocks;
static int syncs;
static const char *door;
static char path[4096];

static void fail(const char *what) {
    fprintf(stderr, "engine_at: %s failed\n", what);
    _exit(1);
}

static double now(void) {
    struct timespec t;
    clock_gettime(CLOCK_MONOTONIC, &t);
    return (double)t.tv_sec + (double)t.tv_nsec * 1e-9;
}

/* What one process does. */
static void work(struct shared *shared, int rank, int by_hand) {
    plfs_fs *fs = NULL;
    plfs_file *out = NULL;
    unsigned char *bytes = malloc(block);
    int fd = by_hand ? open(path, O_WRONLY | O_CREAT, 0644) : -1;
    if (!bytes || (by_hand ? fd < 0 : plfs_mount_at(door, &fs) < 0 || plfs_open_write(fs, "f", &out) < 0)) fail("an opening");
    memset(bytes, 65 + rank, block);
    pthread_barrier_wait(&shared->begin);
    shared->began[rank] = now();
    for (long k = rank; k < blocks; k += PROCESSES) {
        uint64_t at = (uint64_t)k * block;
        int64_t n = by_hand ? pwrite(fd, bytes, block, (off_t)at) : plfs_pwrite(out, bytes, block, at);
        if (n != (int64_t)block) fail("a write");
    }
    if (syncs && (by_hand ? fsync(fd) : plfs_sync(out)) < 0) fail("a sync");
    shared->ended[rank] = now();
    if (!by_hand && (plfs_close(out) != blocks / PROCESSES || plfs_unmount(fs) < 0)) fail("a close");
    _exit(0);
}

static double worked(struct shared *shared, int by_hand) {
    pthread_barrierattr_t among;
    pthread_barrierattr_init(&among);
    pthread_barrierattr_setpshared(&among, PTHREAD_PROCESS_SHARED);
    pthread_barrier_init(&shared->begin, &among, PROCESSES);
    for (int i = 0; i < PROCESSES; i++) {
        pid_t process = fork();
        if (process < 0) fail("a fork");
        if (process == 0) work(shared, i, by_hand);
    }
    for (int i = 0, status; i < PROCESSES; i++) {
        if (wait(&status) < 0 || status) fail("a process");
    }
    double began = shared->began[0], ended = shared->ended[0];
    for (int i = 1; i < PROCESSES; i++) {
        if (shared->began[i] < began) began = shared->began[i];
        if (shared->ended[i] > ended) ended = shared->ended[i];
    }
    return ended - began;
}

int main(int count, char **words) {
    if (count != 6) return 2;
    door = words[2];
    block = (size_t)atol(words[3]);
    blocks = atol(words[4]);
    syncs = atoi(words[5]);
    snprintf(path, sizeof path, "%s/plain", words[1]);
    struct shared *shared = mmap(NULL, sizeof *shared, PROT_READ | PROT_WRITE, MAP_SHARED | MAP_ANONYMOUS, -1, 0);
    if (shared == MAP_FAILED) fail("memory");
    double by_hand = worked(shared, 1);
    unlink(path);
    printf("%.9f %.9f\n", by_hand, worked(shared, 0));
    return 0;
}
