/* writes TOLD NAME BYTES WRITERS RANK..: for each RANK a thread writes each WRITERS-th block of the file NAME, until a call fails. It syncs after each
 * third. How many blocks of its own are synced is the number of 8 bytes at its RANK in the file TOLD, which stays where this program is killed. The
 * mount is that of PLFS_AT, and is tried again until there is an engine, or the last number of TOLD isn't 0. Ends with the error of the last call, as plfs.h numbers it, or with 99 where a call answered another number than wanted. */
#define _GNU_SOURCE
#include "plfs.h"

#include <fcntl.h>
#include <pthread.h>
#include <stdatomic.h>
#include <stdlib.h>
#include <string.h>
#include <sys/mman.h>
#include <unistd.h>

enum { MOST = 16, OTHER_NUMBER = 99 };

static plfs_fs *fs;
static const char *name;
static size_t bytes;
static uint64_t writers;
static _Atomic uint64_t *told;
static atomic_int ended;

static void *write_blocks(void *given) {
    uint64_t rank = *(uint64_t *)given, place;
    unsigned char *block = malloc(bytes);
    plfs_file *out;
    int64_t got = block ? plfs_open_write(fs, name, &out) : -PLFS_NO_MEMORY;
    for (uint64_t k = 0; got >= 0; k++) {
        place = writers * k + rank;
        memset(block, (int)(place % 255 + 1), bytes);
        got = plfs_pwrite(out, block, bytes, place * bytes);
        if (got >= 0 && got != (int64_t)bytes) _exit(OTHER_NUMBER);
        if (got < 0 || k % 3 != 2) continue;
        got = plfs_sync(out);
        if (got >= 0 && got != (int64_t)k + 1) _exit(OTHER_NUMBER);
        if (got >= 0) atomic_store(&told[rank], k + 1);
    }
    free(block);
    atomic_store(&ended, (int)-got);
    return NULL;
}

int main(int count, char **words) {
    uint64_t ranks[MOST];
    pthread_t threads[MOST];
    if (count < 6 || count > 5 + MOST) return 2;
    int fd = open(words[1], O_RDWR);
    told = mmap(NULL, MOST * sizeof *told, PROT_READ | PROT_WRITE, MAP_SHARED, fd, 0);
    if (fd < 0 || told == MAP_FAILED) return 2;
    name = words[2];
    bytes = (size_t)atol(words[3]);
    writers = (uint64_t)atol(words[4]);
    int failed;
    while ((failed = plfs_mount("nowhere", 0, &fs)) == -PLFS_NOT_STARTED && !told[MOST - 1]) usleep(2000);
    if (failed < 0) return -failed;
    for (int i = 5; i < count; i++) {
        ranks[i - 5] = (uint64_t)atol(words[i]);
        if (pthread_create(&threads[i - 5], NULL, write_blocks, &ranks[i - 5])) return 2;
    }
    for (int i = 5; i < count; i++) pthread_join(threads[i - 5], NULL);
    plfs_unmount(fs);
    return ended;
}
