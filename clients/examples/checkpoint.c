/* checkpoint ROOT NAME [BLOCKS [BYTES]]: four threads write one strided checkpoint, each by a writer of its own. A fifth reads the
 * file meanwhile, and at the end all of it is read back and compared. */
#include "plfs.h"

#include <pthread.h>
#include <stdatomic.h>
#include <stdio.h>
#include <stdlib.h>
#include <string.h>

enum { THREADS = 4, WORKERS = 4, SYNC_EACH = 16 };

struct job {
    plfs_fs *fs;
    const char *name;
    long blocks;
    size_t bytes;
    atomic_int failed, left; /* left: writers that are still at work */
};
struct part {
    struct job *job;
    int rank;
};

static unsigned char byte_of(long block, size_t place) { return (unsigned char)(block * 31 + (long)place + 1); }

static void fill(unsigned char *block, size_t bytes, long number) {
    for (size_t i = 0; i < bytes; i++) block[i] = byte_of(number, i);
}

static void fail(struct job *job, const char *what, int64_t status) {
    fprintf(stderr, "checkpoint: %s: %s\n", what, status < 0 ? plfs_strerror((int)status) : "another number than wanted");
    atomic_store(&job->failed, 1);
}

/* Writes each fourth block, and syncs now and then. */
static void write_blocks(struct job *job, plfs_file *out, int rank, unsigned char *block) {
    long written = 0;
    for (long k = rank; k < job->blocks; k += THREADS) {
        fill(block, job->bytes, k);
        int64_t n = plfs_pwrite(out, block, job->bytes, (uint64_t)k * job->bytes);
        if (n != (int64_t)job->bytes) {
            fail(job, "write", n);
            break;
        }
        written++;
        int64_t synced = written % SYNC_EACH ? written : plfs_sync(out);
        if (synced != written) fail(job, "sync", synced);
    }
    int64_t landed = plfs_close(out);
    if (landed != written) fail(job, "close", landed);
}

static void *write_part(void *given) {
    struct part *part = given;
    struct job *job = part->job;
    plfs_file *out;
    unsigned char *block = malloc(job->bytes);
    int status = block ? plfs_open_write(job->fs, job->name, &out) : -PLFS_NO_MEMORY;
    if (status < 0) {
        fail(job, "open to write", status);
    } else {
        write_blocks(job, out, part->rank, block);
    }
    free(block);
    atomic_fetch_sub(&job->left, 1);
    return NULL;
}

/* Whether the block is whole, or zeros alone where nothing of it has landed. */
static int is_whole_or_none(const unsigned char *got, size_t bytes, long number) {
    int written = 1, none = 1;
    for (size_t i = 0; i < bytes; i++) {
        written &= got[i] == byte_of(number, i);
        none &= got[i] == 0;
    }
    return written || none;
}

/* Reads all blocks that have landed, again and again while they are written. */
static void *watch(void *given) {
    struct job *job = given;
    plfs_file *in;
    unsigned char *got = malloc(job->bytes);
    int status = -PLFS_NO_MEMORY;
    do { /* until the first writer has been opened */
        if (got) status = plfs_open_read(job->fs, job->name, WORKERS, &in);
    } while (status == -PLFS_NO_FILE && atomic_load(&job->left) > 0);
    if (status < 0) {
        fail(job, "open to read", status);
        free(got);
        return NULL;
    }
    while (atomic_load(&job->left) > 0 && !atomic_load(&job->failed)) {
        status = plfs_refresh(in);
        if (status < 0) fail(job, "refresh", status);
        int64_t blocks = plfs_size(in) / (int64_t)job->bytes;
        for (long k = 0; k < blocks && !atomic_load(&job->failed); k++) {
            int64_t n = plfs_pread(in, got, job->bytes, (uint64_t)k * job->bytes);
            if (n != (int64_t)job->bytes || !is_whole_or_none(got, job->bytes, k)) fail(job, "read while it is written", n);
        }
    }
    int64_t closed = plfs_close(in);
    if (closed < 0) fail(job, "close the reader", closed);
    free(got);
    return NULL;
}

/* Reads all of it back. */
static void compare(struct job *job) {
    plfs_file *in;
    unsigned char *got = malloc(job->bytes), *wanted = malloc(job->bytes);
    int status = got && wanted ? plfs_open_read(job->fs, job->name, WORKERS, &in) : -PLFS_NO_MEMORY;
    if (status < 0) {
        fail(job, "open to read", status);
    } else {
        if (plfs_size(in) != (int64_t)job->bytes * job->blocks) fail(job, "size", plfs_size(in));
        for (long k = 0; k < job->blocks && !atomic_load(&job->failed); k++) {
            fill(wanted, job->bytes, k);
            int64_t n = plfs_pread(in, got, job->bytes, (uint64_t)k * job->bytes);
            if (n != (int64_t)job->bytes || memcmp(got, wanted, job->bytes)) fail(job, "read", n);
        }
        int64_t closed = plfs_close(in);
        if (closed < 0) fail(job, "close the reader", closed);
    }
    free(got);
    free(wanted);
}

int main(int count, char **words) {
    struct job job = {.name = count > 2 ? words[2] : "", .blocks = count > 3 ? atol(words[3]) : 64, .left = THREADS};
    job.bytes = count > 4 ? (size_t)atol(words[4]) : 47008;
    if (count < 3 || count > 5 || job.blocks < 1 || job.bytes < 1 || job.bytes > PLFS_LONGEST) {
        fprintf(stderr, "usage: checkpoint ROOT NAME [BLOCKS [BYTES]], a block of at most %d bytes\n", PLFS_LONGEST);
        return 2;
    }
    int status = plfs_mount(words[1], 0, &job.fs);
    if (status < 0) {
        fprintf(stderr, "checkpoint: mount: %s\n", plfs_strerror(status));
        return 1;
    }
    pthread_t writers[THREADS], reader;
    struct part parts[THREADS];
    int started = 0, is_watched = 0;
    for (; started < THREADS; started++) {
        parts[started] = (struct part){&job, started};
        if (pthread_create(&writers[started], NULL, write_part, &parts[started])) break;
    }
    if (started == THREADS) is_watched = !pthread_create(&reader, NULL, watch, &job);
    for (int i = 0; i < started; i++) pthread_join(writers[i], NULL);
    if (is_watched) pthread_join(reader, NULL);
    if (started < THREADS || !is_watched) fail(&job, "start a thread", -PLFS_NO_MEMORY);
    if (!atomic_load(&job.failed)) compare(&job);
    status = plfs_unmount(job.fs);
    if (status < 0) fail(&job, "unmount", status);
    if (atomic_load(&job.failed)) return 1;
    printf("%s: %ld blocks of %zu bytes by %d threads are as they were written\n", job.name, job.blocks, job.bytes, THREADS);
    return 0;
}
