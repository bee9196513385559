/* threads ROOT THREADS ROUNDS [kill]: so many threads make calls of one mount at once, each with a file, a writer and readers of its own, and look whether
 * each answer is that of their own request. With kill the engine is killed meanwhile, and each thread goes on until a call tells that it is gone. Prints
 * a line for each answer that is another one than wanted, and ends with 1 then. tests/engine_clients.py builds it, also under sanitizers. */
#define _GNU_SOURCE
#include "plfs.h"

#include <pthread.h>
#include <signal.h>
#include <stdatomic.h>
#include <stdio.h>
#include <stdlib.h>
#include <string.h>
#include <unistd.h>

enum { MOST = 32, LONGEST = 50000 };

static plfs_fs *fs;
static int threads, rounds, is_killed;
static atomic_int wrong, begun;

struct own {
    int rank;
    unsigned seed;
    uint64_t size;
    char name[16];
    unsigned char bytes[LONGEST], got[LONGEST];
};

static int is_so(const struct own *own, const char *what, long long got, long long wanted) {
    if (got == wanted) return 1;
    if (is_killed && got == -PLFS_GONE) return 0;
    printf("%s: %s is %lld (%s), and not %lld\n", own->name, what, got, got < 0 ? plfs_strerror((int)got) : "", wanted);
    wrong = 1;
    return 0;
}

#define is(call, wanted) is_so(own, #call, (long long)(call), (long long)(wanted))

/* The byte that this thread has at this place of its file. */
static unsigned char byte_at(const struct own *own, uint64_t place) { return (unsigned char)(place * 31 + place / 251 + (uint64_t)own->rank * 101); }

static unsigned some(struct own *own, unsigned below) {
    own->seed = own->seed * 1103515245u + 12345u;
    return (own->seed >> 8) % below;
}

static int writes(struct own *own, plfs_file *out) {
    size_t n = 1 + some(own, some(own, 4) ? 300 : LONGEST);
    uint64_t before = plfs_stamp(out);
    for (size_t k = 0; k < n; k++) own->bytes[k] = byte_at(own, own->size + k);
    if (!is(plfs_pwrite(out, own->bytes, n, own->size), n) || !is(plfs_stamp(out) > before, 1)) return 0;
    own->size += n;
    return 1;
}

static int reads(struct own *own) {
    plfs_file *in;
    if (!is(plfs_open_read(fs, own->name, 1 + some(own, 4), &in), 0) || !is(plfs_size(in), own->size)) return 0;
    for (int k = 0; k < 4; k++) {
        uint64_t at = some(own, (unsigned)own->size + 1);
        size_t n = some(own, LONGEST), left = own->size - at < n ? (size_t)(own->size - at) : n;
        if (!is(plfs_pread(in, own->got, n, at), left)) return 0;
        for (size_t j = 0; j < left; j++) {
            if (own->got[j] != byte_at(own, at + j)) return is_so(own, "a byte that was read", own->got[j], byte_at(own, at + j));
        }
    }
    return is(plfs_close(in), 0);
}

static int asks(struct own *own) {
    plfs_file *in;
    char *names = NULL;
    if (!is(plfs_open_read(fs, "away", 1, &in), -PLFS_NO_FILE) || !is(plfs_stat(fs, "away"), -PLFS_NO_FILE)) return 0;
    int64_t count = plfs_list(fs, &names);
    int is_listed = count >= 0 && strstr(names, own->name) != NULL;
    free(names);
    return count < 0 ? is_so(own, "the list", count, 0) : is_so(own, "its name in the list", is_listed, 1);
}

static void *work(void *given) {
    struct own *own = given;
    plfs_file *out;
    if (!is(plfs_open_write(fs, own->name, &out), 0)) return NULL;
    for (int k = 1; k <= rounds || is_killed; k++) {
        begun = 1;
        if (!writes(own, out)) break;
        if (k % 16 == 0 && (!is(plfs_sync(out), k) || !reads(own) || !asks(own))) break;
    }
    int64_t told = plfs_close(out);
    if (!is_killed) is_so(own, "the close", told, rounds);
    return NULL;
}

/* Kills the one child of this thread. */
static void kill_engine(void) {
    int process = 0;
    FILE *children = fopen("/proc/thread-self/children", "r");
    if (!children || fscanf(children, "%d", &process) != 1 || kill(process, SIGKILL) < 0) {
        printf("the engine isn't found\n");
        exit(77);
    }
    fclose(children);
}

int main(int count, char **words) {
    static struct own owns[MOST];
    pthread_t ids[MOST];
    if (count < 4) return 2;
    threads = atoi(words[2]);
    rounds = atoi(words[3]);
    is_killed = count > 4;
    if (threads > MOST || plfs_mount(words[1], 0, &fs) < 0) return 2;
    for (int i = 0; i < threads; i++) {
        owns[i].rank = i;
        owns[i].seed = (unsigned)i + 1;
        snprintf(owns[i].name, sizeof owns[i].name, "own%d.", i);
        if (pthread_create(&ids[i], NULL, work, &owns[i])) return 2;
    }
    if (is_killed) {
        while (!begun) usleep(1000);
        usleep(30000);
        kill_engine();
    }
    for (int i = 0; i < threads; i++) pthread_join(ids[i], NULL);
    int ended = plfs_unmount(fs);
    if (ended != (is_killed ? -PLFS_GONE : 0)) {
        printf("the unmount is %d (%s)\n", ended, plfs_strerror(ended));
        wrong = 1;
    }
    return wrong;
}
