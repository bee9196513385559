/* calls ROOT OTHER AWAY: makes each call of plfs.h, and each of its errors that a whole engine and store can give. ROOT is an
 * empty folder, OTHER one that another engine has, and AWAY isn't there. Prints a line for each answer that is another one than wanted, and
 * ends with 1 then. tests/engine_clients.py builds it, also under sanitizers. */
#define _GNU_SOURCE
#include "plfs.h"

#include <errno.h>
#include <signal.h>
#include <stdio.h>
#include <stdlib.h>
#include <string.h>
#include <sys/wait.h>
#include <unistd.h>

static int wrong;

#define is(call, wanted) is_so(#call, (long long)(call), (long long)(wanted))

static void is_so(const char *what, long long got, long long wanted) {
    if (got == wanted) return;
    printf("%s is %lld (%s), and not %lld\n", what, got, got < 0 ? plfs_strerror((int)got) : "", wanted);
    wrong = 1;
}

static void writers(plfs_fs *fs) {
    plfs_file *out, *other;
    uint64_t first, second;
    is(plfs_open_write(fs, "f", &out), 0);
    is(plfs_stamp(out), 0);
    is(plfs_pwrite(out, "hello", 5, 0), 5);
    first = plfs_stamp(out);
    is(first > 0, 1);
    is(plfs_pwrite(out, NULL, 0, 7), 0);
    is(plfs_stamp(out), first);
    is(plfs_sync(out), 1);
    is(plfs_open_write(fs, "f", &other), 0);
    is(plfs_pwrite(other, "WORLD", 5, 7), 5);
    second = plfs_stamp(other);
    is(second > 0, 1);
    is(plfs_close(other), 1);
    is(plfs_pwrite(out, "x", 1, UINT64_C(1) << 40), -PLFS_TOO_FAR);
    is(plfs_pwrite(out, "x", 1, UINT64_MAX), -PLFS_TOO_FAR);
    is(plfs_pread(out, &first, 1, 0), -PLFS_NOT_OPEN);
    is(plfs_refresh(out), -PLFS_NOT_OPEN);
    is(plfs_size(out), -PLFS_NOT_OPEN);
    is(plfs_pieces(out), -PLFS_NOT_OPEN);
    is(plfs_trunc(fs, "f", 3), -PLFS_BUSY);
    is(plfs_rename(fs, "f", "g"), -PLFS_BUSY);
    is(plfs_close(out), 1);
    is(plfs_close(NULL), 0);
}

static void readers(plfs_fs *fs) {
    plfs_file *in, *out;
    char got[16];
    is(plfs_open_read(fs, "f", 0, &in), -PLFS_BAD_NUMBER);
    is(plfs_open_read(fs, "f", 17, &in), -PLFS_BAD_NUMBER);
    is(plfs_open_read(fs, "away", 1, &in), -PLFS_NO_FILE);
    is(plfs_open_read(fs, "f", 16, &in), 0);
    is(plfs_size(in), 12);
    is(plfs_pieces(in), 2);
    memset(got, '?', sizeof got);
    is(plfs_pread(in, got, sizeof got, 0), 12);
    is(memcmp(got, "hello\0\0WORLD????", sizeof got), 0);
    is(plfs_pread(in, got, sizeof got, 12), 0);
    is(plfs_pread(in, got, sizeof got, UINT64_C(1) << 50), 0);
    is(plfs_pread(in, got, sizeof got, UINT64_MAX), -PLFS_BAD_NUMBER);
    is(plfs_pread(in, got, 0, 0), 0);
    is(plfs_pwrite(in, "x", 1, 0), -PLFS_NOT_OPEN);
    is(plfs_sync(in), -PLFS_NOT_OPEN);
    is(plfs_open_write(fs, "f", &out), 0);
    is(plfs_pwrite(out, "!", 1, 12), 1);
    is(plfs_close(out), 1);
    is(plfs_size(in), 12);
    is(plfs_refresh(in), 0);
    is(plfs_size(in), 13);
    is(plfs_close(in), 0);
}

static void names(plfs_fs *fs) {
    char long_name[66], *listed;
    memset(long_name, 'n', 65);
    long_name[65] = 0;
    is(plfs_stat(fs, "f"), 13);
    is(plfs_stat(fs, "away"), -PLFS_NO_FILE);
    is(plfs_stat(fs, ""), -PLFS_BAD_NAME);
    is(plfs_stat(fs, long_name), -PLFS_BAD_NAME);
    is(plfs_stat(fs, "a/b"), -PLFS_BAD_NAME);
    is(plfs_stat(fs, "-f"), -PLFS_BAD_NAME);
    is(plfs_rename(fs, "f", ".g"), -PLFS_BAD_NAME);
    is(plfs_rename(fs, "f", long_name), -PLFS_BAD_NAME);
    is(plfs_rename(fs, "", "f"), -PLFS_BAD_NAME);
    is(plfs_rename(fs, "away", "g"), -PLFS_NO_FILE);
    is(plfs_rename(fs, "f", "f"), -PLFS_EXISTS);
    is(plfs_flatten(fs, "f"), 0);
    is(plfs_flatten(fs, "away"), -PLFS_NO_FILE);
    is(plfs_trunc(fs, "f", 3), 0);
    is(plfs_trunc(fs, "f", (UINT64_C(1) << 40) + 1), -PLFS_TOO_FAR);
    is(plfs_trunc(fs, "f", UINT64_MAX), -PLFS_TOO_FAR);
    is(plfs_stat(fs, "f"), 3);
    is(plfs_recover(fs, "f"), 0);
    is(plfs_rename(fs, "f", "g"), 0);
    long_name[64] = 0;
    is(plfs_rename(fs, "g", long_name), 0);
    is(plfs_rename(fs, long_name, "g"), 0);
    is(plfs_list(fs, &listed), 1);
    is(strcmp(listed, "g\n"), 0);
    free(listed);
}

/* More bytes than one request has, and all handles. */
static void limits(plfs_fs *fs) {
    enum { MORE = PLFS_LONGEST + 100000 };
    static plfs_file *files[PLFS_HANDLES];
    plfs_file *one_more;
    unsigned char *bytes = malloc(MORE), *got = calloc(1, MORE);
    if (!bytes || !got) exit(2);
    for (size_t i = 0; i < MORE; i++) bytes[i] = (unsigned char)(i * 7 + (i >> 11));
    for (int i = 0; i < PLFS_HANDLES; i++) is(plfs_open_write(fs, "many", &files[i]), 0);
    is(plfs_open_write(fs, "many", &one_more), -PLFS_NO_HANDLE);
    is(plfs_open_read(fs, "many", 1, &one_more), -PLFS_NO_HANDLE);
    is(plfs_stat(fs, "many"), 0);
    is(plfs_pwrite(files[254], bytes, MORE, 5), MORE);
    for (int i = 0; i < PLFS_HANDLES; i++) is(plfs_close(files[i]), i == 254 ? 2 : 0);
    is(plfs_open_read(fs, "many", 3, &one_more), 0);
    is(plfs_size(one_more), MORE + 5);
    is(plfs_pread(one_more, got, MORE, 5), MORE);
    is(memcmp(got, bytes, MORE), 0);
    is(plfs_close(one_more), 0);
    free(bytes);
    free(got);
}

/* Handles and mounts that are NULL, as those are whose call failed. */
static void nothing(plfs_fs *fs) {
    plfs_file *file = (plfs_file *)&wrong;
    plfs_fs *none = (plfs_fs *)&wrong;
    char byte = 0, *listed = &byte;
    is(plfs_open_read(fs, "away", 1, &file), -PLFS_NO_FILE);
    is(file == NULL, 1);
    is(plfs_pwrite(file, &byte, 1, 0), -PLFS_NOT_OPEN);
    is(plfs_pread(file, &byte, 1, 0), -PLFS_NOT_OPEN);
    is(plfs_stamp(file), 0);
    is(plfs_sync(file), -PLFS_NOT_OPEN);
    is(plfs_refresh(file), -PLFS_NOT_OPEN);
    is(plfs_size(file), -PLFS_NOT_OPEN);
    is(plfs_pieces(file), -PLFS_NOT_OPEN);
    is(plfs_close(file), 0);
    is(plfs_mount("", 0, &none), -PLFS_NO_ROOT);
    is(none == NULL, 1);
    is(plfs_open_write(none, "f", &file), -PLFS_NOT_OPEN);
    is(plfs_open_read(none, "f", 1, &file), -PLFS_NOT_OPEN);
    is(plfs_stat(none, "f"), -PLFS_NOT_OPEN);
    is(plfs_trunc(none, "f", 0), -PLFS_NOT_OPEN);
    is(plfs_rename(none, "f", "g"), -PLFS_NOT_OPEN);
    is(plfs_flatten(none, "f"), -PLFS_NOT_OPEN);
    is(plfs_recover(none, "f"), -PLFS_NOT_OPEN);
    is(plfs_list(none, &listed), -PLFS_NOT_OPEN);
    is(listed == NULL, 1);
    is(plfs_damage(none, NULL, 0, NULL), -PLFS_NOT_OPEN);
    is(plfs_unmount(none), -PLFS_NOT_OPEN);
}

/* Handles that are open as their mount ends, whose memory it frees. */
static void left_open(plfs_fs *fs) {
    plfs_file *file;
    is(plfs_open_write(fs, "left", &file), 0);
    is(plfs_pwrite(file, "left", 4, 0), 4);
    is(plfs_open_read(fs, "g", 1, &file), 0);
    is(plfs_open_write(fs, "left", &file), 0);
}

/* A file in a container that no container has. */
static void damaged(const char *root) {
    plfs_fs *fs;
    plfs_file *in;
    char path[4096], item[6] = "?";
    uint64_t place = 7;
    is(plfs_mount(root, 0, &fs), 0);
    is(plfs_damage(fs, item, sizeof item, &place), 0);
    is(item[0], 0);
    is(plfs_unmount(fs), 0);
    snprintf(path, sizeof path, "%s/g/truncs/foreign", root);
    FILE *foreign = fopen(path, "w");
    if (!foreign || fclose(foreign)) exit(2);
    is(plfs_mount(root, 0, &fs), 0);
    is(plfs_open_read(fs, "g", 1, &in), -PLFS_DAMAGED);
    is(plfs_damage(fs, item, sizeof item, &place), strlen("truncs/foreign"));
    is(strcmp(item, "trunc"), 0);
    is(place, 0);
    is(plfs_damage(fs, NULL, 0, NULL), strlen("truncs/foreign"));
    is(plfs_stat(fs, "many"), PLFS_LONGEST + 100005);
    is(plfs_stat(fs, "left"), 4);
    is(plfs_unmount(fs), 0);
    is(unlink(path), 0);
}

/* An engine that is killed: what is asked of it then, and that no SIGPIPE comes. */
static void killed(const char *root) {
    plfs_fs *fs;
    plfs_file *out;
    char command[64];
    is(plfs_mount(root, 7, &fs), 0);
    is(plfs_open_write(fs, "killed", &out), 0);
    snprintf(command, sizeof command, "kill -9 $(pgrep -P %ld plfs_serve)", (long)getpid());
    is(system(command), 0);
    is(plfs_pwrite(out, "x", 1, 0), -PLFS_GONE);
    is(plfs_sync(out), -PLFS_GONE);
    is(plfs_stat(fs, "f"), -PLFS_GONE);
    is(plfs_close(out), -PLFS_GONE);
    is(plfs_unmount(fs), -PLFS_GONE);
    is(plfs_mount(root, 0, &fs), 0);
    is(plfs_trunc(fs, "killed", 0), -PLFS_BUSY);
    is(plfs_recover(fs, "killed"), 1);
    is(plfs_trunc(fs, "killed", 0), 0);
    is(plfs_unmount(fs), 0);
}

/* A child of fork, which may use none of its parent's mounts. */
static void forked(const char *root) {
    plfs_fs *fs;
    plfs_file *out;
    int status = -1;
    is(plfs_mount(root, 0, &fs), 0);
    is(plfs_open_write(fs, "forked", &out), 0);
    fflush(stdout);
    pid_t child = fork();
    if (child == 0) {
        wrong = 0;
        is(plfs_pwrite(out, "x", 1, 0), -PLFS_NOT_OPEN);
        is(plfs_stat(fs, "f"), -PLFS_NOT_OPEN);
        is(plfs_close(out), -PLFS_NOT_OPEN);
        is(plfs_unmount(fs), -PLFS_NOT_OPEN);
        fflush(stdout);
        _exit(wrong);
    }
    is(waitpid(child, &status, 0), child);
    is(status, 0);
    is(plfs_pwrite(out, "own", 3, 0), 3);
    is(plfs_close(out), 1);
    is(plfs_stat(fs, "forked"), 3);
    is(plfs_unmount(fs), 0);
}

static void mounts(const char *root, const char *other, const char *away) {
    plfs_fs *fs;
    is(plfs_mount(other, 0, &fs), -PLFS_FAULT);
    is(plfs_mount(away, 0, &fs), -PLFS_FAULT);
    is(plfs_mount("", 0, &fs), -PLFS_NO_ROOT);
    const char *program = getenv("PLFS_SERVE");
    char *kept = program ? strdup(program) : NULL;
    setenv("PLFS_SERVE", "/away/plfs_serve", 1);
    errno = 0;
    is(plfs_mount(root, 0, &fs), -PLFS_NOT_STARTED);
    is(errno, ENOENT);
    setenv("PLFS_SERVE", "/bin/cat", 1); /* its answer is the request itself, whose number is no status */
    is(plfs_mount(root, 0, &fs) < 0, 1);
    setenv("PLFS_SERVE", "yes", 1); /* it says more than anybody reads */
    is(plfs_mount(root, 0, &fs), -PLFS_STRANGE);
    setenv("PLFS_SERVE", "/bin/true", 1);
    is(plfs_mount(root, 0, &fs), -PLFS_GONE);
    if (kept) setenv("PLFS_SERVE", kept, 1); else unsetenv("PLFS_SERVE");
    free(kept);
}

int main(int count, char **words) {
    plfs_fs *fs;
    if (count != 4) return 2;
    for (int k = -1; k <= PLFS_STRANGE + 1; k++) is(strlen(plfs_strerror(-k)) > 0, 1);
    is(strcmp(plfs_strerror(-PLFS_STRANGE - 1), plfs_strerror(PLFS_STRANGE + 1)), 0);
    is(plfs_mount(words[1], 0, &fs), 0);
    writers(fs);
    readers(fs);
    names(fs);
    limits(fs);
    nothing(fs);
    left_open(fs);
    is(plfs_unmount(fs), 0);
    damaged(words[1]);
    mounts(words[1], words[2], words[3]);
    killed(words[1]);
    forked(words[1]);
    return wrong;
}
