/* plfs_client.c: the calls of plfs.h. Plain C11; no proof speaks of it. docs/ENGINE.md has the bytes that go to the engine. */
#include "plfs.h"
#include "plfs_engine.h"

#include <stdlib.h>
#include <string.h>

/* The actor that makes the statements which need no handle. */
enum { NAMES = 0 };

struct plfs_fs {
    struct plfs_engine engine;
    unsigned char taken[PLFS_HANDLES + 1]; /* actors that a handle has, under the engine's lock */
    plfs_file *files[PLFS_HANDLES + 1];    /* by their actors, what plfs_unmount frees, under the same lock */
    uint64_t handles;                      /* how many there may be */
};

/* Its stamp and size change under the engine's lock. */
struct plfs_file {
    plfs_fs *fs;
    uint64_t actor;
    int reads;
    uint64_t stamp, size; /* a writer's last stamp, the size of a reader's file */
};

const char *plfs_strerror(int error) {
    static const char *const words[] = {
        "done", "no such file", "the file is held", "a writer has the file open", "the name is taken", "past the greatest size",
        "no stamp is left", "no id is left", "it isn't open", "it is open already", "no mount is left", "no name of a file",
        "a number is out of range", "too many handles are open", "memory was refused", "there is no engine",
        "no list of folders", "an item is damaged", "the store failed, or is in use", "the engine was refused memory",
        "the engine is gone", "the engine's answer is none"};
    if (error > 0) error = -error;
    if (error < -PLFS_STRANGE) return "no such error";
    return words[-error];
}

/* ---- requests */

static int ask(plfs_fs *fs, const struct plfs_asked *asked) { return fs ? -plfs_engine_ask(&fs->engine, asked) : -PLFS_NOT_OPEN; }

static int ask_by_name(plfs_fs *fs, enum plfs_kind kind, const char *name, uint64_t place, uint64_t *out) {
    size_t len = strlen(name);
    if (len > PLFS_LONGEST) return -PLFS_BAD_NAME;
    return ask(fs, &(struct plfs_asked){.kind = kind, .actor = NAMES, .place = place, .bytes = name, .len = len, .out = out});
}

/* The same, of a value that is answered. */
static int64_t told_by_name(plfs_fs *fs, enum plfs_kind kind, const char *name) {
    uint64_t value = 0;
    int status = ask_by_name(fs, kind, name, 0, &value);
    return status < 0 ? status : (int64_t)value;
}

static int64_t told_by(plfs_file *file, enum plfs_kind kind) {
    uint64_t value = 0;
    int status = ask(file->fs, &(struct plfs_asked){.kind = kind, .actor = file->actor, .out = &value});
    return status < 0 ? status : (int64_t)value;
}

/* ---- handles */

/* An actor that no handle has, or 0. */
static uint64_t take_actor(plfs_fs *fs) {
    uint64_t actor = 1;
    pthread_mutex_lock(&fs->engine.lock);
    while (actor <= fs->handles && fs->taken[actor]) actor++;
    if (actor <= fs->handles) fs->taken[actor] = 1;
    pthread_mutex_unlock(&fs->engine.lock);
    return actor <= fs->handles ? actor : 0;
}

static void leave_actor(plfs_fs *fs, uint64_t actor) {
    pthread_mutex_lock(&fs->engine.lock);
    fs->taken[actor] = 0;
    pthread_mutex_unlock(&fs->engine.lock);
}

/* The mount keeps the handle of this actor, or none. */
static void keep(plfs_fs *fs, uint64_t actor, plfs_file *file) {
    pthread_mutex_lock(&fs->engine.lock);
    fs->files[actor] = file;
    pthread_mutex_unlock(&fs->engine.lock);
}

static int is_writer(const plfs_file *file) { return file && !file->reads; }

static int is_reader(const plfs_file *file) { return file && file->reads; }

static int open_as(plfs_fs *fs, enum plfs_kind kind, const char *name, uint32_t workers, plfs_file **file) {
    *file = NULL;
    if (!fs) return -PLFS_NOT_OPEN;
    size_t len = strlen(name);
    if (len > PLFS_LONGEST) return -PLFS_BAD_NAME;
    plfs_file *f = calloc(1, sizeof *f);
    if (!f) return -PLFS_NO_MEMORY;
    f->fs = fs;
    f->reads = kind == PLFS_OPEN_READ;
    f->actor = take_actor(fs);
    if (!f->actor) {
        free(f);
        return -PLFS_NO_HANDLE;
    }
    uint64_t writer = 0, *out = f->reads ? &f->size : &writer;
    struct plfs_asked a = {.kind = kind, .actor = f->actor, .place = workers, .bytes = name, .len = len, .out = out};
    int status = ask(fs, &a);
    if (status < 0) {
        leave_actor(fs, f->actor);
        free(f);
        return status;
    }
    keep(fs, f->actor, f);
    *file = f;
    return 0;
}

/* ---- mounts */

/* Joins the engine of the folder, where there is one, and else starts one on ROOT. */
static int mount_by(const char *folder, const char *root, uint32_t host, plfs_fs **fs) {
    *fs = NULL;
    plfs_fs *mounted = calloc(1, sizeof *mounted);
    if (!mounted) return -PLFS_NO_MEMORY;
    mounted->handles = folder ? PLFS_HANDLES_AT : PLFS_HANDLES;
    int error = folder ? plfs_engine_join(&mounted->engine, folder) : plfs_engine_start(&mounted->engine, root, host);
    if (error) {
        free(mounted);
        return -error;
    }
    *fs = mounted;
    return 0;
}

int plfs_mount(const char *root, uint32_t host, plfs_fs **fs) {
    const char *folder = getenv("PLFS_AT");
    return mount_by(folder && *folder ? folder : NULL, root, host, fs);
}

int plfs_mount_at(const char *folder, plfs_fs **fs) { return mount_by(folder, NULL, 0, fs); }

int plfs_unmount(plfs_fs *fs) {
    if (!fs) return -PLFS_NOT_OPEN;
    int error = plfs_engine_end(&fs->engine);
    for (uint64_t actor = 0; actor <= PLFS_HANDLES; actor++) free(fs->files[actor]);
    free(fs);
    return -error;
}

int plfs_damage(plfs_fs *fs, char *item, size_t room, uint64_t *place) {
    if (!fs) return -PLFS_NOT_OPEN;
    pthread_mutex_lock(&fs->engine.lock);
    size_t len = fs->engine.item_len;
    if (room > 0) {
        size_t fits = len < room ? len : room - 1;
        memcpy(item, fs->engine.item, fits);
        item[fits] = 0;
    }
    if (place) *place = fs->engine.place;
    pthread_mutex_unlock(&fs->engine.lock);
    return (int)len;
}

/* ---- writers */

int plfs_open_write(plfs_fs *fs, const char *name, plfs_file **file) { return open_as(fs, PLFS_OPEN, name, 0, file); }

int64_t plfs_pwrite(plfs_file *file, const void *bytes, size_t n, uint64_t at) {
    if (!is_writer(file)) return -PLFS_NOT_OPEN;
    if (n > INT64_MAX) return -PLFS_BAD_NUMBER;
    if (at > UINT64_MAX - n) return -PLFS_TOO_FAR;
    size_t done = 0;
    do {
        size_t part = n - done < PLFS_LONGEST ? n - done : PLFS_LONGEST;
        struct plfs_asked a = {.kind = PLFS_WRITE, .actor = file->actor, .place = at + done, .len = part, .out = part ? &file->stamp : NULL};
        if (part) a.bytes = (const char *)bytes + done;
        int status = ask(file->fs, &a);
        if (status < 0) return done ? (int64_t)done : status;
        done += part;
    } while (done < n);
    return (int64_t)done;
}

uint64_t plfs_stamp(plfs_file *file) {
    if (!file) return 0;
    pthread_mutex_lock(&file->fs->engine.lock);
    uint64_t stamp = file->stamp;
    pthread_mutex_unlock(&file->fs->engine.lock);
    return stamp;
}

int64_t plfs_sync(plfs_file *file) { return is_writer(file) ? told_by(file, PLFS_SYNC) : -PLFS_NOT_OPEN; }

int64_t plfs_close(plfs_file *file) {
    if (!file) return 0;
    int64_t told = told_by(file, file->reads ? PLFS_CLOSE_READ : PLFS_CLOSE);
    keep(file->fs, file->actor, NULL);
    if (told >= 0) leave_actor(file->fs, file->actor);
    free(file);
    return told;
}

/* ---- readers */

int plfs_open_read(plfs_fs *fs, const char *name, uint32_t workers, plfs_file **file) {
    *file = NULL;
    if (workers < 1 || workers > 16) return -PLFS_BAD_NUMBER;
    return open_as(fs, PLFS_OPEN_READ, name, workers, file);
}

int64_t plfs_pread(plfs_file *file, void *into, size_t n, uint64_t at) {
    if (!is_reader(file)) return -PLFS_NOT_OPEN;
    if (n > INT64_MAX || at > UINT64_MAX - n) return -PLFS_BAD_NUMBER;
    size_t done = 0;
    while (done < n) {
        size_t part = n - done < PLFS_LONGEST ? n - done : PLFS_LONGEST;
        uint64_t got = 0;
        struct plfs_asked a = {.kind = PLFS_READ, .actor = file->actor, .place = at + done, .extent = part, .room = part, .out = &got};
        a.into = (char *)into + done;
        int status = ask(file->fs, &a);
        if (status < 0) return done ? (int64_t)done : status;
        done += (size_t)got;
        if (got < part) break;
    }
    return (int64_t)done;
}

int plfs_refresh(plfs_file *file) {
    if (!is_reader(file)) return -PLFS_NOT_OPEN;
    return ask(file->fs, &(struct plfs_asked){.kind = PLFS_REFRESH, .actor = file->actor, .out = &file->size});
}

int64_t plfs_size(plfs_file *file) {
    if (!is_reader(file)) return -PLFS_NOT_OPEN;
    pthread_mutex_lock(&file->fs->engine.lock);
    uint64_t size = file->size;
    pthread_mutex_unlock(&file->fs->engine.lock);
    return (int64_t)size;
}

int64_t plfs_pieces(plfs_file *file) { return is_reader(file) ? told_by(file, PLFS_PIECES) : -PLFS_NOT_OPEN; }

/* ---- files by their names */

int64_t plfs_stat(plfs_fs *fs, const char *name) { return told_by_name(fs, PLFS_STAT, name); }

int plfs_trunc(plfs_fs *fs, const char *name, uint64_t size) { return ask_by_name(fs, PLFS_TRUNC, name, size, NULL); }

int plfs_rename(plfs_fs *fs, const char *name, const char *to) {
    char both[2 * 65];
    size_t n = strlen(name), m = strlen(to);
    if (n > 64 || m > 64) return -PLFS_BAD_NAME;
    memcpy(both, name, n);
    memcpy(both + n, to, m);
    return ask(fs, &(struct plfs_asked){.kind = PLFS_RENAME, .actor = NAMES, .extent = n, .bytes = both, .len = n + m});
}

int plfs_flatten(plfs_fs *fs, const char *name) { return ask_by_name(fs, PLFS_FLATTEN, name, 0, NULL); }

int64_t plfs_recover(plfs_fs *fs, const char *name) { return told_by_name(fs, PLFS_RECOVER, name); }

int64_t plfs_list(plfs_fs *fs, char **names) {
    uint64_t count = 0;
    *names = NULL;
    int status = ask(fs, &(struct plfs_asked){.kind = PLFS_LIST, .actor = NAMES, .made = names, .out = &count});
    return status < 0 ? status : (int64_t)count;
}
