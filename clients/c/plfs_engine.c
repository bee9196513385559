/* plfs_engine.c: starts or joins plfs_serve, and sends it requests. Plain C11 and POSIX; no proof speaks of it. */
#define _GNU_SOURCE
#include "plfs_engine.h"
#include "plfs.h"

#include <errno.h>
#include <fcntl.h>
#include <limits.h>
#include <poll.h>
#include <semaphore.h>
#include <signal.h>
#include <spawn.h>
#include <stdatomic.h>
#include <stdio.h>
#include <stdlib.h>
#include <string.h>
#include <sys/ioctl.h>
#include <sys/stat.h>
#include <sys/uio.h>
#include <sys/wait.h>
#include <time.h>
#include <unistd.h>

extern char **environ;

/* How an answer says that it went. */
enum status { MADE = 0, REFUSED = 1, NO_REQUEST = 2, NO_MEMORY = 3, FAULT = 4, DAMAGED = 7 };

/* PIPE: bytes of a pipe, where the system allows so many. LENT: from so many bytes on a request's bytes aren't
 * copied into the pipe. LONG: from so many on their head goes alone. TAKEN_UP: milliseconds, long behind the reading of a name that announces a
 * process, in which an engine opens that process's pipes. DYING: milliseconds in which an engine that is killed closes all of its own. WAIT: seconds in which an engine
 * may begin, where PLFS_WAIT says nothing else. STEP: milliseconds between two looks whether it did. */
enum {
    ANSWER = 32,
    PIPE = 1 << 20,
    LENT = 1 << 15,
    LONG = 1 << 18,
    TAKEN_UP = 1000,
    DYING = 100,
    WAIT = 5,
    STEP = 20
};

/* ---- bytes on pipes */

static void put(unsigned char *at, uint64_t n) {
    for (int i = 0; i < 8; i++) at[i] = (unsigned char)(n >> (8 * i));
}

static uint64_t get(const unsigned char *at) {
    uint64_t n = 0;
    for (int i = 0; i < 8; i++) n |= (uint64_t)at[i] << (8 * i);
    return n;
}

/* Which parts of a request are lent: they aren't copied, since the pipe refers to the program's own pages. The answer comes only once they have been
 * read, and the call waits for it. */
enum lent { NOTHING, BYTES, BOTH };

/* Sends both parts. -1 where the engine reads no more. */
static int send_parts(int fd, struct iovec parts[2], enum lent lent) {
    for (int k = 0; k < 2;) {
        if (parts[k].iov_len == 0) {
            k++;
            continue;
        }
        const int is_lent = lent == BOTH || (lent == BYTES && k == 1), count = lent == BYTES ? 1 : 2 - k;
        ssize_t sent = is_lent ? vmsplice(fd, parts + k, (size_t)count, 0) : writev(fd, parts + k, count);
        if (sent < 0 && errno == EINTR) continue;
        if (sent <= 0 && is_lent) {
            lent = NOTHING; /* the system doesn't do it */
            continue;
        }
        if (sent < 0) return -1;
        for (; k < 2 && (size_t)sent >= parts[k].iov_len; k++) sent -= (ssize_t)parts[k].iov_len;
        if (k < 2) {
            parts[k].iov_base = (char *)parts[k].iov_base + sent;
            parts[k].iov_len -= (size_t)sent;
        }
    }
    return 0;
}

/* The same, while a SIGPIPE that it makes doesn't come to the program. */
static int send_all(int fd, struct iovec parts[2], enum lent lent) {
    sigset_t pipes, before, pending;
    sigemptyset(&pipes);
    sigaddset(&pipes, SIGPIPE);
    pthread_sigmask(SIG_BLOCK, &pipes, &before);
    int ours = 1; /* a signal that comes now is of this call */
    if (sigismember(&before, SIGPIPE)) {
        sigpending(&pending);
        ours = !sigismember(&pending, SIGPIPE);
    }
    int failed = send_parts(fd, parts, lent);
    if (failed && ours) {
        struct timespec none = {0, 0};
        while (sigtimedwait(&pipes, NULL, &none) < 0 && errno == EINTR) {}
    }
    pthread_sigmask(SIG_SETMASK, &before, NULL);
    return failed;
}

/* Takes the next n bytes of answers: those that were read ahead first. */
static int take_all(struct plfs_engine *engine, void *into, size_t n) {
    char *to = into;
    while (n > 0) {
        size_t part = engine->end - engine->begin;
        if (part > 0) {
            if (part > n) part = n;
            memcpy(to, engine->ahead + engine->begin, part);
            engine->begin += part;
        } else {
            const int is_long = n >= PLFS_AHEAD;
            ssize_t got = read(engine->from, is_long ? (void *)to : engine->ahead, is_long ? n : PLFS_AHEAD);
            if (got < 0 && errno == EINTR) continue;
            if (got <= 0) return -1;
            engine->begin = 0;
            engine->end = is_long ? 0 : (size_t)got;
            part = is_long ? (size_t)got : 0;
        }
        to += part;
        n -= part;
    }
    return 0;
}

/* Whether an answer was read ahead with all of its bytes. */
static int is_ahead(const struct plfs_engine *engine) {
    size_t n = engine->end - engine->begin;
    return n >= ANSWER && n - ANSWER >= get(engine->ahead + engine->begin + 24);
}

/* ---- requests */

/* The error that an answer tells. */
static int error_of(enum plfs_kind kind, uint64_t status, uint64_t value) {
    switch (status) {
    case MADE: return 0;
    case REFUSED: return value >= PLFS_NO_FILE && value <= PLFS_MOUNTS_SPENT ? (int)value : PLFS_STRANGE;
    case NO_REQUEST: return kind == PLFS_OPEN || kind == PLFS_OPEN_READ || kind >= PLFS_STAT ? PLFS_BAD_NAME : PLFS_STRANGE;
    case NO_MEMORY: return PLFS_ENGINE_MEMORY;
    case FAULT: return PLFS_FAULT;
    case DAMAGED: return PLFS_DAMAGED;
    default: return PLFS_STRANGE;
    }
}

/* A request that was sent, and the thread that waits for its answer. */
struct plfs_waiting {
    const struct plfs_asked *asked;
    uint64_t number;
    int is_told, error;
    sem_t woken; /* it was told, or is to take the answers. Behind that nobody else looks at any of this */
    struct plfs_waiting *next;
};

/* What an answer tells. */
struct told {
    int error;
    uint64_t value;
    size_t item_len;
    char item[PLFS_ITEM];
};

/* Takes the n bytes that name a damaged item, and keeps those that there is room for. */
static int take_item(struct plfs_engine *engine, struct told *told, uint64_t n) {
    told->item_len = n < PLFS_ITEM ? (size_t)n : PLFS_ITEM;
    if (take_all(engine, told->item, told->item_len)) return -1;
    char unwanted[PLFS_ITEM];
    for (n -= told->item_len; n > 0;) {
        size_t part = n < PLFS_ITEM ? (size_t)n : PLFS_ITEM;
        if (take_all(engine, unwanted, part)) return -1;
        n -= part;
    }
    return 0;
}

/* Takes an answer's bytes into memory of their own. */
static int take_made(struct plfs_engine *engine, char **made, uint64_t len) {
    char *memory = len < PTRDIFF_MAX ? malloc((size_t)len + 1) : NULL;
    if (!memory) return PLFS_NO_MEMORY;
    memory[len] = 0;
    if (take_all(engine, memory, (size_t)len)) {
        free(memory);
        return PLFS_GONE;
    }
    *made = memory;
    return 0;
}

/* Takes an answer's bytes where they are wanted. */
static int take_payload(struct plfs_engine *engine, const struct plfs_asked *a, struct told *told, uint64_t status, uint64_t len) {
    if (status == DAMAGED) return take_item(engine, told, len) ? PLFS_GONE : 0;
    if (status == MADE && a->made) return take_made(engine, a->made, len);
    if (len > a->room) return PLFS_STRANGE;
    return take_all(engine, a->into, (size_t)len) ? PLFS_GONE : 0;
}

/* Whether this process's name was read off the pipe on which it announced itself. */
static int is_name_read(const struct plfs_engine *engine) {
    int unread = 0;
    return ioctl(engine->door, FIONREAD, &unread) == 0 && unread == 0;
}

/* Waits for the first answer of an engine that was joined. Before that engine opens the pipe nothing comes, and no end either. Its end alone says
 * that there is no place for this process. An engine that died as it had read the name, or that may not open the pipes, never does. So some time behind
 * that reading somebody must have opened the pipe of requests. */
static int wait_in(struct plfs_engine *engine) {
    struct pollfd ends[3] = {{.fd = engine->from, .events = POLLIN}, {.fd = engine->door}, {.fd = -1}};
    int came;
    while ((came = poll(ends, 3, engine->own >= 0 ? TAKEN_UP : -1)) <= 0) {
        if (came < 0 && errno != EINTR) return PLFS_GONE;
        if (came == 0 && is_name_read(engine)) {
            close(engine->own);
            engine->own = -1;
            ends[2].fd = engine->to; /* which tells an error where nobody reads it */
        }
    }
    if (ends[0].revents & POLLIN) return 0;
    if (ends[0].revents && !ends[1].revents) (void)poll(ends + 1, 1, DYING);
    return ends[1].revents || !ends[0].revents ? PLFS_GONE : PLFS_NO_HANDLE;
}

/* Takes the answer to this request, which is the oldest. Answers its error. */
static int take_answer(struct plfs_engine *engine, const struct plfs_waiting *waiting, struct told *told) {
    const struct plfs_asked *a = waiting->asked;
    unsigned char answer[ANSWER];
    int kept_out = engine->door >= 0 ? wait_in(engine) : 0;
    if (kept_out) return kept_out;
    if (take_all(engine, answer, ANSWER)) return PLFS_GONE;
    uint64_t status = get(answer + 8), len = get(answer + 24);
    told->value = get(answer + 16);
    int error = get(answer) == waiting->number ? error_of(a->kind, status, told->value) : PLFS_STRANGE;
    if (error == PLFS_STRANGE || (error == 0 && a->kind == PLFS_READ && told->value != len)) return PLFS_STRANGE;
    int failed = take_payload(engine, a, told, status, len);
    return failed ? failed : error;
}

/* Takes the oldest request out, and tells it what came of it. */
static void tell(struct plfs_engine *engine, const struct plfs_waiting *own, int error) {
    struct plfs_waiting *waiting = engine->first;
    engine->first = waiting->next;
    engine->told = waiting->number;
    waiting->error = error;
    waiting->is_told = 1;
    if (waiting != own) sem_post(&waiting->woken);
}

/* Tells the oldest request what its answer says. Behind an error that leaves the pipes out of step no other answer is taken. */
static void tell_answer(struct plfs_engine *engine, const struct plfs_waiting *own, const struct told *told) {
    const struct plfs_asked *a = engine->first->asked;
    if (told->error == PLFS_DAMAGED) {
        engine->place = told->value;
        engine->item_len = told->item_len;
        memcpy(engine->item, told->item, told->item_len);
    }
    if (told->error == 0 && a->out) *a->out = told->value;
    if (told->error == PLFS_NO_MEMORY || told->error >= PLFS_ENGINE_MEMORY) engine->gone = told->error == PLFS_NO_MEMORY ? PLFS_GONE : told->error;
    tell(engine, own, told->error);
    while (engine->gone && engine->first) tell(engine, own, engine->gone);
}

/* Takes answers until this request has its own, and those that were read ahead meanwhile. Then one of those that still wait takes them. */
static void take_answers(struct plfs_engine *engine, const struct plfs_waiting *own) {
    pthread_mutex_lock(&engine->lock);
    do {
        const struct plfs_waiting *waiting = engine->first;
        struct told told;
        pthread_mutex_unlock(&engine->lock);
        told.error = take_answer(engine, waiting, &told);
        pthread_mutex_lock(&engine->lock);
        tell_answer(engine, own, &told);
    } while (engine->first && (!own->is_told || is_ahead(engine)));
    engine->is_heard = engine->first != NULL;
    if (engine->first) sem_post(&engine->first->woken);
    pthread_mutex_unlock(&engine->lock);
}

/* Why no further request is made: 0, or an error. *told: the number of the last request that was told. */
static int gone(struct plfs_engine *engine, uint64_t *told) {
    pthread_mutex_lock(&engine->lock);
    int error = engine->gone;
    *told = engine->told;
    pthread_mutex_unlock(&engine->lock);
    return error;
}

/* Which parts of this request are lent. A head is lent where it stands until the answer has come, and then the engine is woken once. Before very
 * many bytes it goes alone, and the engine makes room for them meanwhile. */
static enum lent lent_of(const struct plfs_asked *a, uint64_t number, uint64_t told) {
    if (a->len < LENT) return NOTHING;
    return a->len < LONG && number - told <= PLFS_HEADS ? BOTH : BYTES;
}

static int send_asked(struct plfs_engine *engine, const struct plfs_asked *a, uint64_t number, uint64_t told) {
    const uint64_t numbers[PLFS_HEAD / 8] = {a->kind, a->actor, number, a->place, a->extent, a->len};
    unsigned char own[PLFS_HEAD];
    const enum lent lent = lent_of(a, number, told);
    unsigned char *head = lent == BOTH ? engine->heads[number % PLFS_HEADS] : own;
    for (int i = 0; i < PLFS_HEAD / 8; i++) put(head + 8 * i, numbers[i]);
    struct iovec parts[2] = {{head, PLFS_HEAD}, {(void *)(uintptr_t)a->bytes, a->len}};
    return send_all(engine->to, parts, lent);
}

/* Puts a request that was sent behind the others, or one that could not be sent nowhere. 0, or an error. *hears: its thread takes the answers. */
static int wait_behind(struct plfs_engine *engine, struct plfs_waiting *own, int is_sent, int *hears) {
    pthread_mutex_lock(&engine->lock);
    if (!engine->gone && !is_sent) engine->gone = PLFS_GONE;
    int error = engine->gone;
    if (!error) {
        if (engine->first) {
            engine->last->next = own;
        } else {
            engine->first = own;
        }
        engine->last = own;
        *hears = !engine->is_heard;
        engine->is_heard = 1;
    }
    pthread_mutex_unlock(&engine->lock);
    return error;
}

static int send_request(struct plfs_engine *engine, struct plfs_waiting *own, int *hears) {
    uint64_t told;
    int error = gone(engine, &told);
    if (error) return error;
    own->number = ++engine->number;
    return wait_behind(engine, own, send_asked(engine, own->asked, own->number, told) == 0, hears);
}

int plfs_engine_ask(struct plfs_engine *engine, const struct plfs_asked *asked) {
    struct plfs_waiting own = {.asked = asked};
    int hears = 0;
    if (getpid() != engine->owner) return PLFS_NOT_OPEN;
    sem_init(&own.woken, 0, 0);
    pthread_mutex_lock(&engine->sending);
    int error = send_request(engine, &own, &hears);
    pthread_mutex_unlock(&engine->sending);
    if (!error) {
        while (!hears && sem_wait(&own.woken)) {}
        if (!own.is_told) take_answers(engine, &own);
        error = own.error;
    }
    sem_destroy(&own.woken);
    return error;
}

/* ---- the process */

/* Makes both locks. 0, or an error of the system. */
static int make_locks(struct plfs_engine *engine) {
    int failed = pthread_mutex_init(&engine->lock, NULL);
    if (failed) return failed;
    failed = pthread_mutex_init(&engine->sending, NULL);
    if (failed) pthread_mutex_destroy(&engine->lock);
    return failed;
}

static void end_locks(struct plfs_engine *engine) {
    pthread_mutex_destroy(&engine->sending);
    pthread_mutex_destroy(&engine->lock);
}

/* A pipe whose ends no program inherits, and neither of which has the number of a standard stream. */
static int pipe_above(int ends[2]) {
    int low[2];
    if (pipe2(low, O_CLOEXEC)) return -1;
    for (int i = 0; i < 2; i++) ends[i] = low[i] > 2 ? low[i] : fcntl(low[i], F_DUPFD_CLOEXEC, 3);
    for (int i = 0; i < 2; i++) {
        if (low[i] <= 2) close(low[i]);
    }
    if (ends[0] >= 0 && ends[1] >= 0) {
        (void)fcntl(ends[1], F_SETPIPE_SZ, PIPE); /* quicker, where the system allows it */
        return 0;
    }
    for (int i = 0; i < 2; i++) {
        if (ends[i] >= 0) close(ends[i]);
    }
    return -1;
}

/* Starts the program with these as its input and output, and no signal blocked. It has a process group of its own: what is typed to
 * interrupt this program doesn't end it, and it closes what was left open. 0, or an error of the system. */
static int spawn(char *const words[], int input, int output, pid_t *process) {
    const char *program = getenv("PLFS_SERVE");
    if (!program || !*program) program = words[0];
    posix_spawn_file_actions_t files;
    posix_spawnattr_t attributes;
    sigset_t none;
    sigemptyset(&none);
    int failed = posix_spawn_file_actions_init(&files);
    if (failed) return failed;
    failed = posix_spawnattr_init(&attributes);
    if (failed) {
        posix_spawn_file_actions_destroy(&files);
        return failed;
    }
    failed = posix_spawnattr_setsigmask(&attributes, &none);
    if (!failed) failed = posix_spawnattr_setpgroup(&attributes, 0);
    if (!failed) failed = posix_spawnattr_setflags(&attributes, POSIX_SPAWN_SETSIGMASK | POSIX_SPAWN_SETPGROUP);
    if (!failed) failed = posix_spawn_file_actions_adddup2(&files, input, 0);
    if (!failed) failed = posix_spawn_file_actions_adddup2(&files, output, 1);
    if (!failed) failed = posix_spawnp(process, program, &files, &attributes, words, environ);
    posix_spawnattr_destroy(&attributes);
    posix_spawn_file_actions_destroy(&files);
    return failed;
}

/* Whether the folder is mounted: the engine answers as soon as it is. It refuses to close a reader that isn't there. */
static int greet(struct plfs_engine *engine) {
    int error = plfs_engine_ask(engine, &(struct plfs_asked){.kind = PLFS_CLOSE_READ});
    if (error == PLFS_NOT_OPEN) return 0;
    int ended = plfs_engine_end(engine);
    /* what an engine says that doesn't mount is no answer, but its status tells why */
    if ((error == PLFS_GONE && ended) || (error == PLFS_STRANGE && ended && ended != PLFS_GONE)) return ended;
    return error ? error : PLFS_STRANGE;
}

int plfs_engine_start(struct plfs_engine *engine, const char *root, uint32_t host) {
    char number[16];
    snprintf(number, sizeof number, "%lu", (unsigned long)host);
    char *words[] = {(char *)(uintptr_t)"plfs_serve", (char *)(uintptr_t)root, number, NULL};
    int to[2], from[2];
    *engine = (struct plfs_engine){.to = -1, .door = -1, .own = -1, .owner = getpid()};
    if (pipe_above(to)) return PLFS_NOT_STARTED;
    if (pipe_above(from)) {
        close(to[0]);
        close(to[1]);
        return PLFS_NOT_STARTED;
    }
    int failed = make_locks(engine);
    if (!failed) {
        failed = spawn(words, to[0], from[1], &engine->process);
        if (failed) end_locks(engine);
    }
    close(to[0]);
    close(from[1]);
    engine->to = to[1];
    engine->from = from[0];
    if (!failed) return greet(engine);
    close(engine->to);
    close(engine->from);
    errno = failed;
    return PLFS_NOT_STARTED;
}

/* ---- an engine of several processes */

/* Opens what stands there, where it is a named pipe, with a number above those of the standard streams. */
static int open_pipe(const char *path, int how) {
    struct stat is;
    int low = open(path, how | O_CLOEXEC), end = low;
    if (low >= 0 && low <= 2) {
        end = fcntl(low, F_DUPFD_CLOEXEC, 3);
        close(low);
    }
    if (end < 0 || (fstat(end, &is) == 0 && S_ISFIFO(is.st_mode))) return end;
    close(end);
    errno = EINVAL;
    return -1;
}

/* Opens the pipe of the folder on which processes announce themselves, which fails where no engine reads it. It waits for one to begin. */
static int open_door(const char *folder, const char *join) {
    const char *said = getenv("PLFS_WAIT");
    long seconds = WAIT;
    if (said && *said && strspn(said, "0123456789") == strlen(said)) seconds = strtol(said, NULL, 10);
    long left = seconds < LONG_MAX / 1000 ? seconds * 1000 / STEP : LONG_MAX;
    for (;;) {
        int door = open_pipe(join, O_WRONLY | O_NONBLOCK);
        if (door >= 0 || left-- <= 0) return door;
        if (errno != ENXIO && (errno != ENOENT || access(folder, F_OK))) return -1;
        (void)poll(NULL, 0, STEP);
    }
}

/* Makes two named pipes of a name that is this process's own, and writes their paths and that name. */
static int make_pair(const char *folder, char in[PATH_MAX], char out[PATH_MAX], char name[64]) {
    static atomic_ulong count;
    for (int turn = 0; turn < 1000; turn++) {
        snprintf(name, 64, "%ld-%lu\n", (long)getpid(), atomic_fetch_add(&count, 1));
        int len = (int)strlen(name) - 1;
        if (snprintf(in, PATH_MAX, "%s/%.*s.in", folder, len, name) >= PATH_MAX || snprintf(out, PATH_MAX, "%s/%.*s.out", folder, len, name) >= PATH_MAX) {
            errno = ENAMETOOLONG;
            return -1;
        }
        if (mkfifo(in, 0600) == 0) {
            if (mkfifo(out, 0600) == 0) return 0;
            unlink(in);
        }
        if (errno != EEXIST) return -1;
    }
    return -1;
}

/* Opens the pipes, announces this process, and is let in. While it reads its own requests' pipe no opening waits. */
static int enter(struct plfs_engine *engine, const char *in, const char *out, const char *name) {
    engine->own = open_pipe(in, O_RDONLY | O_NONBLOCK);
    engine->to = open_pipe(in, O_WRONLY);
    engine->from = open_pipe(out, O_RDONLY | O_NONBLOCK);
    int error = PLFS_NOT_STARTED;
    if (engine->own >= 0 && engine->to >= 0 && engine->from >= 0 && fcntl(engine->from, F_SETFL, 0) == 0) {
        struct iovec line[2] = {{(void *)(uintptr_t)name, strlen(name)}, {NULL, 0}};
        (void)fcntl(engine->to, F_SETPIPE_SZ, PIPE); /* quicker, where the system allows it */
        (void)fcntl(engine->from, F_SETPIPE_SZ, PIPE);
        if (send_all(engine->door, line, NOTHING) == 0) {
            error = plfs_engine_ask(engine, &(struct plfs_asked){.kind = PLFS_CLOSE_READ});
            if (error == PLFS_NOT_OPEN) error = 0;
        }
    }
    if (engine->own >= 0) close(engine->own);
    engine->own = -1;
    return error;
}

int plfs_engine_join(struct plfs_engine *engine, const char *folder) {
    char join[PATH_MAX], in[PATH_MAX], out[PATH_MAX], name[64];
    *engine = (struct plfs_engine){.to = -1, .from = -1, .door = -1, .own = -1, .owner = getpid()};
    if (snprintf(join, PATH_MAX, "%s/join", folder) >= PATH_MAX) return PLFS_NO_ROOT;
    engine->door = open_door(folder, join);
    if (engine->door < 0) return PLFS_NOT_STARTED;
    int error = PLFS_NOT_STARTED;
    if (make_locks(engine) == 0) {
        if (make_pair(folder, in, out, name) == 0) {
            error = enter(engine, in, out, name);
            unlink(in);
            unlink(out);
        }
        if (error) end_locks(engine);
    }
    close(engine->door);
    engine->door = -1;
    if (error) {
        if (engine->to >= 0) close(engine->to);
        if (engine->from >= 0) close(engine->from);
    }
    return error;
}

/* Ends the requests, and waits until the engine has closed what is open: then it closes its end of the answers' pipe. */
static int leave(struct plfs_engine *engine) {
    char unwanted[4096];
    ssize_t got;
    close(engine->to);
    while ((got = read(engine->from, unwanted, sizeof unwanted)) > 0 || (got < 0 && errno == EINTR)) {}
    close(engine->from);
    end_locks(engine);
    return 0;
}

/* ---- the end */

int plfs_engine_end(struct plfs_engine *engine) {
    int status = 0;
    pid_t ended;
    if (getpid() != engine->owner) {
        close(engine->to);
        close(engine->from);
        return PLFS_NOT_OPEN;
    }
    if (engine->process == 0) return leave(engine);
    close(engine->to);
    close(engine->from); /* so no answer that nobody takes keeps it from its end */
    while ((ended = waitpid(engine->process, &status, 0)) < 0 && errno == EINTR) {}
    end_locks(engine);
    if (ended < 0 || !WIFEXITED(status)) return PLFS_GONE;
    switch (WEXITSTATUS(status)) {
    case 0: return 0;
    case 1: return PLFS_MOUNTS_SPENT;
    case 2: return PLFS_NO_ROOT;
    case 3: return PLFS_ENGINE_MEMORY;
    case 4: return PLFS_FAULT;
    case 7: return PLFS_DAMAGED;
    case 127: errno = ENOENT; return PLFS_NOT_STARTED;
    default: return PLFS_GONE;
    }
}
