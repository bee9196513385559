/* A library that is loaded before the C library (LD_PRELOAD), and stands between a program and its calls on files.
 *
 * It reads its rules from the file that the environment variable PRELOAD_RULES names. Without that it changes nothing.
 * A rule is a line of words with one space between them:
 *
 *     log FILE                          adds a line to FILE for each call
 *     clock NANOSECONDS                 the system's clock stands still at so many since 1970
 *     fail ERROR CALL WHEN PATTERN      the call isn't made, and ends with this error, as EIO
 *     feign ANSWER CALL WHEN PATTERN    the call isn't made, and ends with this number, as if it were
 *     short BYTES CALL WHEN PATTERN     a read or write is asked for so many bytes at the most
 *     wait MILLISECONDS CALL WHEN PATTERN
 *     kill SIGNAL CALL WHEN PATTERN     the process gets this signal before the call
 *     move FROM CALL WHEN PATTERN       FROM is renamed to the path of the call before it is made
 *     make FILE CALL WHEN PATTERN       an empty file is made before the call
 *     await FILE CALL WHEN PATTERN      before the call that FILE is waited for, 20 seconds at the most
 *
 * CALL is one of the words of the list `kinds` below. WHEN is a number from 1, the so manieth call that the rule is for,
 * or one with a plus sign behind it, that call and all later ones. Each rule counts for itself the calls of its kind on
 * paths that its PATTERN matches: a pattern of the shell for the whole path, in which a star stands for slashes too.
 * Of several rules that have a call not made the first counts. PATTERN is the rest of the line. Of a rename either path may match. A call on a descriptor has the path that the
 * descriptor was opened under. `memory` has no path, and its pattern is a star.
 *
 * A line of the log is the kind, what the call ended with (a number or an error), the path, the second path of a rename
 * (or a minus sign) and what else was asked for, with tabs between them: of an opening its flags as words; of a read or
 * write its place (a minus sign where the descriptor's own counts) and its length in bytes; of a cut the length. */
#include <errno.h>
#include <fcntl.h>
#include <fnmatch.h>
#include <limits.h>
#include <pthread.h>
#include <signal.h>
#include <stdarg.h>
#include <stdbool.h>
#include <stdint.h>
#include <stdio.h>
#include <stdlib.h>
#include <string.h>
#include <sys/file.h>
#include <sys/stat.h>
#include <sys/syscall.h>
#include <sys/types.h>
#include <sys/uio.h>
#include <time.h>
#include <unistd.h>

enum kind { OPEN, CREATE, LOOK, LIST, READ, WRITE, SYNC, CUT, CLOSE, RENAME, REMOVE, MKDIR, RMDIR, LOCK, MEMORY, KINDS };

static const char *const kinds[KINDS] = {
    "open",   /* open, openat: an opening that makes no file */
    "create", /* the same calls, where they may make one */
    "look",   /* statx */
    "list",   /* getdents64 */
    "read",   /* read, pread */
    "write",  /* write, pwrite, writev */
    "sync",   /* fsync, fdatasync */
    "cut",    /* ftruncate */
    "close",  /* close */
    "rename", /* rename, renameat, renameat2 */
    "remove", /* unlink, unlinkat */
    "mkdir",  /* mkdir, mkdirat */
    "rmdir",  /* rmdir, unlinkat with its flag */
    "lock",   /* flock */
    "memory", /* malloc, calloc, realloc */
};

static const struct {
    const char *name;
    int number;
} errors[] = {
    {"EIO", EIO},       {"ENOSPC", ENOSPC},   {"EDQUOT", EDQUOT},       {"EINTR", EINTR},   {"EACCES", EACCES},
    {"EPERM", EPERM},   {"ENOENT", ENOENT},   {"EEXIST", EEXIST},       {"EROFS", EROFS},   {"ENOTEMPTY", ENOTEMPTY},
    {"EMFILE", EMFILE}, {"ENFILE", ENFILE},   {"ENOMEM", ENOMEM},       {"EAGAIN", EAGAIN}, {"ENAMETOOLONG", ENAMETOOLONG},
    {"ELOOP", ELOOP},   {"ENOTDIR", ENOTDIR}, {"EISDIR", EISDIR},       {"EXDEV", EXDEV},   {"EFBIG", EFBIG},
    {"EINVAL", EINVAL}, {"EBADF", EBADF},     {"EOPNOTSUPP", EOPNOTSUPP}, {"ENOLCK", ENOLCK}, {"EPIPE", EPIPE},
};
enum { ERRORS = sizeof errors / sizeof errors[0] };

enum action { FAIL, FEIGN, SHORT, WAIT, KILL, MOVE, MAKE, AWAIT, ACTIONS };

static const char *const actions[ACTIONS] = {"fail", "feign", "short", "wait", "kill", "move", "make", "await"};

struct rule {
    enum action action;
    enum kind kind;
    const char *argument; /* a file's name, where it is no number */
    long number;
    long first;
    bool goes_on;
    const char *pattern;
    long seen;
};

enum { RULES = 64, TEXT = 1 << 16, WAITS = 20000, LOG_AT = 400 };

static char text[TEXT];
static struct rule rules[RULES];
static size_t count;
static int log_file = -1;
static long clock_stands = -1;
static bool counts_memory;
static pthread_mutex_t turn = PTHREAD_MUTEX_INITIALIZER;

/* What is made of a call: whether it is made at all, else the error that it ends with, or 0 and an answer; and how many
 * bytes it may be asked for. */
struct verdict {
    bool is_made;
    int error;
    long answer;
    size_t most;
};

/* Ends the process where the rules can't be read: a test must not go on without them. */
static void stop(const char *why, const char *what) {
    dprintf(2, "preload: %s: %s\n", why, what);
    _exit(99);
}

static char *word(char **rest) {
    char *found = strsep(rest, " ");
    if (!found || !*found || !*rest) {
        stop("a rule has too few words", found ? found : "");
    }
    return found;
}

static long number(const char *from, char **end) {
    char *behind;
    const long value = strtol(from, &behind, 10);
    if (behind == from || value < 0 || (!end && *behind)) {
        stop("this is no number", from);
    }
    if (end) {
        *end = behind;
    }
    return value;
}

static int place_of(const char *name, const char *const *names, int many) {
    for (int it = 0; it < many; it++) {
        if (!strcmp(name, names[it])) {
            return it;
        }
    }
    stop("no rule has this word", name);
    return 0;
}

static int error_of(const char *name) {
    for (int it = 0; it < ERRORS; it++) {
        if (!strcmp(name, errors[it].name)) {
            return errors[it].number;
        }
    }
    stop("no error has this name", name);
    return 0;
}

static void read_rule(char *line) {
    char *rest = line;
    const char *first = word(&rest);
    if (!strcmp(first, "log")) {
        /* A number far from those that the program and its tests use. */
        const int opened = open(rest, O_WRONLY | O_APPEND | O_CREAT | O_CLOEXEC, 0600);
        log_file = opened < 0 ? -1 : fcntl(opened, F_DUPFD_CLOEXEC, LOG_AT);
        if (log_file < 0) {
            stop("the log can't be opened", rest);
        }
        syscall(SYS_close, opened);
        return;
    }
    if (!strcmp(first, "clock")) {
        clock_stands = number(rest, NULL);
        return;
    }
    if (count == RULES) {
        stop("there are too many rules", line);
    }
    struct rule *rule = &rules[count];
    rule->action = (enum action)place_of(first, actions, ACTIONS);
    rule->argument = word(&rest);
    switch (rule->action) {
    case FAIL:
        rule->number = error_of(rule->argument);
        break;
    case FEIGN:
    case SHORT:
    case WAIT:
    case KILL:
        rule->number = number(rule->argument, NULL);
        break;
    default:
        break;
    }
    rule->kind = (enum kind)place_of(word(&rest), kinds, KINDS);
    char *behind;
    rule->first = number(word(&rest), &behind);
    rule->goes_on = !strcmp(behind, "+");
    rule->pattern = rest;
    counts_memory = counts_memory || rule->kind == MEMORY;
    count++;
}

__attribute__((constructor)) static void begin(void) {
    const char *file = getenv("PRELOAD_RULES");
    if (!file) {
        return;
    }
    const int opened = (int)syscall(SYS_openat, AT_FDCWD, file, O_RDONLY | O_CLOEXEC, 0);
    const ssize_t length = opened < 0 ? -1 : syscall(SYS_read, opened, text, TEXT - 1);
    if (length < 0 || length == TEXT - 1) {
        stop("the rules can't be read", file);
    }
    syscall(SYS_close, opened);
    char *rest = text;
    for (char *line; (line = strsep(&rest, "\n"));) {
        if (*line) {
            read_rule(line);
        }
    }
}

static void pause_for(long milliseconds) {
    const struct timespec time = {milliseconds / 1000, milliseconds % 1000 * 1000000};
    nanosleep(&time, NULL);
}

static void act(const struct rule *rule, const char *path) {
    switch (rule->action) {
    case WAIT:
        pause_for(rule->number);
        break;
    case KILL:
        kill(getpid(), (int)rule->number);
        break;
    case MOVE:
        if (syscall(SYS_renameat2, AT_FDCWD, rule->argument, AT_FDCWD, path, 0)) {
            stop("this can't be moved", rule->argument);
        }
        break;
    case MAKE:
        syscall(SYS_close, syscall(SYS_openat, AT_FDCWD, rule->argument, O_WRONLY | O_CREAT, 0600));
        break;
    case AWAIT:
        for (long it = 0; it < WAITS && syscall(SYS_faccessat, AT_FDCWD, rule->argument, F_OK); it++) {
            pause_for(1);
        }
        break;
    default:
        break;
    }
}

/* Counts the call at each of its rules, does what they say, and tells what is made of it. */
static struct verdict judged(enum kind kind, const char *path, const char *other) {
    struct verdict found = {true, 0, 0, SIZE_MAX};
    for (size_t it = 0; it < count; it++) {
        struct rule *rule = &rules[it];
        if (rule->kind != kind || (fnmatch(rule->pattern, path, 0) && (!other || fnmatch(rule->pattern, other, 0)))) {
            continue;
        }
        pthread_mutex_lock(&turn);
        const long seen = ++rule->seen;
        pthread_mutex_unlock(&turn);
        if (seen != rule->first && !(rule->goes_on && seen > rule->first)) {
            continue;
        }
        if (rule->action == FAIL || rule->action == FEIGN) {
            if (found.is_made) {
                found.is_made = false;
                found.error = rule->action == FAIL ? (int)rule->number : 0;
                found.answer = rule->action == FAIL ? -1 : rule->number;
            }
        } else if (rule->action == SHORT) {
            found.most = (size_t)rule->number;
        } else {
            act(rule, path);
        }
    }
    return found;
}

/* Adds the call's line to the log, and hands on what it ended with and its error. */
static long told(enum kind kind, long answer, const char *path, const char *other, const char *more) {
    const int error = errno;
    if (log_file >= 0) {
        const char *name = "error";
        for (int it = 0; answer < 0 && it < ERRORS; it++) {
            name = errors[it].number == error ? errors[it].name : name;
        }
        char line[3 * PATH_MAX], ended[24];
        snprintf(ended, sizeof ended, "%ld", answer);
        const int length = snprintf(line, sizeof line, "%s\t%s\t%s\t%s\t%s\n", kinds[kind], answer < 0 ? name : ended, path,
                                    other ? other : "-", more);
        if (length >= (int)sizeof line || syscall(SYS_write, log_file, line, length) != length) {
            stop("the log can't be written", path);
        }
    }
    errno = error;
    return answer;
}

/* The path that a descriptor was opened under. */
static void path_of(int file, char *path) {
    char link[64];
    snprintf(link, sizeof link, "/proc/self/fd/%d", file);
    const ssize_t length = syscall(SYS_readlinkat, AT_FDCWD, link, path, PATH_MAX - 1);
    path[length < 0 ? 0 : length] = 0;
}

/* The whole path of a name, from the folder that is open under `at`. */
static void whole(int at, const char *name, char *path) {
    path[0] = 0;
    if (name[0] != '/' && at == AT_FDCWD) {
        const long length = syscall(SYS_getcwd, path, PATH_MAX);
        path[length < 0 ? 0 : length] = 0;
    } else if (name[0] != '/') {
        path_of(at, path);
    }
    const size_t length = strlen(path);
    snprintf(path + length, PATH_MAX - length, "%s%s", name[0] == '/' || !*name ? "" : "/", name);
}

static bool is_idle(void) {
    return !count && log_file < 0;
}

/* A call on a descriptor: CALL is made where no rule has it fail, and MORE tells what else was asked for. */
#define ON_FILE(KIND, FILE, MORE, CALL)                                            \
    do {                                                                           \
        if (is_idle()) {                                                           \
            const size_t most = SIZE_MAX;                                          \
            (void)most;                                                            \
            return CALL;                                                           \
        }                                                                          \
        const int before = errno;                                                  \
        char path[PATH_MAX];                                                       \
        path_of(FILE, path);                                                       \
        const struct verdict verdict = judged(KIND, path, NULL);                   \
        const size_t most = verdict.most;                                          \
        (void)most;                                                                \
        errno = verdict.error ? verdict.error : before;                            \
        return told(KIND, verdict.is_made ? (long)(CALL) : verdict.answer, path, NULL, MORE); \
    } while (0)

/* A call on a name from a folder. */
#define ON_NAME(KIND, AT, NAME, MORE, CALL)                                        \
    do {                                                                           \
        if (is_idle()) {                                                           \
            return CALL;                                                           \
        }                                                                          \
        const int before = errno;                                                  \
        char path[PATH_MAX];                                                       \
        whole(AT, NAME, path);                                                     \
        const struct verdict verdict = judged(KIND, path, NULL);                   \
        errno = verdict.error ? verdict.error : before;                            \
        return (int)told(KIND, verdict.is_made ? (long)(CALL) : verdict.answer, path, NULL, MORE); \
    } while (0)

static size_t lesser(size_t one, size_t other) {
    return one < other ? one : other;
}

static const char *moved(char *more, size_t room, off_t at, size_t length) {
    snprintf(more, room, "%lld %zu", (long long)at, length);
    return more;
}

/* Descriptors. */

ssize_t read(int file, void *into, size_t length) {
    char more[64];
    snprintf(more, sizeof more, "- %zu", length);
    ON_FILE(READ, file, more, syscall(SYS_read, file, into, lesser(length, most)));
}

ssize_t pread(int file, void *into, size_t length, off_t at) {
    char more[64];
    ON_FILE(READ, file, moved(more, sizeof more, at, length), syscall(SYS_pread64, file, into, lesser(length, most), at));
}

ssize_t pread64(int file, void *into, size_t length, off64_t at) {
    return pread(file, into, length, at);
}

ssize_t write(int file, const void *from, size_t length) {
    char more[64];
    snprintf(more, sizeof more, "- %zu", length);
    ON_FILE(WRITE, file, more, syscall(SYS_write, file, from, lesser(length, most)));
}

ssize_t pwrite(int file, const void *from, size_t length, off_t at) {
    char more[64];
    ON_FILE(WRITE, file, moved(more, sizeof more, at, length), syscall(SYS_pwrite64, file, from, lesser(length, most), at));
}

ssize_t pwrite64(int file, const void *from, size_t length, off64_t at) {
    return pwrite(file, from, length, at);
}

ssize_t writev(int file, const struct iovec *parts, int many) {
    size_t length = 0;
    for (int it = 0; it < many; it++) {
        length += parts[it].iov_len;
    }
    char more[64];
    snprintf(more, sizeof more, "- %zu", length);
    ON_FILE(WRITE, file, more, syscall(SYS_writev, file, parts, many));
}

int fsync(int file) {
    ON_FILE(SYNC, file, "all", syscall(SYS_fsync, file));
}

int fdatasync(int file) {
    ON_FILE(SYNC, file, "data", syscall(SYS_fdatasync, file));
}

int ftruncate(int file, off_t length) {
    char more[32];
    snprintf(more, sizeof more, "%lld", (long long)length);
    ON_FILE(CUT, file, more, syscall(SYS_ftruncate, file, length));
}

int ftruncate64(int file, off64_t length) {
    return ftruncate(file, length);
}

int close(int file) {
    ON_FILE(CLOSE, file, "-", syscall(SYS_close, file));
}

int flock(int file, int operation) {
    char more[32];
    snprintf(more, sizeof more, "%s%s", operation & LOCK_UN ? "off" : operation & LOCK_EX ? "alone" : "shared",
             operation & LOCK_NB ? " now" : "");
    ON_FILE(LOCK, file, more, syscall(SYS_flock, file, operation));
}

ssize_t getdents64(int file, void *into, size_t length) {
    ON_FILE(LIST, file, "-", syscall(SYS_getdents64, file, into, length));
}

/* The clock. */

int clock_gettime(clockid_t which, struct timespec *now) {
    if (clock_stands < 0 || which != CLOCK_REALTIME) {
        return (int)syscall(SYS_clock_gettime, which, now);
    }
    *now = (struct timespec){clock_stands / 1000000000, clock_stands % 1000000000};
    return 0;
}

/* Names. */

static int opened(int at, const char *name, int flags, mode_t mode) {
    char more[96];
    snprintf(more, sizeof more, "%s%s%s%s%s%s%s", (flags & O_ACCMODE) == O_RDONLY ? "read" : (flags & O_ACCMODE) == O_WRONLY ? "write" : "both",
             flags & O_CREAT ? " create" : "", flags & O_EXCL ? " new" : "", flags & O_TRUNC ? " cut" : "",
             flags & O_APPEND ? " append" : "", flags & O_NOFOLLOW ? " nofollow" : "", flags & O_DIRECTORY ? " folder" : "");
    ON_NAME(flags & O_CREAT ? CREATE : OPEN, at, name, more, (int)syscall(SYS_openat, at, name, flags, mode));
}

/* The mode, which is passed only where a file may be made. */
#define MODE_OF(FLAGS, MODE)                             \
    mode_t MODE = 0;                                     \
    if ((FLAGS & O_CREAT) || (FLAGS & O_TMPFILE) == O_TMPFILE) { \
        va_list rest;                                    \
        va_start(rest, FLAGS);                           \
        MODE = va_arg(rest, mode_t);                     \
        va_end(rest);                                    \
    }

int open(const char *name, int flags, ...) {
    MODE_OF(flags, mode)
    return opened(AT_FDCWD, name, flags, mode);
}

int open64(const char *name, int flags, ...) {
    MODE_OF(flags, mode)
    return opened(AT_FDCWD, name, flags, mode);
}

int openat(int at, const char *name, int flags, ...) {
    MODE_OF(flags, mode)
    return opened(at, name, flags, mode);
}

int openat64(int at, const char *name, int flags, ...) {
    MODE_OF(flags, mode)
    return opened(at, name, flags, mode);
}

int statx(int at, const char *restrict name, int flags, unsigned int mask, struct statx *restrict into) {
    ON_NAME(LOOK, at, name, flags & AT_SYMLINK_NOFOLLOW ? "nofollow" : "-", (int)syscall(SYS_statx, at, name, flags, mask, into));
}

int mkdirat(int at, const char *name, mode_t mode) {
    ON_NAME(MKDIR, at, name, "-", (int)syscall(SYS_mkdirat, at, name, mode));
}

int mkdir(const char *name, mode_t mode) {
    return mkdirat(AT_FDCWD, name, mode);
}

int unlinkat(int at, const char *name, int flags) {
    ON_NAME(flags & AT_REMOVEDIR ? RMDIR : REMOVE, at, name, "-", (int)syscall(SYS_unlinkat, at, name, flags));
}

int unlink(const char *name) {
    return unlinkat(AT_FDCWD, name, 0);
}

int rmdir(const char *name) {
    return unlinkat(AT_FDCWD, name, AT_REMOVEDIR);
}

int renameat2(int from_at, const char *from, int to_at, const char *to, unsigned int flags) {
    if (is_idle()) {
        return (int)syscall(SYS_renameat2, from_at, from, to_at, to, flags);
    }
    const int before = errno;
    char path[PATH_MAX], other[PATH_MAX];
    whole(from_at, from, path);
    whole(to_at, to, other);
    const struct verdict verdict = judged(RENAME, path, other);
    errno = verdict.error ? verdict.error : before;
    const long ended = verdict.is_made ? syscall(SYS_renameat2, from_at, from, to_at, to, flags) : verdict.answer;
    return (int)told(RENAME, ended, path, other, "-");
}

int renameat(int from_at, const char *from, int to_at, const char *to) {
    return renameat2(from_at, from, to_at, to, 0);
}

int rename(const char *from, const char *to) {
    return renameat2(AT_FDCWD, from, AT_FDCWD, to, 0);
}

/* Memory. The C library's own functions have these further names. A call is not logged: the log's own would be one. */

void *__libc_malloc(size_t length);
void *__libc_calloc(size_t many, size_t length);
void *__libc_realloc(void *block, size_t length);

static bool is_refused(void) {
    if (!counts_memory || !judged(MEMORY, "", NULL).error) {
        return false;
    }
    errno = ENOMEM;
    return true;
}

void *malloc(size_t length) {
    return is_refused() ? NULL : __libc_malloc(length);
}

void *calloc(size_t many, size_t length) {
    return is_refused() ? NULL : __libc_calloc(many, length);
}

void *realloc(void *block, size_t length) {
    return is_refused() ? NULL : __libc_realloc(block, length);
}
