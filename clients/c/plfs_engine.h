/* plfs_engine.h: one engine that was started or joined, and requests of it. For plfs_client.c alone. */
#ifndef PLFS_ENGINE_H
#define PLFS_ENGINE_H

#include <pthread.h>
#include <stddef.h>
#include <stdint.h>
#include <sys/types.h>

/* The statements that are asked for, as docs/ENGINE.md numbers them. */
enum plfs_kind {
    PLFS_OPEN = 1, PLFS_WRITE, PLFS_SYNC, PLFS_CLOSE, PLFS_OPEN_READ, PLFS_READ, PLFS_REFRESH, PLFS_PIECES, PLFS_CLOSE_READ,
    PLFS_STAT, PLFS_TRUNC, PLFS_RENAME, PLFS_FLATTEN, PLFS_RECOVER, PLFS_LIST
};

/* PLFS_ITEM: bytes of an item's name that are kept. PLFS_AHEAD: bytes of answers that are read ahead. PLFS_HEAD: bytes of a request's head.
 * PLFS_HEADS: how many heads stand where they stay. */
enum { PLFS_ITEM = 256, PLFS_AHEAD = 4096, PLFS_HEAD = 48, PLFS_HEADS = 64 };

/* Requests are sent one behind the other, and their answers come in that order. While one thread waits for its answer others send
 * theirs. One of those that wait takes the answers, also those of the others. */
struct plfs_engine {
    pthread_mutex_t sending; /* a request is sent under it. Who has both locks took this one first */
    int to;
    uint64_t number; /* of the last request */
    unsigned char heads[PLFS_HEADS][PLFS_HEAD]; /* of the last requests, by their numbers. One that is lent isn't changed before its answer */

    pthread_mutex_t lock;             /* all that follows, but what only the thread that takes answers looks at */
    struct plfs_waiting *first, *last; /* requests that were sent and have no answer, the oldest first */
    int is_heard;                     /* a thread takes answers */
    int gone;                         /* why no further request is made: 0, or an error */
    uint64_t told;                    /* the number of the last request that was told */
    size_t item_len;                  /* the damage that was told last */
    uint64_t place;
    char item[PLFS_ITEM];

    int from; /* what follows is for the thread that takes answers */
    int door; /* while this process is not let in: the pipe on which it announced itself, else -1 */
    int own;  /* meanwhile its own reading end of its requests, without which their opening would wait, else -1 */
    size_t begin, end; /* where in ahead those bytes are that were read and not taken */
    unsigned char ahead[PLFS_AHEAD];

    pid_t process; /* 0 where the engine was joined */
    pid_t owner;   /* the process whose requests these are: none of its children has an answer of its own */
};

/* One request. Where an answer has bytes, they go to into, which has room for so many, or to memory that *made takes, with a zero
 * byte behind them. *out takes the answer's value under the lock, where all goes well. */
struct plfs_asked {
    enum plfs_kind kind;
    uint64_t actor, place, extent;
    const void *bytes;
    size_t len;
    void *into;
    size_t room;
    char **made;
    uint64_t *out;
};

/* Starts an engine on ROOT. 0, or an error of enum plfs_error, not negated. */
int plfs_engine_start(struct plfs_engine *engine, const char *root, uint32_t host);

/* Joins the engine that serves by this folder. 0, or an error of enum plfs_error, not negated. */
int plfs_engine_join(struct plfs_engine *engine, const char *folder);

/* Makes the request. 0, or an error of enum plfs_error, not negated: PLFS_NOT_OPEN in a child of fork. */
int plfs_engine_ask(struct plfs_engine *engine, const struct plfs_asked *asked);

/* Ends the engine's input, and waits for its end: 0, or the error that its status tells. Of one that was joined it waits until that has closed
 * what is open, and answers 0. In a child of fork it closes that one's ends of the pipes, and answers PLFS_NOT_OPEN. */
int plfs_engine_end(struct plfs_engine *engine);

#endif
