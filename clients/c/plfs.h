/* plfs.h: files of a store of Rigtolai, written and read from C, C++ and (through plfs.f90) Fortran.
 *
 * A mount starts the engine, plfs_serve, and speaks to it through two pipes. The engine is the program that the variable
 * PLFS_SERVE of the environment names, or else the plfs_serve on PATH. A folder belongs to one engine at a time, so a program
 * mounts it once and shares the mount.
 *
 * Threads: each function may be called by any thread, with any mount and any handle. Requests are sent in one order, which is the
 * one that all see, and a thread sends its own while others wait for their answers. A handle or a mount that is being closed must
 * not be used by another thread. Threads that write one file at once each open a writer of their own.
 *
 * Processes: a child of fork can't use its parent's mounts, and is answered PLFS_NOT_OPEN. It has their pipes until it ends, starts another
 * program or calls plfs_unmount, and plfs_unmount of the parent waits that long. A program that waits for all of its children, or ignores SIGCHLD, takes the engine's
 * end from plfs_unmount, which then answers PLFS_GONE.
 *
 * Answers: 0 or more where the call did what it says, else one of enum plfs_error, negated. Sizes, places and lengths are in
 * bytes, stamps in nanoseconds since 1970. */
#ifndef PLFS_H
#define PLFS_H

#include <stddef.h>
#include <stdint.h>

#ifdef __cplusplus
extern "C" {
#endif

/* Why a call didn't do what it says. But for the last five, nothing was done, and the mount goes on. */
enum plfs_error {
    PLFS_NO_FILE = 1,         /* there is no file of this name                                                 */
    PLFS_HELD = 2,            /* a truncate or a rename stopped while it held the file: plfs_recover ends that */
    PLFS_BUSY = 3,            /* a writer has the file open, or died with it open: plfs_recover mends the dead */
    PLFS_EXISTS = 4,          /* the new name is taken                                                         */
    PLFS_TOO_FAR = 5,         /* a file ends at 2^40 bytes at the most                                         */
    PLFS_STAMPS_SPENT = 6,    /* no stamp is left                                                              */
    PLFS_IDS_SPENT = 7,       /* no id of a writer, or of a flattened index, is left                           */
    PLFS_NOT_OPEN = 8,        /* the handle or mount is NULL, not of this kind, or closed                      */
    PLFS_ALREADY_OPEN = 9,    /* the handle has a writer or a reader already                                   */
    PLFS_MOUNTS_SPENT = 10,   /* the folder can't be mounted once more: no mark is left                        */
    PLFS_BAD_NAME = 11,       /* no name of a file: 1 to 64 of A-Za-z0-9_-. and neither . nor - first          */
    PLFS_BAD_NUMBER = 12,     /* a number is out of its range                                                  */
    PLFS_NO_HANDLE = 13,      /* PLFS_HANDLES handles are open                                                 */
    PLFS_NO_MEMORY = 14,      /* this program was refused memory                                               */
    PLFS_NOT_STARTED = 15,    /* there is no engine: it couldn't be started, or none serves there. errno says why */
    PLFS_NO_ROOT = 16,        /* ROOT is no list of 1 to 8 folders                                             */
    PLFS_DAMAGED = 17,        /* an item of the container is damaged: plfs_damage tells which                  */
    PLFS_FAULT = 18,          /* the store failed, or another program has the folder: at a mount the engine says which on standard error */
    PLFS_ENGINE_MEMORY = 19,  /* the engine was refused memory, and ended. The call may have been made in part */
    PLFS_GONE = 20,           /* the engine ended, or was killed. The call may have been made, or in part      */
    PLFS_STRANGE = 21         /* what came is no answer, and the mount is given up                             */
};

/* PLFS_HANDLES: handles that a mount may have open, and PLFS_HANDLES_AT where it joined an engine. PLFS_LONGEST: bytes of one request; longer calls are several requests. */
enum { PLFS_HANDLES = 255, PLFS_HANDLES_AT = 15, PLFS_LONGEST = 1 << 24 };

typedef struct plfs_fs plfs_fs;     /* a mount */
typedef struct plfs_file plfs_file; /* a writer or a reader of one file */

/* The error in words, of a number as the functions answer it. Never NULL, and never to be freed. */
const char *plfs_strerror(int error);

/* ---- mounts */

/* Starts an engine on ROOT, a folder that is there, or 1 to 8 of them with colons between. Its writers are of this host: 0 where
 * nothing else is wanted. *fs is NULL where the call failed. PLFS_NOT_STARTED, PLFS_NO_ROOT,
 * PLFS_FAULT (also where another program has the folder), PLFS_DAMAGED, PLFS_MOUNTS_SPENT, PLFS_NO_MEMORY, PLFS_ENGINE_MEMORY. */
int plfs_mount(const char *root, uint32_t host, plfs_fs **fs);

/* Joins the engine that serves the processes of this machine by this folder: plfs_serve ROOT --at FOLDER. plfs_mount does so where PLFS_AT of
 * the environment names a folder, whatever root and host say. It waits for an engine that begins meanwhile, up to 5 seconds, or as many as PLFS_WAIT
 * of the environment says. PLFS_NOT_STARTED where none serves there, PLFS_NO_HANDLE where it serves as many processes as it may, PLFS_GONE where
 * it died or took nobody up, PLFS_NO_ROOT, PLFS_NO_MEMORY. */
int plfs_mount_at(const char *folder, plfs_fs **fs);

/* Syncs and closes what is open, ends the engine and waits for its end. All handles of the mount are gone and their memory is free,
 * whatever is answered. A program doesn't use one behind that, nor close it. An engine that was joined goes on, and 0 is answered.
 * PLFS_FAULT, PLFS_ENGINE_MEMORY, PLFS_GONE. A writer that can't be closed is answered by plfs_close alone. */
int plfs_unmount(plfs_fs *fs);

/* The item that the last PLFS_DAMAGED of this mount told, as a path in its container that is cut to room - 1 bytes, and the
 * place of the damage in it. Answers how many bytes the path has, and 0 where no damage was told. */
int plfs_damage(plfs_fs *fs, char *item, size_t room, uint64_t *place);

/* ---- writers: each has a log of its own, and its bytes are seen by readers once they have landed */

/* Opens a writer, and makes the file where there is none. *file is NULL where the call failed. PLFS_BAD_NAME, PLFS_HELD, PLFS_IDS_SPENT, PLFS_NO_HANDLE. */
int plfs_open_write(plfs_fs *fs, const char *name, plfs_file **file);

/* Writes n bytes at this place. Answers n, or where a later request than the first failed how many bytes were written before it.
 * PLFS_TOO_FAR, PLFS_STAMPS_SPENT. Bytes that were written stay after a kill of either program only where a sync told them. */
int64_t plfs_pwrite(plfs_file *file, const void *bytes, size_t n, uint64_t at);

/* The stamp of this writer's last request that wrote bytes, 0 before the first. Where writes overlap the greater stamp wins. */
uint64_t plfs_stamp(plfs_file *file);

/* Syncs what was written. Answers how many requests of this writer are there after any later kill or loss of power: each
 * plfs_pwrite is one for each PLFS_LONGEST bytes that it began. After a failed sync none of this file succeeds. */
int64_t plfs_sync(plfs_file *file);

/* Of a writer: syncs, closes, and answers as plfs_sync does. Of a reader: closes it, and answers 0. The handle is gone whatever is
 * answered, NULL is taken, and a writer that could not be closed counts as open until plfs_unmount. */
int64_t plfs_close(plfs_file *file);

/* ---- readers: each sees what had landed as it was opened or last refreshed, whatever is written meanwhile */

/* Opens a reader, whose indices are read in so many shares, 1 to 16. *file is NULL where the call failed. PLFS_NO_FILE, PLFS_BAD_NAME, PLFS_BAD_NUMBER,
 * PLFS_NO_HANDLE, PLFS_DAMAGED. */
int plfs_open_read(plfs_fs *fs, const char *name, uint32_t workers, plfs_file **file);

/* Reads at most n bytes from this place on. Answers how many: fewer only at the file's end, or where a later request than the
 * first failed. Bytes that nobody wrote are zeros. */
int64_t plfs_pread(plfs_file *file, void *into, size_t n, uint64_t at);

/* Brings the reader to what a new one would see. Where that fails the reader is as it was. */
int plfs_refresh(plfs_file *file);

/* The size of the reader's file. */
int64_t plfs_size(plfs_file *file);

/* How many pieces the reader's file has: runs of bytes that lie side by side in one log. */
int64_t plfs_pieces(plfs_file *file);

/* ---- files by their names: PLFS_BAD_NAME, and PLFS_NO_FILE where there is none */

/* The size of what has landed. */
int64_t plfs_stat(plfs_fs *fs, const char *name);

/* Cuts the file to this size, or lengthens it by zeros, for readers that are opened later. PLFS_BUSY, PLFS_HELD, PLFS_TOO_FAR. */
int plfs_trunc(plfs_fs *fs, const char *name, uint64_t size);

/* Gives the file a new name. PLFS_BUSY, PLFS_HELD, PLFS_EXISTS. */
int plfs_rename(plfs_fs *fs, const char *name, const char *to);

/* Writes the index of all that has landed as one, from which later readers start. */
int plfs_flatten(plfs_fs *fs, const char *name);

/* Mends what writers left that died, and takes them off the open ones. Answers how many there were. */
int64_t plfs_recover(plfs_fs *fs, const char *name);

/* The names of all files, each with a line feed behind it, ended by a zero byte. Answers how many there are. *names is to be
 * freed, and NULL where the call failed. */
int64_t plfs_list(plfs_fs *fs, char **names);

#ifdef __cplusplus
}
#endif
#endif
