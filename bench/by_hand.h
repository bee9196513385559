/* What programs share that make the container `f` of one writer by hand, in the folder where they run: the same names, writes, flushes
   and syncs as plfs makes. No name is checked, and a container that is there is none of their cases. They end with 1 where something
   fails, and run on Linux. */
#include <dirent.h>
#include <fcntl.h>
#include <stdint.h>
#include <stdio.h>
#include <stdlib.h>
#include <string.h>
#include <sys/stat.h>
#include <time.h>
#include <unistd.h>

enum { MOST = 1 << 20, PENDING = 64, ENTRY = 40 };

#define ID "4294967297"

static void must(int holds, const char *what)
{
    if (!holds) {
        perror(what);
        exit(1);
    }
}

/* All of standard input, of MOST bytes at the most: how many. There is room for one more. */
static size_t read_input(uint8_t *input)
{
    size_t length = 0;
    for (ssize_t some; (some = read(0, input + length, MOST + 1 - length)) != 0; length += (size_t)some)
        must(some > 0, "the input");
    must(length <= MOST, "the input");
    return length;
}

static void sync_folder(const char *folder)
{
    int open_folder = open(folder, O_RDONLY | O_DIRECTORY);
    must(open_folder >= 0, folder);
    must(fsync(open_folder) == 0, folder);
    close(open_folder);
}

static void new_folder(const char *above, const char *folder)
{
    must(mkdir(folder, 0777) == 0, folder);
    sync_folder(above);
}

static int new_file(const char *above, const char *file)
{
    int made = open(file, O_RDWR | O_CREAT | O_EXCL, 0666);
    must(made >= 0, file);
    sync_folder(above);
    return made;
}

static void list(const char *folder)
{
    DIR *open_folder = opendir(folder);
    must(open_folder != NULL, folder);
    while (readdir(open_folder) != NULL) {
    }
    closedir(open_folder);
}

/* The mark of a first mount, and an empty container. */
static void new_container(void)
{
    new_folder(".", ".plfs");
    new_folder(".plfs", ".plfs/mounts");
    close(new_file(".plfs/mounts", ".plfs/mounts/1"));
    new_folder(".", ".new.0");
    new_folder(".new.0", ".new.0/openhosts");
    new_folder(".new.0", ".new.0/metadata");
    new_folder(".new.0", ".new.0/truncs");
    new_folder(".new.0", ".new.0/flats");
    close(new_file(".new.0", ".new.0/access"));
    must(rename(".new.0", "f") == 0, "f");
    sync_folder(".");
}

static uint8_t *put_number(uint8_t *to, uint64_t number)
{
    for (int place = 0; place < 8; place++)
        *to++ = (uint8_t)(number >> (8 * place));
    return to;
}

static uint64_t now(void)
{
    struct timespec time;
    clock_gettime(CLOCK_REALTIME, &time);
    return (uint64_t)time.tv_sec * 1000000000 + (uint64_t)time.tv_nsec;
}

/* A writer: its files, how many bytes are in them, the last stamp, where its greatest write ends, and the entries that are not in the index. */
struct writer {
    int index, log;
    uint64_t stored, landed, last, end;
    size_t pending;
    uint8_t entries[PENDING * ENTRY];
};

/* Makes the mark, the container and its writer. */
static void open_writer(struct writer *writer)
{
    memset(writer, 0, sizeof *writer);
    new_container();
    close(new_file("f/openhosts", "f/openhosts/0." ID));
    list("f/truncs");
    new_folder("f", "f/hostdir.0");
    writer->index = new_file("f/hostdir.0", "f/hostdir.0/index.0." ID);
    writer->log = new_file("f/hostdir.0", "f/hostdir.0/log.0." ID);
}

static void flush(struct writer *writer)
{
    must(pwrite(writer->index, writer->entries, writer->pending, (off_t)writer->landed) == (ssize_t)writer->pending, "the index");
    writer->landed += writer->pending;
    writer->pending = 0;
}

/* Writes the bytes at this place of the file: the stamp. */
static uint64_t append(struct writer *writer, uint64_t at, const uint8_t *bytes, size_t size)
{
    if (writer->pending == sizeof writer->entries)
        flush(writer);
    must(pwrite(writer->log, bytes, size, (off_t)writer->stored) == (ssize_t)size, "the log");
    uint64_t time = now();
    writer->last = time > writer->last ? time : writer->last + 1;
    put_number(put_number(put_number(put_number(put_number(writer->entries + writer->pending, at), size), writer->stored), writer->last), 4294967297);
    writer->pending += ENTRY;
    writer->stored += size;
    if (at + size > writer->end)
        writer->end = at + size;
    return writer->last;
}

/* Syncs and closes it. */
static void close_writer(struct writer *writer)
{
    must(fsync(writer->log) == 0, "the log");
    flush(writer);
    must(fsync(writer->index) == 0, "the index");
    char closed[200];
    snprintf(closed, sizeof closed, "f/metadata/%llu.%llu.%llu.0." ID, (unsigned long long)writer->end, (unsigned long long)writer->stored, (unsigned long long)writer->last);
    close(new_file("f/metadata", closed));
    must(unlink("f/openhosts/0." ID) == 0, "f/openhosts");
    sync_folder("f/openhosts");
}
