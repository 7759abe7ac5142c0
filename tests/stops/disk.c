/* Stops a program at one call on its database files, or fails that call. LD_PRELOAD this with

     DISK_CALLS=read|write|sync  which calls are counted: pread; pwrite and ftruncate; fsync and fdatasync
     DISK_AT=N                   the Nth of them
     DISK_DOES=stop|half|after|fail|full|lose   end the process before it, with half of the bytes written, or after it; or refuse
                                 the call with EIO or ENOSPC, with `full` each later write too, and with `lose` each later call
     DISK_TOLD=FILE              is there once the call was met
     DISK_KEPT=FOLDER            with `lose` has, by its inode, what each file held when it was last synced

   Streams of standard input and output go by read and write, which are left alone. */
#define _GNU_SOURCE
#include <dlfcn.h>
#include <errno.h>
#include <fcntl.h>
#include <signal.h>
#include <stdio.h>
#include <stdlib.h>
#include <string.h>
#include <sys/stat.h>
#include <sys/types.h>
#include <unistd.h>

enum kind { READ, WRITE, SYNC };
enum action { GO, REFUSE, HALF, AFTER };

static unsigned long long calls, at;
static enum kind counted;
static const char *does = "", *told, *kept;
static int is_full, is_lost;

__attribute__((constructor)) static void begin(void)
{
    const char *number = getenv("DISK_AT"), *kind = getenv("DISK_CALLS"), *what = getenv("DISK_DOES");

    at = number ? strtoull(number, NULL, 10) : 0;
    counted = kind && !strcmp(kind, "read") ? READ : kind && !strcmp(kind, "sync") ? SYNC : WRITE;
    does = what ? what : "";
    told = getenv("DISK_TOLD");
    kept = getenv("DISK_KEPT");
}

static void end(void)
{
    kill(getpid(), SIGKILL);
    for (;;)
        pause();
}

static enum action met(enum kind kind)
{
    int file;

    if (kind == WRITE && is_full) {
        errno = ENOSPC;
        return REFUSE;
    }
    if (is_lost) {
        errno = EIO;
        return REFUSE;
    }
    if (kind != counted || ++calls != at)
        return GO;
    file = told ? open(told, O_WRONLY | O_CREAT, 0600) : -1;
    if (file >= 0)
        close(file);
    if (!strcmp(does, "stop"))
        end();
    if (!strcmp(does, "half"))
        return HALF;
    if (!strcmp(does, "after"))
        return AFTER;
    is_full = !strcmp(does, "full");
    is_lost = !strcmp(does, "lose");
    errno = is_full ? ENOSPC : EIO;
    return REFUSE;
}

#define NEXT(type, name) ((type)dlsym(RTLD_NEXT, name))

typedef ssize_t (*reader)(int, void *, size_t, off_t);
typedef ssize_t (*writer)(int, const void *, size_t, off_t);
typedef int (*cutter)(int, off_t);
typedef int (*syncer)(int);

static ssize_t read_by(reader next, int file, void *bytes, size_t size, off_t place)
{
    return met(READ) == GO ? next(file, bytes, size, place) : -1;
}

static ssize_t write_by(writer next, int file, const void *bytes, size_t size, off_t place)
{
    ssize_t put;

    switch (met(WRITE)) {
    case REFUSE:
        return -1;
    case HALF:
        next(file, bytes, size / 2, place);
        end();
        return -1;
    case AFTER:
        next(file, bytes, size, place);
        end();
        return -1;
    default:
        put = next(file, bytes, size, place);
        return put;
    }
}

static int cut_by(cutter next, int file, off_t size)
{
    switch (met(WRITE)) {
    case REFUSE:
        return -1;
    case HALF:
    case AFTER:
        next(file, size);
        end();
        return -1;
    default:
        return next(file, size);
    }
}

/* Copies the file, which was synced, into the folder of kept files. */
static int keep(int file)
{
    reader next = NEXT(reader, "pread");
    char bytes[65536], path[4096];
    struct stat about;
    off_t place = 0;
    ssize_t count;
    FILE *copy;

    if (!kept)
        return 0;
    if (fstat(file, &about) != 0)
        return -1;
    snprintf(path, sizeof path, "%s/%llu", kept, (unsigned long long)about.st_ino);
    copy = fopen(path, "wb");
    if (!copy)
        return -1;
    while ((count = next(file, bytes, sizeof bytes, place)) > 0) {
        fwrite(bytes, 1, (size_t)count, copy);
        place += count;
    }
    return fclose(copy);
}

static int sync_by(syncer next, int file)
{
    switch (met(SYNC)) {
    case REFUSE:
        return -1;
    case HALF:
    case AFTER:
        next(file);
        end();
        return -1;
    default:
        return next(file) == 0 ? keep(file) : -1;
    }
}

ssize_t pread(int file, void *bytes, size_t size, off_t place)
{
    return read_by(NEXT(reader, "pread"), file, bytes, size, place);
}

ssize_t pread64(int file, void *bytes, size_t size, off_t place)
{
    return read_by(NEXT(reader, "pread64"), file, bytes, size, place);
}

ssize_t pwrite(int file, const void *bytes, size_t size, off_t place)
{
    return write_by(NEXT(writer, "pwrite"), file, bytes, size, place);
}

ssize_t pwrite64(int file, const void *bytes, size_t size, off_t place)
{
    return write_by(NEXT(writer, "pwrite64"), file, bytes, size, place);
}

int ftruncate(int file, off_t size)
{
    return cut_by(NEXT(cutter, "ftruncate"), file, size);
}

int ftruncate64(int file, off_t size)
{
    return cut_by(NEXT(cutter, "ftruncate64"), file, size);
}

int fsync(int file)
{
    return sync_by(NEXT(syncer, "fsync"), file);
}

int fdatasync(int file)
{
    return sync_by(NEXT(syncer, "fdatasync"), file);
}
