/* Refuses allocations of a program that this is preloaded into (LD_PRELOAD). The calls of malloc and realloc are counted from 1.

   REFUSE=N REFUSED=FILE: the Nth call gives nothing; FILE is then there.

   REFUSE_FROM=N REFUSED=FILE: at each call from the Nth on the process forks. The copy gets nothing from that call, and goes on to its end;
   then the process itself goes on, with memory. FILE gets for each copy a line with the call's number, the status that `waitpid` gives, and
   how many bytes the copy has in its standard output and its standard error, from the start of the process; these bytes follow. Both are
   files that can be read; what else is open may be a file that is only read, or a folder. */
#define _GNU_SOURCE
#include <dlfcn.h>
#include <errno.h>
#include <fcntl.h>
#include <stdio.h>
#include <stdlib.h>
#include <sys/wait.h>
#include <unistd.h>

#define MOST_FILES 64

static unsigned long long calls, refused, forked_from;
static const char *told;
static char out_path[4096], err_path[4096], bytes[65536];
static void *(*next_malloc)(size_t);
static void *(*next_realloc)(void *, size_t);

static unsigned long long number(const char *name)
{
    const char *text = getenv(name);

    return text ? strtoull(text, NULL, 10) : 0;
}

__attribute__((constructor)) static void begin(void)
{
    next_malloc = (void *(*)(size_t))dlsym(RTLD_NEXT, "malloc");
    next_realloc = (void *(*)(void *, size_t))dlsym(RTLD_NEXT, "realloc");
    told = getenv("REFUSED");
    snprintf(out_path, sizeof out_path, "%s.out", told ? told : "");
    snprintf(err_path, sizeof err_path, "%s.err", told ? told : "");
    calls = 0;
    refused = number("REFUSE");
    forked_from = number("REFUSE_FROM");
}

static void fail(const char *what)
{
    perror(what);
    _exit(125);
}

/* Appends the contents of a file to another, and returns how many bytes that is. */
static off_t copy(int from, int to)
{
    off_t at = 0;
    ssize_t count;

    while ((count = pread(from, bytes, sizeof bytes, at)) > 0) {
        if (write(to, bytes, (size_t)count) != count)
            fail("refuse: write");
        at += count;
    }
    return at;
}

/* Makes a copy of the process write to a separate file, after what was written before. */
static void write_apart(int file, const char *path)
{
    int own = open(path, O_RDWR | O_CREAT | O_TRUNC, 0600);

    if (own < 0)
        fail(path);
    copy(file, own);
    dup2(own, file);
    close(own);
}

/* Makes a copy of the process read on from the same place, without moving that of the process. */
static void read_apart(int file)
{
    char path[64];
    int flags = fcntl(file, F_GETFL), kept = fcntl(file, F_GETFD), own;
    off_t at = flags < 0 ? -1 : lseek(file, 0, SEEK_CUR);

    if (at < 0)
        return;
    snprintf(path, sizeof path, "/proc/self/fd/%d", file);
    own = open(path, flags & (O_ACCMODE | O_DIRECTORY));
    if (own < 0 || lseek(own, at, SEEK_SET) != at)
        fail(path);
    dup3(own, file, kept & FD_CLOEXEC ? O_CLOEXEC : 0);
    close(own);
}

/* Reports how a copy ended, and what it wrote. */
static void tell(int status)
{
    char line[128];
    int out = open(out_path, O_RDONLY), err = open(err_path, O_RDONLY), to = open(told, O_WRONLY | O_CREAT | O_APPEND, 0600), length;

    if (out < 0 || err < 0 || to < 0)
        fail(told);
    length = snprintf(line, sizeof line, "%llu %d %lld %lld\n", calls, status, (long long)lseek(out, 0, SEEK_END),
                      (long long)lseek(err, 0, SEEK_END));
    if (write(to, line, (size_t)length) != length)
        fail(told);
    copy(out, to);
    copy(err, to);
    close(out);
    close(err);
    close(to);
}

static int is_forked(void)
{
    int before = errno, status, file;
    pid_t other = fork();

    if (other < 0)
        fail("refuse: fork");
    if (other == 0) {
        forked_from = 0;
        write_apart(STDOUT_FILENO, out_path);
        write_apart(STDERR_FILENO, err_path);
        for (file = 0; file < MOST_FILES; file++)
            if (file != STDOUT_FILENO && file != STDERR_FILENO)
                read_apart(file);
        errno = ENOMEM;
        return 1;
    }
    while (waitpid(other, &status, 0) < 0)
        if (errno != EINTR)
            fail("refuse: waitpid");
    tell(status);
    errno = before;
    return 0;
}

static int is_refused(void)
{
    int file;

    calls++;
    if (forked_from && calls >= forked_from)
        return is_forked();
    if (calls != refused)
        return 0;
    file = told ? open(told, O_WRONLY | O_CREAT, 0600) : -1;
    if (file >= 0)
        close(file);
    errno = ENOMEM;
    return 1;
}

void *malloc(size_t size)
{
    if (!next_malloc)
        next_malloc = (void *(*)(size_t))dlsym(RTLD_NEXT, "malloc");
    return is_refused() ? NULL : next_malloc(size);
}

void *realloc(void *block, size_t size)
{
    if (!next_realloc)
        next_realloc = (void *(*)(void *, size_t))dlsym(RTLD_NEXT, "realloc");
    return is_refused() ? NULL : next_realloc(block, size);
}
